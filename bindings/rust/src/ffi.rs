//! The exports of the library, each declared once, as `include/colorgrad_calls.h` has them, and a safe call for it under
//! its name without `colorgrad_` and `_told`. A slice goes over as its pointer and its length. The unsafe code of this
//! crate is here, but for one view of colours as their channels.

const _: () = assert!(usize::BITS == 64, "the library's lengths have 64 bits");

/// Declares each export, and the function that calls it.
macro_rules! exports {
    ($($call:ident = $export:ident($($given:tt)*) -> $answer:ty;)*) => {
        $(export!($call $export $answer; [$($given)*,] [] [] []);)*
    };
}

/// Takes one parameter after the other: what is declared of it, what the call takes, and what it hands over.
macro_rules! export {
    ($call:ident $export:ident $answer:ty; [$(,)?] [$($declared:tt)*] [$($taken:tt)*] [$($handed:tt)*]) => {
        #[allow(clippy::too_many_arguments, clippy::many_single_char_names)]
        pub fn $call($($taken)*) -> $answer {
            extern "C" {
                fn $export($($declared)*) -> $answer;
            }
            #[cfg(all(test, feature = "std"))]
            crate::reached::note(stringify!($export));
            // SAFETY: each pointer and length is a slice's own, exclusive where it is written, and alive until the call
            // returns; the library is proved to touch nothing else, for any contents and lengths.
            unsafe { $export($($handed)*) }
        }
    };
    ($call:ident $export:ident $answer:ty; [$name:ident: &[$item:ty], $($rest:tt)*] [$($d:tt)*] [$($t:tt)*] [$($h:tt)*]) => {
        export!($call $export $answer; [$($rest)*]
            [$($d)* $name: *const $item, _: usize,] [$($t)* $name: &[$item],] [$($h)* $name.as_ptr(), $name.len(),]);
    };
    ($call:ident $export:ident $answer:ty; [$name:ident: &mut [$item:ty], $($rest:tt)*] [$($d:tt)*] [$($t:tt)*] [$($h:tt)*]) => {
        export!($call $export $answer; [$($rest)*]
            [$($d)* $name: *mut $item, _: usize,] [$($t)* $name: &mut [$item],] [$($h)* $name.as_mut_ptr(), $name.len(),]);
    };
    ($call:ident $export:ident $answer:ty; [$name:ident: $number:ty, $($rest:tt)*] [$($d:tt)*] [$($t:tt)*] [$($h:tt)*]) => {
        export!($call $export $answer; [$($rest)*] [$($d)* $name: $number,] [$($t)* $name: $number,] [$($h)* $name,]);
    };
}

exports! {
    check = colorgrad_check(kind: u32, positions: &[f32], channels: &[f32], codes: &[u8]) -> u32;
    domain = colorgrad_domain_told(
        kind: u32, positions: &[f32], channels: &[f32], codes: &[u8], ends: &mut [f32]
    ) -> u32;
    at = colorgrad_at_told(
        kind: u32, positions: &[f32], channels: &[f32], codes: &[u8], t: f32, colour: &mut [f32]
    ) -> u32;
    paint = colorgrad_paint(
        kind: u32, positions: &[f32], channels: &[f32], codes: &[u8], ts: &[f32], out: &mut [f32]
    ) -> u32;
    sharp = colorgrad_sharp_told(
        colours: &[f32], min: f32, max: f32, softness: f32, positions: &mut [f32], channels: &mut [f32], told: &mut [usize]
    ) -> u32;
    read = colorgrad_read_told(
        text: &[u8], foreground_r: f32, foreground_g: f32, foreground_b: f32, foreground_a: f32,
        background_r: f32, background_g: f32, background_b: f32, background_a: f32,
        positions: &mut [f32], channels: &mut [f32], codes: &mut [u8], told: &mut [usize]
    ) -> u32;
    read_saved = colorgrad_read_saved_told(
        text: &[u8], foreground_r: f32, foreground_g: f32, foreground_b: f32, foreground_a: f32,
        background_r: f32, background_g: f32, background_b: f32, background_a: f32,
        positions: &mut [f32], channels: &mut [f32], codes: &mut [u8], told: &mut [usize]
    ) -> u32;
    name = colorgrad_name(text: &[u8], out: &mut [u8]) -> usize;
    name_saved = colorgrad_name_saved(text: &[u8], out: &mut [u8]) -> usize;
    write_ggr = colorgrad_write_ggr_told(positions: &[f32], channels: &[f32], text: &mut [u8], told: &mut [usize]) -> u32;
    numeral = colorgrad_numeral(x: f32, out: &mut [u8]) -> usize;
    sample = colorgrad_sample_told(
        kind: u32, positions: &[f32], channels: &[f32], codes: &[u8], threshold: f32,
        rows: &mut [f32], counts: &mut [u8], marks: &mut [u32], told: &mut [usize]
    ) -> u32;
    thin = colorgrad_thin_told(
        kind: u32, positions: &[f32], channels: &[f32], codes: &[u8], threshold: f32,
        rows: &[f32], counts: &[u8], marks: &[u32], places: &mut [f32], colours: &mut [f32], told: &mut [usize]
    ) -> u32;
    flatten = colorgrad_flatten_told(
        kind: u32, positions: &[f32], channels: &[f32], codes: &[u8], threshold: f32,
        rows: &mut [f32], counts: &mut [u8], marks: &mut [u32], places: &mut [f32], colours: &mut [f32], told: &mut [usize]
    ) -> u32;
    thin_within = colorgrad_thin_within_told(
        kind: u32, positions: &[f32], channels: &[f32], codes: &[u8], threshold: f32, hold: f32,
        rows: &[f32], counts: &[u8], marks: &[u32], places: &mut [f32], colours: &mut [f32], told: &mut [usize]
    ) -> u32;
    flatten_within = colorgrad_flatten_within_told(
        kind: u32, positions: &[f32], channels: &[f32], codes: &[u8], threshold: f32, hold: f32,
        rows: &mut [f32], counts: &mut [u8], marks: &mut [u32], places: &mut [f32], colours: &mut [f32], told: &mut [usize]
    ) -> u32;
    next_stop = colorgrad_next_stop_told(
        kind: u32, positions: &[f32], channels: &[f32], codes: &[u8], threshold: f32,
        rows: &[f32], counts: &[u8], marks: &[u32], state: u32, row: u32, index: u32, told: &mut [usize], stop: &mut [f32]
    ) -> u32;
    judge = colorgrad_judge_told(
        kind: u32, positions: &[f32], channels: &[f32], codes: &[u8], threshold: f32,
        places: &[f32], colours: &[f32], told: &mut [usize], t: &mut [f32]
    ) -> u32;
    apart = colorgrad_apart_told(
        kind: u32, positions: &[f32], channels: &[f32], codes: &[u8], threshold: f32, step: f32,
        depths: &[f32], places: &[f32], colours: &[f32], faults: &mut [u8], told: &mut [usize]
    ) -> u32;
    edit = colorgrad_edit_told(
        kind: u32, positions: &[f32], channels: &[f32], codes: &[u8],
        sort: u32, stop: usize, position: f32, r: f32, g: f32, b: f32, a: f32, threshold: f32,
        rows: &mut [f32], counts: &mut [u8], marks: &mut [u32], told: &mut [usize]
    ) -> u32;
    edit_list = colorgrad_edit_list_told(
        kind: u32, positions: &[f32], channels: &[f32], codes: &[u8],
        sort: u32, stop: usize, position: f32, r: f32, g: f32, b: f32, a: f32, threshold: f32,
        rows: &mut [f32], counts: &mut [u8], marks: &mut [u32], places: &mut [f32], colours: &mut [f32], told: &mut [usize]
    ) -> u32;
    sheet_open = colorgrad_sheet_open_told(
        kind: u32, positions: &[f32], channels: &[f32], codes: &[u8], stops: usize,
        threshold: f32, list_sort: u32, hold: f32,
        rows: &mut [f32], counts: &mut [u8], marks: &mut [u32], places: &mut [f32], colours: &mut [f32], told: &mut [usize]
    ) -> u32;
    sheet_edit = colorgrad_sheet_edit_told(
        kind: u32, positions: &mut [f32], channels: &mut [f32], codes: &[u8], stops: usize,
        sort: u32, stop: usize, position: f32, r: f32, g: f32, b: f32, a: f32, threshold: f32, list_sort: u32, hold: f32,
        rows: &mut [f32], counts: &mut [u8], marks: &mut [u32], places: &mut [f32], colours: &mut [f32], told: &mut [usize]
    ) -> u32;
    desk = colorgrad_desk(input: &[u8], output: &mut [u8]) -> usize;
    threshold = colorgrad_threshold(asked: f32) -> f32;
    hold = colorgrad_hold(asked: f32, threshold: f32) -> f32;
    root = colorgrad_root(x: f32) -> f32;
    cutoff = colorgrad_cutoff(t: f32) -> f32;
    token = colorgrad_token_told(text: &[u8], value: &mut [f32]) -> u32;
    long_token = colorgrad_long_token_told(text: &[u8], value: &mut [f32]) -> u32;
    message = colorgrad_message_told(refusal: u32, out: &mut [u8]) -> usize;
    verdict_message = colorgrad_verdict_message_told(verdict: u32, out: &mut [u8]) -> usize;
    version = colorgrad_version() -> u32;
}
