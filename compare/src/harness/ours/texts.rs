//! GIMP texts read and written.

use crate::harness::ffi;
use crate::harness::ours::{answer, UNTOLD};

/// How many segments were read, or the number of the refusal and its line.
pub fn read(
    text: &[u8],
    (foreground, background): ([f32; 4], [f32; 4]),
    positions: &mut [f32],
    channels: &mut [f32],
    codes: &mut [u8],
) -> Result<usize, (u32, usize)> {
    let mut told = [UNTOLD; 2];
    let ([r, g, b, a], [s, h, c, o]) = (foreground, background);
    let refusal = ffi::read(text, r, g, b, a, s, h, c, o, positions, channels, codes, &mut told);
    let [line, segments] = told;
    answer(refusal, segments).map_err(|number| (number, line))
}

/// The name; an output that is too short must stay as it is.
pub fn name(text: &[u8]) -> Vec<u8> {
    let length = ffi::name(text, &mut []);
    let mut out = vec![0; length];
    assert_eq!(length, ffi::name(text, &mut out), "one text has one name");
    out
}

/// The same two of texts as GIMP saves them.
pub fn read_saved(
    text: &[u8],
    (foreground, background): ([f32; 4], [f32; 4]),
    positions: &mut [f32],
    channels: &mut [f32],
    codes: &mut [u8],
) -> Result<usize, (u32, usize)> {
    let mut told = [UNTOLD; 2];
    let ([r, g, b, a], [s, h, c, o]) = (foreground, background);
    let refusal = ffi::read_saved(text, r, g, b, a, s, h, c, o, positions, channels, codes, &mut told);
    let [line, segments] = told;
    answer(refusal, segments).map_err(|number| (number, line))
}

pub fn name_saved(text: &[u8]) -> Vec<u8> {
    let length = ffi::name_saved(text, &mut []);
    let mut out = vec![0; length];
    assert_eq!(length, ffi::name_saved(text, &mut out), "one text has one name");
    out
}

/// How many bytes were written.
pub fn write_ggr(positions: &[f32], channels: &[f32], text: &mut [u8]) -> Result<usize, u32> {
    let mut told = [UNTOLD];
    let refusal = ffi::write_ggr(positions, channels, text, &mut told);
    answer(refusal, told[0])
}
