//! GIMP texts, read and written.

use super::answer;
use crate::{ffi, Color, ParseGgrError, Refusal};

/// Stops of a list that is written as a GIMP text.
pub const MOST_WRITTEN: usize = 257;
/// Bytes of a number that is written.
pub const MOST_NUMERAL: usize = 18;

/// Where the segments of a GIMP text go; what lies past the last one stays.
#[derive(PartialEq, Debug)]
pub struct SegmentsMut<'a> {
    /// Three positions for each segment.
    pub positions: &'a mut [f32],
    /// Eight channels for each segment.
    pub channels: &'a mut [f32],
    /// Two codes for each segment.
    pub codes: &'a mut [u8],
}

fn segments_of(refusal: u32, [line, segments]: [usize; 2]) -> Result<usize, ParseGgrError> {
    answer(refusal, segments).map_err(|refusal| ParseGgrError { refusal, line })
}

/// Reads a GIMP text by document 01's rules: how many segments.
///
/// # Errors
/// Any of 2, 10 to 16, 18, with its line; it sets all of `out` to zero.
pub fn read(text: &[u8], foreground: Color, background: Color, out: SegmentsMut<'_>) -> Result<usize, ParseGgrError> {
    let SegmentsMut { positions, channels, codes } = out;
    let Color { r, g, b, a } = foreground;
    let Color { r: br, g: bg, b: bb, a: ba } = background;
    let mut told = [0; 2];
    let refusal = ffi::read(text, r, g, b, a, br, bg, bb, ba, positions, channels, codes, &mut told);
    segments_of(refusal, told)
}

/// Reads a GIMP text as GIMP itself saves it: its numbers may be long, its name in UTF-8, its segments curved. What [`read`]
/// reads is read the same.
///
/// # Errors
/// Any of 2, 10 to 16, 18, with its line; it sets all of `out` to zero.
pub fn read_saved(
    text: &[u8],
    foreground: Color,
    background: Color,
    out: SegmentsMut<'_>,
) -> Result<usize, ParseGgrError> {
    let SegmentsMut { positions, channels, codes } = out;
    let Color { r, g, b, a } = foreground;
    let Color { r: br, g: bg, b: bb, a: ba } = background;
    let mut told = [0; 2];
    let refusal = ffi::read_saved(text, r, g, b, a, br, bg, bb, ba, positions, channels, codes, &mut told);
    segments_of(refusal, told)
}

/// How long the name in a GIMP text is. Its bytes are written where `out` holds them all, else it stays as it was. 0 where
/// the text would be refused with room for 256 segments.
pub fn name(text: &[u8], out: &mut [u8]) -> usize {
    ffi::name(text, out)
}

/// The same of a text that [`read_saved`] reads; it is UTF-8.
pub fn name_saved(text: &[u8], out: &mut [u8]) -> usize {
    ffi::name_saved(text, out)
}

/// Bytes that are enough for a GIMP text of so many stops: with this room, 7 is never given.
#[must_use]
pub const fn written_bytes(stops: usize) -> usize {
    34 + 213 * stops.saturating_sub(1)
}

/// Writes a list, n positions and 4n channels, as a GIMP text named `flattened`, and says how many bytes it has; what lies
/// past them stays.
///
/// # Errors
/// 1 (fewer than 2 stops, more than [`MOST_WRITTEN`], or lengths that disagree) and 3 leave `text` as it was; 19 and 7 set all
/// of it to zero.
pub fn write_ggr(positions: &[f32], channels: &[f32], text: &mut [u8]) -> Result<usize, Refusal> {
    let mut told = [0];
    let refusal = ffi::write_ggr(positions, channels, text, &mut told);
    answer(refusal, told[0])
}

/// How long the text of a number is in a GIMP text, 0 where it cannot be written. Its bytes are written where `out` holds
/// them all, else it stays as it was; [`MOST_NUMERAL`] always suffice.
pub fn numeral(x: f32, out: &mut [u8]) -> usize {
    ffi::numeral(x, out)
}
