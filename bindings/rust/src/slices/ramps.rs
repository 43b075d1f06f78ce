//! A ramp as it is lent, and its colours.

use super::{answer, with_ramp, StopsMut};
use crate::{ffi, Color, Refusal};

/// How many stops a ramp may have.
pub const MOST_STOPS: usize = 2048;
/// How many segments a GIMP ramp may have.
pub const MOST_SEGMENTS: usize = 256;

/// The kinds of ramp, with the codes that the library knows them by.
#[derive(Clone, Copy, PartialEq, Eq, Hash, Debug)]
#[repr(u32)]
pub enum Kind {
    /// Colours mixed linearly between stops.
    Linear = 0,
    /// Mixed by a smooth step.
    Smoothstep = 1,
    /// Flat bands with soft edges: pairs of stops.
    Sharp = 2,
    /// A basis spline.
    Basis = 3,
    /// A Catmull-Rom spline.
    CatmullRom = 4,
    /// The segments of a GIMP gradient, none of them curved.
    Gimp = 5,
    /// The same with the same colours, and curved segments too: all that GIMP saves.
    GimpSaved = 6,
}

/// A ramp as it is lent.
///
/// Stops are n positions and 4n channels, with no codes. GIMP segments are 3n positions (left, middle, right), 8n channels
/// (left, then right) and 2n codes (blending, colouring). Colouring 0 is RGB; 1 and 2 are HSV, with hues that rise and that
/// fall from the left colour to the right one.
#[derive(Clone, Copy, PartialEq, Debug)]
pub struct Ramp<'a> {
    /// What the slices stand for.
    pub kind: Kind,
    /// The positions of stops or segments.
    pub positions: &'a [f32],
    /// Their colours, four channels each.
    pub channels: &'a [f32],
    /// The codes of segments; empty for stops.
    pub codes: &'a [u8],
}

impl Ramp<'_> {
    /// Whether other calls take the ramp.
    ///
    /// # Errors
    /// 1, 2, 3.
    pub fn check(&self) -> Result<(), Refusal> {
        answer(with_ramp!(check, self), ())
    }

    /// The ends of the domain; 0 and 1 for GIMP segments.
    ///
    /// # Errors
    /// 1, 2, 3.
    pub fn domain(&self) -> Result<(f32, f32), Refusal> {
        let mut ends = [0.0; 2];
        let refusal = with_ramp!(domain, self, &mut ends);
        answer(refusal, (ends[0], ends[1]))
    }

    /// The colour at t.
    ///
    /// # Errors
    /// 1, 2, 3.
    pub fn at(&self, t: f32) -> Result<Color, Refusal> {
        let mut channels = [0.0; 4];
        let refusal = with_ramp!(at, self, t, &mut channels);
        answer(refusal, channels.into())
    }

    /// Writes the colours at `ts`, four channels each; what lies past them stays.
    ///
    /// # Errors
    /// 1, 2, 3 leave `out` as it was; 7 sets it to zero.
    pub fn paint(&self, ts: &[f32], out: &mut [f32]) -> Result<(), Refusal> {
        answer(with_ramp!(paint, self, ts, out), ())
    }
}

/// Builds a sharp ramp of colours, four channels each: how many stops, two for each colour.
///
/// # Errors
/// 17, 1 (room too small) and 2 leave `out` as it was.
pub fn sharp(colors: &[f32], domain: (f32, f32), softness: f32, out: StopsMut<'_>) -> Result<usize, Refusal> {
    let StopsMut { positions, channels } = out;
    let (min, max) = domain;
    let mut told = [0];
    let refusal = ffi::sharp(colors, min, max, softness, positions, channels, &mut told);
    answer(refusal, told[0])
}
