//! Colours of ramps, and ramps built of colours.

use crate::harness::ffi;
use crate::harness::ours::{answer, UNTOLD};
use crate::harness::ramps::Ramp;

pub fn at(ramp: &Ramp, t: f32) -> Result<[f32; 4], u32> {
    let mut colour = [f32::NAN; 4];
    let refusal = over!(ramp, at(t, &mut colour));
    answer(refusal, colour)
}

/// 0, or the number of the refusal.
pub fn paint(ramp: &Ramp, ts: &[f32], out: &mut [f32]) -> u32 {
    over!(ramp, paint(ts, out))
}

/// How many stops were built.
pub fn build_sharp(
    colours: &[f32],
    (min, max): (f32, f32),
    softness: f32,
    positions: &mut [f32],
    channels: &mut [f32],
) -> Result<usize, u32> {
    let mut told = [UNTOLD];
    let refusal = ffi::sharp(colours, min, max, softness, positions, channels, &mut told);
    answer(refusal, told[0])
}
