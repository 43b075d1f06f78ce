//! What is said of a list, whoever made it.

use super::{answer, with_ramp, Ramp};
use crate::{Refusal, Verdict};

/// In the byte of a depth ([`Ramp::apart`]): the list's colour is too far from the ramp's.
pub const MOVED: u8 = 1;
/// The ramp itself does not tell it from the depth before, which is no fault of the list.
pub const CLOSE: u8 = 2;
/// The ramp tells it from the depth before, and the list does not.
pub const MERGED: u8 = 4;

/// How many depths have each fault ([`Ramp::apart`]).
#[derive(Clone, Copy, PartialEq, Eq, Debug)]
pub struct Apart {
    /// Depths with [`MOVED`].
    pub moved: usize,
    /// Depths with [`CLOSE`].
    pub close: usize,
    /// Depths with [`MERGED`].
    pub merged: usize,
    /// The first merged one, counted from 0.
    pub first_merged: Option<usize>,
}

impl Ramp<'_> {
    /// What is to be said of a list of stops, one position and four channels each, that was made elsewhere. Lengths that
    /// disagree are a wrong length.
    ///
    /// # Errors
    /// 1 to 4, of the ramp alone.
    pub fn judge(&self, threshold: f32, positions: &[f32], channels: &[f32]) -> Result<Verdict, Refusal> {
        let (mut told, mut t) = ([0; 4], [0.0]);
        let refusal = with_ramp!(judge, self, threshold, positions, channels, &mut told, &mut t);
        answer(refusal, ()).map(|()| Verdict::told(told, t[0]))
    }

    /// Which depths became one in a list of stops, one position and four channels each, whoever made it: a byte for each depth
    /// is written, the sum of [`MOVED`], [`CLOSE`] and [`MERGED`]; what lies past them stays. Two colours are told apart where
    /// they differ by more than the step.
    ///
    /// # Errors
    /// 1 to 4 of the ramp, 22 where [`judge`](Ramp::judge) would turn the list down before it asks for colours, 23 of the
    /// depths, 24 of the step: all of these leave `faults` as it was. 7, where there are fewer bytes than depths, sets it to
    /// zero.
    pub fn apart(
        &self,
        threshold: f32,
        step: f32,
        depths: &[f32],
        positions: &[f32],
        channels: &[f32],
        faults: &mut [u8],
    ) -> Result<Apart, Refusal> {
        let mut told = [0; 4];
        let refusal = with_ramp!(apart, self, threshold, step, depths, positions, channels, faults, &mut told);
        let [moved, close, merged, first] = told;
        let first_merged = (merged > 0).then_some(first);
        answer(refusal, Apart { moved, close, merged, first_merged })
    }
}
