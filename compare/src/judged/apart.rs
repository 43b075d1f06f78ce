//! Which depths became one: the rule of `apart`, worked out here from its words alone, over any colours.

use crate::harness::oracle;
use crate::judged::judge::{distance, fault_of_shape, List};

pub const MOVED: u8 = 1;
pub const CLOSE: u8 = 2;
pub const MERGED: u8 = 4;

/// What is asked of a list, with the threshold as it is asked for.
#[derive(Clone, Debug)]
pub struct Asked {
    pub threshold: f32,
    pub step: f32,
    pub depths: Vec<f32>,
}

impl Asked {
    /// The refusal where the ramp is none of it: 22, 23, 24, 7, or 0.
    pub fn refusal(&self, domain: (f32, f32), list: &List, room: usize) -> u32 {
        if fault_of_shape(domain, list).is_some() {
            22
        } else if self.are_depths_bad(domain) {
            23
        } else if !self.step.is_finite() || self.step < 0.0 {
            24
        } else if room < self.depths.len() {
            7
        } else {
            0
        }
    }

    /// None, not finite, outside min..max, or falling.
    fn are_depths_bad(&self, (min, max): (f32, f32)) -> bool {
        let is_inside = |d: &f32| d.is_finite() && *d >= min && *d <= max;
        let falls = |pair: &[f32]| pair[1] < pair[0];
        self.depths.is_empty() || !self.depths.iter().all(is_inside) || self.depths.windows(2).any(falls)
    }

    /// The byte of each depth, where nothing is refused.
    pub fn faults(&self, ramp: &dyn Fn(f32) -> [f32; 4], list: &dyn Fn(f32) -> [f32; 4]) -> Vec<u8> {
        let threshold = oracle::clamped(self.threshold);
        let colours: Vec<_> = self.depths.iter().map(|d| (ramp(*d), list(*d))).collect();
        let moved = |(c, l): &([f32; 4], [f32; 4])| if distance(*c, *l) <= threshold { 0 } else { MOVED };
        let beside = |i: usize| {
            let ((c, l), (before, list_before)) = (colours[i], colours[i - 1]);
            let is_apart = |x, y| distance(x, y) > self.step;
            match (is_apart(before, c), is_apart(list_before, l)) {
                (false, _) => CLOSE,
                (true, false) => MERGED,
                (true, true) => 0,
            }
        };
        (0..colours.len()).map(|i| moved(&colours[i]) + if i == 0 { 0 } else { beside(i) }).collect()
    }
}

/// How many moved, are close, are merged, and the first merged one: the number of depths where there is none.
pub fn counted(faults: &[u8]) -> [usize; 4] {
    let with = |bit: u8| faults.iter().filter(|fault| *fault & bit != 0).count();
    let first = faults.iter().position(|fault| fault & MERGED != 0).unwrap_or(faults.len());
    [with(MOVED), with(CLOSE), with(MERGED), first]
}
