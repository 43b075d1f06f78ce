//! The stored colours.

use crate::harness::limits;
use crate::harness::options::Options;
use crate::harness::ramps::{Kind, Ramp, KINDS};
use crate::harness::random::Random;
use crate::harness::random_ramps::random_points;
use crate::stored::drawn::short;
use crate::stored::words::Words;

/// Ramps of each kind, and points of each ramp.
const RAMPS: u64 = 30;
const POINTS: usize = 14;
/// Points of each ramp at a limit.
const MOST_TURNS: usize = 24;

pub fn run(options: &Options, words: &mut Words) {
    let fixed = fixed();
    words.size(KINDS.len() * RAMPS as usize + fixed.len());
    for kind in KINDS {
        for case in 0..RAMPS {
            let mut random = Random::of_case(8 * options.seed + kind.code() as u64, case);
            let ramp = short(&mut random, kind);
            let points = random_points(&mut random, &ramp, POINTS);
            words.colours(&ramp, &points);
        }
    }
    for ramp in &fixed {
        let turns = limits::turns(ramp);
        let points: Vec<f32> = turns.iter().step_by(turns.len().div_ceil(MOST_TURNS)).copied().collect();
        words.colours(ramp, &points);
    }
    words.printed("colours");
}

/// The short ramps at the limits, the most stops, one more, and the most segments. They have the refusals of a ramp.
fn fixed() -> Vec<Ramp> {
    let [stops, more] = limits::full(Kind::CatmullRom);
    let [segments, _] = limits::full(Kind::Gimp);
    KINDS.iter().flat_map(|kind| limits::short(*kind)).chain([stops, more, segments]).collect()
}
