//! What the stored cases are drawn from: short ramps, records of few points, ramps of many stops; and which are stored.

use crate::harness::options::Options;
use crate::harness::oracle::{Record, CELLS, MARKS};
use crate::harness::ramps::{Kind, Ramp};
use crate::harness::random::Random;
use crate::harness::random_ramps::random_or_spoilt;
use crate::listed::lists::random_record;
use crate::listed::many::{of_many, Spacing};

/// Catmull-Rom ramps of more stops than a window of segments has, in all or in one cell: a list and a refreshed one of each,
/// with the greatest threshold and colours that lie close, so that the lists are not long.
pub const MANY: [(usize, Spacing); 3] = [(40, Spacing::Even), (300, Spacing::Even), (300, Spacing::Crowded)];

/// What is longer is left out, but for these and for one ramp of each size that is the most.
pub const LONG_RAMP: usize = 12;
pub const LONG_LIST: usize = 32;

pub fn short(random: &mut Random, kind: Kind) -> Ramp {
    loop {
        let ramp = random_or_spoilt(random, kind);
        if ramp.items() <= LONG_RAMP {
            return ramp;
        }
    }
}

/// Whether a case may have this refusal: the first ones have theirs, so that all that a call can give are stored.
pub fn is_wanted(wanted: &[u32], case: u64, refusal: u32) -> bool {
    wanted.get(case as usize).is_none_or(|number| *number == refusal)
}

/// Stops whose colours lie close to each other.
pub fn close_colours(options: &Options, stops: usize, spacing: Spacing) -> Ramp {
    let mut random = Random::of_case(options.seed, stops as u64);
    let mut ramp = of_many(&mut random, Kind::CatmullRom, stops, spacing);
    ramp.channels.iter_mut().for_each(|c| *c = 0.3 * random.unit());
    ramp
}

/// A record of few points: each row has one or two, some of them rubbish.
pub fn few_points(random: &mut Random, ramp: &Ramp, threshold: f32) -> Record {
    let mut record = random_record(random, ramp, threshold);
    record.counts.iter_mut().for_each(|count| *count = 1 + *count % 2);
    if random.one_in(6) {
        record.counts[random.below(CELLS)] = random.pick(&[0, 129, 255]);
    }
    if random.one_in(6) {
        record.marks[random.below(MARKS)] ^= 1 << random.below(32);
    }
    record
}
