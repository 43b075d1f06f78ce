//! The stored lists that keep their word: of ramps that are sampled afresh, and of records that are stale or rubbish. They are
//! worked out by `within` from the rule's words, over the Rust's own colours.

use crate::harness::options::Options;
use crate::harness::oracle::{self, Record};
use crate::harness::ramps::{Kind, Ramp, KINDS};
use crate::harness::random::Random;
use crate::judged::lists_within::{any_record, colours, list_of, random_hold, refused};
use crate::judged::within::{Asked, Within};
use crate::listed::lists::{early, random_threshold, RUBBISH};
use crate::stored::drawn::{few_points, is_wanted, short, LONG_LIST};
use crate::stored::words::{Room, Words};

/// Lists of each kind over a fresh record, and lists of other records.
const FRESH: u64 = 8;
const STALE: u64 = 40;

/// Refusals that the first cases must have: of the first two of each kind, and of other records.
const OF_FRESH: [[u32; 2]; 6] = [[1, 21], [2, 8], [3, 4], [4, 8], [0, 21], [1, 2]];
const OF_STALE: [u32; 12] = [1, 2, 3, 4, 5, 20, 7, 8, 21, 5, 20, 0];

/// What is longer is left out.
const LONG_RECORD: usize = 240;

pub fn run(options: &Options, words: &mut Words) {
    words.size(KINDS.len() * FRESH as usize);
    for kind in KINDS {
        for case in 0..FRESH {
            fresh(words, &mut Random::of_case(8 * options.seed + kind.code() as u64, case), kind, case);
        }
    }
    words.printed("within");
    words.size(STALE as usize);
    for case in 0..STALE {
        stale(words, &mut Random::of_case(options.seed, case), case);
    }
    words.printed("stale");
}

/// A list of a ramp that is not refused before it; with the evaluations of a sampling.
type Made = Option<(Within, usize)>;

fn fresh(words: &mut Words, random: &mut Random, kind: Kind, case: u64) {
    let wanted = &OF_FRESH[kind.code() as usize];
    let (ramp, asked, made) = loop {
        let ramp = drawn(random, kind, wanted, case);
        let asked = random_asked(random);
        let made = (early(&ramp) == 0).then(|| {
            let g = colours(&ramp);
            let (record, tries) = oracle::record(&g, ramp.domain(), asked.threshold);
            (list_of(&ramp, &g, asked, &record), tries)
        });
        if is_stored(wanted, case, early(&ramp), &made, Room::Full) {
            break (ramp, asked, made);
        }
    };
    words.ramp(&ramp);
    words.floats(&[asked.threshold, asked.hold]);
    tell(words, early(&ramp), &made, Room::Full);
}

fn stale(words: &mut Words, random: &mut Random, case: u64) {
    let (ramp, asked, record, refusal, made, room) = loop {
        let kind = random.pick(&KINDS);
        let ramp = drawn(random, kind, &OF_STALE, case);
        let asked = random_asked(random);
        let record = random_record(random, &ramp, asked.threshold);
        let room = random.pick(&[Room::Full, Room::Full, Room::Full, Room::Small]);
        let refusal = refused(&ramp, asked.threshold, &record);
        let made = (refusal == 0).then(|| (list_of(&ramp, &colours(&ramp), asked, &record), 0));
        let points: usize = record.counts.iter().map(|n| *n as usize).sum();
        if points <= LONG_RECORD && is_stored(&OF_STALE, case, refusal, &made, room) {
            break (ramp, asked, record, refusal, made, room);
        }
    };
    words.ramp(&ramp);
    words.word(room as u32);
    words.floats(&[asked.threshold, asked.hold]);
    words.record(&record);
    tell(words, refusal, &made, room);
}

/// A short ramp; where 21 is wanted, with colours beyond those of which it never comes.
fn drawn(random: &mut Random, kind: Kind, wanted: &[u32], case: u64) -> Ramp {
    let mut ramp = short(random, kind);
    if wanted.get(case as usize) == Some(&21) {
        ramp.channels.iter_mut().for_each(|c| *c *= 16_777_216.0);
    }
    ramp
}

fn random_asked(random: &mut Random) -> Asked {
    let threshold = random_threshold(random);
    Asked { threshold, hold: random_hold(random, threshold) }
}

/// Of few points, or stale where these are no more.
fn random_record(random: &mut Random, ramp: &Ramp, threshold: f32) -> Record {
    let record = any_record(random, ramp, threshold);
    if record.rows.len() != Record::empty().rows.len() || random.one_in(2) {
        return few_points(random, ramp, threshold);
    }
    record
}

/// 1 to 5 and 20 come before the list, 7, 8 and 21 of it.
fn refusal_of(refusal: u32, made: &Made, room: Room) -> u32 {
    made.as_ref().map_or(refusal, |(list, _)| list.refusal(room.outputs()))
}

fn is_stored(wanted: &[u32], case: u64, refusal: u32, made: &Made, room: Room) -> bool {
    let is_short = made.as_ref().is_none_or(|(list, _)| list.kept.len() <= LONG_LIST);
    is_short && is_wanted(wanted, case, refusal_of(refusal, made, room))
}

/// The answer, and what it leaves: the outputs as they were, the list, or zeros.
fn tell(words: &mut Words, refusal: u32, made: &Made, room: Room) {
    let number = refusal_of(refusal, made, room);
    let (places, channels) = room.outputs();
    let left = if number == 0 || made.is_none() { RUBBISH } else { 0.0 };
    let (mut positions, mut colours) = (vec![left; places], vec![left; channels]);
    let mut told = (0, 0);
    if let (0, Some((list, tries))) = (number, made) {
        for (i, stop) in list.kept.iter().enumerate() {
            positions[i] = stop.t;
            colours[4 * i..4 * i + 4].copy_from_slice(&stop.colour);
        }
        told = (list.kept.len(), tries + list.evaluations);
    }
    words.listed(number, told, &positions, &colours);
}
