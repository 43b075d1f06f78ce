//! The stored lists, and those of records.

use crate::harness::options::Options;
use crate::harness::oracle::{self, List, ROW};
use crate::harness::ramps::{Ramp, KINDS};
use crate::harness::random::Random;
use crate::listed::lists::{early, emitted, random_threshold};
use crate::stored::drawn::{close_colours, few_points, is_wanted, short, LONG_LIST, MANY};
use crate::stored::words::{Room, Words};

/// Lists of each kind, and lists of records.
const LISTS: u64 = 24;
const THINNED: u64 = 100;

/// Refusals that the first cases must have: of the first two lists of each kind, and of records from their start.
const OF_LISTS: [[u32; 2]; 6] = [[1, 4], [2, 8], [3, 5], [4, 7], [7, 8], [5, 1]];
const OF_THINNED: [u32; 10] = [5, 8, 9, 9, 4, 1, 2, 3, 20, 20];

/// The Rust's list of a ramp; empty where the ramp is refused.
pub fn list_of(ramp: &Ramp, threshold: f32) -> List {
    if early(ramp) != 0 {
        return List { stops: Vec::new(), evaluations: 0 };
    }
    let g = oracle::gradient(ramp);
    let (record, tries) = oracle::record(&g, ramp.domain(), threshold);
    let mut list = oracle::thinned(&g, ramp.domain().1, threshold, &record);
    list.evaluations += tries;
    list
}

/// The refusal of a call that makes a list, 0 if none.
fn refusal_of(early: u32, list: &List, room: Room) -> u32 {
    match (early, room) {
        (0, Room::ShortRecord) => 5,
        (0, _) => emitted(list, room.outputs()).0,
        _ => early,
    }
}

pub fn lists(options: &Options, words: &mut Words) {
    words.size(KINDS.len() * LISTS as usize + MANY.len());
    for kind in KINDS {
        for case in 0..LISTS {
            let mut random = Random::of_case(8 * options.seed + kind.code() as u64, case);
            let (ramp, threshold, room, list) = loop {
                let (ramp, threshold) = (short(&mut random, kind), random_threshold(&mut random));
                let room = random.pick(&[Room::Full, Room::Full, Room::Full, Room::ShortRecord, Room::Small]);
                let list = list_of(&ramp, threshold);
                let refusal = refusal_of(early(&ramp), &list, room);
                if list.stops.len() <= LONG_LIST && is_wanted(&OF_LISTS[kind.code() as usize], case, refusal) {
                    break (ramp, threshold, room, list);
                }
            };
            words.ramp(&ramp);
            words.float(threshold);
            words.word(room as u32);
            let early = if room == Room::ShortRecord { refusal_of(early(&ramp), &list, room) } else { early(&ramp) };
            words.list(early, &list, room);
        }
    }
    for (stops, spacing) in MANY {
        let (ramp, threshold) = (close_colours(options, stops, spacing), 0.035);
        words.ramp(&ramp);
        words.float(threshold);
        words.word(Room::Full as u32);
        words.list(early(&ramp), &list_of(&ramp, threshold), Room::Full);
    }
    words.printed("lists");
}

pub fn thinned(options: &Options, words: &mut Words) {
    words.size(THINNED as usize);
    for case in 0..THINNED {
        let mut random = Random::of_case(options.seed, case);
        let (ramp, threshold, record, refusal, list) = loop {
            let kind = random.pick(&KINDS);
            let (ramp, threshold) = (short(&mut random, kind), random_threshold(&mut random));
            let record = few_points(&mut random, &ramp, threshold);
            let wrong = record.counts.iter().any(|n| *n == 0 || *n as usize > ROW);
            let refusal = match early(&ramp) {
                0 if wrong => 5,
                0 if record.marks != oracle::marks(ramp.domain(), threshold) => 20,
                number => number,
            };
            let list = if refusal == 0 {
                oracle::thinned(&oracle::gradient(&ramp), ramp.domain().1, threshold, &record)
            } else {
                List { stops: Vec::new(), evaluations: 0 }
            };
            let told = refusal_of(refusal, &list, Room::Full);
            if list.stops.len() <= LONG_LIST && is_wanted(&OF_THINNED, case, told) {
                break (ramp, threshold, record, refusal, list);
            }
        };
        words.ramp(&ramp);
        words.float(threshold);
        words.record(&record);
        words.list(refusal, &list, Room::Full);
    }
    words.printed("thinned");
}
