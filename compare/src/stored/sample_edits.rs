//! The stored refreshed lists: of every sort of edit.

use crate::edited::edits::{self, changed, ADD, COLOUR, SORTS};
use crate::edited::refresh::{self, REFRESHED};
use crate::harness::options::Options;
use crate::harness::oracle::{self, List};
use crate::harness::ours::{Edit, Sorted};
use crate::harness::ramps::{Kind, Ramp};
use crate::harness::random::Random;
use crate::listed::lists::{early, emitted, random_threshold, MOST_POINTS};
use crate::stored::drawn::{close_colours, is_wanted, short, LONG_LIST, MANY};
use crate::stored::sample_lists::list_of;
use crate::stored::words::{Room, Words};

/// Records by the sort of edit: a colour, a move, an addition, a removal.
const EDITS: [u64; 4] = [300, 100, 100, 100];

/// Refusals that the first cases of each sort must have.
const OF_REFRESHED: [[u32; 8]; 4] =
    [[1, 2, 3, 4, 5, 8, 6, 6], [6, 0, 6, 6, 3, 5, 6, 8], [6, 6, 6, 6, 3, 5, 6, 8], [0, 0, 6, 6, 0, 5, 6, 8]];

/// The one thing that is wrong in each of the first moves, additions and removals; nothing is where the sort has no such part.
const SPOILT: [fn(&mut Sorted, &Ramp); 5] = [
    |edit, _| edit.position = f32::NAN,
    |edit, _| edit.colour[3] = f32::INFINITY,
    |edit, _| edit.stop = 0,
    |edit, ramp| edit.stop = ramp.positions.len() - (edit.sort != ADD) as usize,
    |edit, ramp| edit.position = ramp.positions[0].next_down(),
];

pub fn run(options: &Options, words: &mut Words) {
    words.size(EDITS.iter().sum::<u64>() as usize + MANY.len());
    for (sort, name) in (0..).zip(SORTS) {
        let (before, count) = (words.answered, EDITS[sort as usize]);
        for case in 0..count {
            refreshed_case(words, sort, case, Random::of_case(8 * options.seed + sort as u64, case));
        }
        println!("refreshed, {name}: {count} records, {} of them not refused", words.answered - before);
    }
    for (stops, spacing) in MANY {
        let edit = Sorted { sort: COLOUR, stop: stops / 2, position: 0.0, colour: [0.1, 0.0, 0.1, 0.0] };
        let (ramp, threshold) = (close_colours(options, stops, spacing), 0.035);
        let list = refreshed_list(&ramp, &edit, threshold);
        words.edited(&ramp, threshold, Room::Full, &edit);
        words.list(edits::refusal(&ramp, &edit), &list, Room::Full);
    }
    words.printed("refreshed");
}

fn refreshed_case(words: &mut Words, sort: u32, case: u64, mut random: Random) {
    let kind = edited_kind(&mut random, sort, case);
    let (ramp, threshold, room, edit, refusal, list) = loop {
        let (ramp, threshold) = (short(&mut random, kind), random_threshold(&mut random));
        let room = if random.one_in(8) { Room::ShortRecord } else { Room::Full };
        let mut edit = random_edit(&mut random, &ramp, sort);
        if let Some(spoil) = SPOILT.get(case as usize).filter(|_| sort != COLOUR) {
            if edits::refusal(&ramp, &edit) != 0 {
                continue;
            }
            spoil(&mut edit, &ramp);
        }
        let refusal = match early(&ramp) {
            0 if room == Room::ShortRecord => 5,
            _ => edits::refusal(&ramp, &edit),
        };
        let list = if refusal == 0 { refreshed_list(&ramp, &edit, threshold) } else { list_of(&ramp, threshold) };
        let told = if refusal == 0 { emitted(&list, room.outputs()).0 } else { refusal };
        if list.stops.len() <= LONG_LIST && is_wanted_edit(sort, case, told) {
            break (ramp, threshold, room, edit, refusal, list);
        }
    };
    words.edited(&ramp, threshold, room, &edit);
    words.list(refusal, &list, Room::Full);
}

/// A kind that has this sort of edit; now and then one that has not, the seventh first.
fn edited_kind(random: &mut Random, sort: u32, case: u64) -> Kind {
    match (sort, case % 32) {
        (COLOUR, 6) => random.pick(&[Kind::Sharp, Kind::Gimp]),
        (COLOUR, _) => random.pick(&REFRESHED),
        (_, 6) => random.pick(&[Kind::Sharp, Kind::Basis, Kind::CatmullRom, Kind::Gimp]),
        _ => random.pick(&[Kind::Linear, Kind::Smoothstep]),
    }
}

/// Whether an edit may have this refusal: the first ones have theirs; of the others every second has none.
fn is_wanted_edit(sort: u32, case: u64, refusal: u32) -> bool {
    let wanted = &OF_REFRESHED[sort as usize];
    let is_first = (case as usize) < wanted.len();
    is_wanted(wanted, case, refusal) && (is_first || case % 2 == 0 || refusal == 0)
}

fn random_edit(random: &mut Random, ramp: &Ramp, sort: u32) -> Sorted {
    let edit = if sort == COLOUR {
        let Edit { stop, colour } = refresh::random_edit(random, ramp);
        Sorted { sort, stop, position: 0.0, colour }
    } else {
        edits::random_edit(random, ramp, sort)
    };
    // a word holds it
    Sorted { stop: edit.stop.min(MOST_POINTS), ..edit }
}

/// The list of the changed ramp, with the evaluations of the cells that are redone.
fn refreshed_list(ramp: &Ramp, edit: &Sorted, threshold: f32) -> List {
    let after = changed(ramp, edit);
    let g = oracle::gradient(&after);
    let (record, _) = oracle::record(&g, after.domain(), threshold);
    let mut list = oracle::thinned(&g, after.domain().1, threshold, &record);
    list.evaluations += edits::redone(ramp, edit, threshold).map(|(_, _, count)| count).sum::<usize>();
    list
}
