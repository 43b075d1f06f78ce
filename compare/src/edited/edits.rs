//! Edits of every sort: a refreshed record beside one sampled afresh and the Rust's rows, and the list of the changed ramp
//! beside the Rust's own. Cells that are clear keep even rubbish; refusals in their order.

use crate::edited::refresh::{due, is_kept, outside, reach, redone_by, stale, Redone, REFRESHED};
use crate::harness::options::Options;
use crate::harness::oracle::{self, Record, CELLS};
use crate::harness::ours::{self, Sorted};
use crate::harness::ramps::{Kind, Ramp, KINDS, MOST_STOPS};
use crate::harness::random::Random;
use crate::harness::random_ramps::random_or_spoilt;
use crate::harness::report::Tally;
use crate::listed::lists::{early, random_record, random_threshold};

pub const SORTS: [&str; 4] = ["colour", "move", "add", "remove"];
pub const COLOUR: u32 = 0;
const MOVE: u32 = 1;
pub const ADD: u32 = 2;

/// Of each sort, for ramps of all kinds, most of them linear or smoothstep.
pub fn run(options: &Options) -> Vec<Tally> {
    (0..4).flat_map(|sort| one_sort(options, sort)).collect()
}

fn one_sort(options: &Options, sort: u32) -> [Tally; 2] {
    let mut rubbish = Tally::new(format!("clear rows kept: {}", SORTS[sort as usize]), options.seed);
    let mut fresh = Tally::new(format!("edited is fresh: {}", SORTS[sort as usize]), options.seed);
    let cases = options.cases();
    let of = cases.end;
    for case in cases {
        let mut random = Random::of_case(16 * options.seed + sort as u64, case);
        let ramp = random_ramp(&mut random);
        let edit = random_edit(&mut random, &ramp, sort);
        let threshold = random_threshold(&mut random);
        let record = random_record(&mut random, &ramp, threshold);
        kept(&mut rubbish, case, &ramp, &edit, threshold, record);
        edited(&mut fresh, case, &ramp, &edit, threshold);
        rubbish.progress(case, of);
    }
    [rubbish.done(), fresh.done()]
}

/// Any ramp; one in eight of three stops, one in eight with as many as there may be, or one less.
fn random_ramp(random: &mut Random) -> Ramp {
    let kind = if random.one_in(8) { random.pick(&KINDS) } else { random.pick(&[Kind::Linear, Kind::Smoothstep]) };
    let mut ramp = random_or_spoilt(random, kind);
    if ramp.refusal() == 0 && kind != Kind::Gimp && kind != Kind::Sharp {
        let n = match random.below(32) {
            0..=3 => 3,
            4 => MOST_STOPS,
            5 => MOST_STOPS - 1,
            _ => return ramp,
        };
        let (low, high) = ramp.domain();
        ramp.positions = (0..n).map(|i| low + (high - low) * (i as f32 / (n - 1) as f32)).collect();
        ramp.positions[n - 1] = high;
        ramp.positions.sort_by(f32::total_cmp);
        ramp.channels = (0..4 * n).map(|_| random.unit()).collect();
    }
    ramp
}

pub fn random_edit(random: &mut Random, ramp: &Ramp, sort: u32) -> Sorted {
    let n = ramp.positions.len();
    let stop = match random.below(16) {
        0 => n + random.below(2),
        1 => random.next() as usize,
        2 => 0,
        3 => n.saturating_sub(1),
        4..=5 => 1,
        6..=7 => n.saturating_sub(2),
        _ => random.below(n.max(1)),
    };
    let mut colour = [random.unit(), random.unit(), random.unit(), random.unit()];
    if random.one_in(16) {
        colour[random.below(4)] = random.pick(&[f32::NAN, f32::INFINITY, f32::MAX]);
    }
    let at = |i: usize| ramp.positions.get(i).copied().unwrap_or(0.5);
    let after = if sort == ADD { stop } else { stop.saturating_add(1) };
    let (low, high) = (at(stop.saturating_sub(1)), at(after));
    let position = match random.below(16) {
        0 => low,
        1 => high,
        2 => at(stop).next_up(),
        3 => at(stop).next_down(),
        4 => low.next_down(),
        5 => high.next_up(),
        6 => oracle::edge((at(0), at(n.saturating_sub(1))), random.below(CELLS + 1)),
        7 => random.pick(&[f32::NAN, f32::INFINITY, f32::NEG_INFINITY, f32::MAX]),
        _ => low + (high - low) * random.unit(),
    };
    Sorted { sort, stop, position, colour }
}

/// The refusals of the edit alone: 6, then 1, then 3.
fn edit_refusal(ramp: &Ramp, edit: &Sorted) -> u32 {
    let (n, k) = (ramp.positions.len(), edit.stop);
    let is_coloured = edit.colour.iter().all(|c| c.is_finite());
    if edit.sort == COLOUR {
        return if REFRESHED.contains(&ramp.kind) && k < n && is_coloured { 0 } else { 6 };
    }
    let after = if edit.sort == ADD { k } else { k.saturating_add(1) };
    let is_placed = edit.sort != MOVE && edit.sort != ADD || edit.position.is_finite();
    if !matches!(ramp.kind, Kind::Linear | Kind::Smoothstep)
        || k == 0
        || after >= n
        || !is_placed
        || edit.sort == ADD && !is_coloured
    {
        return 6;
    }
    if edit.sort == ADD && n == MOST_STOPS {
        return 1;
    }
    let falls = edit.position < ramp.positions[k - 1] || edit.position > ramp.positions[after];
    if (edit.sort == MOVE || edit.sort == ADD) && falls {
        return 3;
    }
    0
}

/// Those of the ramp, then those of the edit.
pub fn refusal(ramp: &Ramp, edit: &Sorted) -> u32 {
    match early(ramp) {
        0 => edit_refusal(ramp, edit),
        number => number,
    }
}

/// The ramp with the edit made.
pub fn changed(ramp: &Ramp, edit: &Sorted) -> Ramp {
    let (mut ramp, k) = (ramp.clone(), edit.stop);
    match edit.sort {
        COLOUR => ramp.channels[4 * k..4 * k + 4].copy_from_slice(&edit.colour),
        MOVE => ramp.positions[k] = edit.position,
        ADD => {
            ramp.positions.insert(k, edit.position);
            ramp.channels.splice(4 * k..4 * k, edit.colour);
        }
        _ => {
            ramp.positions.remove(k);
            ramp.channels.drain(4 * k..4 * k + 4);
        }
    }
    ramp
}

/// Request (xiv): from the neighbour before to the neighbour after; a colour by its own rule.
fn is_outside(ramp: &Ramp, edit: &Sorted, t: f32) -> bool {
    let (positions, k) = (&ramp.positions, edit.stop);
    match edit.sort {
        COLOUR => outside(positions, reach(ramp.kind), k, t),
        ADD => t <= positions[k - 1] || t > positions[k],
        _ => t <= positions[k - 1] || t > positions[k + 1],
    }
}

/// The cells that are not clear, with the rows of the changed ramp and their evaluations.
pub fn redone(ramp: &Ramp, edit: &Sorted, threshold: f32) -> impl Iterator<Item = Redone> {
    redone_by(ramp, changed(ramp, edit), threshold, &|t| is_outside(ramp, edit, t))
}

/// A record of rubbish: only the cells that are not clear are written.
fn kept(tally: &mut Tally, case: u64, ramp: &Ramp, edit: &Sorted, threshold: f32, record: Record) {
    tally.inputs(1);
    let mut got = record.clone();
    let answer = ours::edit(ramp, edit, threshold, &mut got);
    let number = refusal(ramp, edit);
    tally.answered((number == 0) as u64);
    let cells: Vec<Redone> = if number == 0 { redone(ramp, edit, threshold).collect() } else { Vec::new() };
    let due = due(number, &cells);
    if answer != due || !is_kept(record, &cells, &got) {
        tally.differs(case, || format!("{answer:?}, not {due:?}, {edit:?} of {ramp:?}"));
    }
}

fn edited(tally: &mut Tally, case: u64, ramp: &Ramp, edit: &Sorted, threshold: f32) {
    if refusal(ramp, edit) != 0 {
        return;
    }
    let refresh = |record: &mut Record| ours::edit(ramp, edit, threshold, record);
    let refresh_list = |record: &mut Record, places: &mut [f32], colours: &mut [f32]| {
        ours::edit_list(ramp, edit, threshold, record, places, colours)
    };
    if let Some(answers) = stale(tally, (ramp, &changed(ramp, edit)), threshold, refresh, refresh_list) {
        tally.differs(case, || format!("{answers}, {edit:?} of {ramp:?}"));
    }
}
