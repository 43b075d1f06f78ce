//! Sheets: random edits one after the other, refused ones among them, with lists of both sorts. After each of them the ramp
//! is what the edits that were not refused make of the first; record, list and answer are those of a fresh flattening here, of
//! the Rust's sampling and thinning, and of lists that keep their word of the rule in `within`; a refused one changes nothing.

use crate::edited::edits::{self, changed, random_edit, ADD, SORTS};
use crate::harness::options::Options;
use crate::harness::oracle::{self, Record, CELLS, MARKS, ROW};
use crate::harness::ours::{self, Sheet, Sorted};
use crate::harness::ramps::{Kind, Ramp, KINDS, MOST_STOPS};
use crate::harness::random::Random;
use crate::harness::random_ramps::random_or_spoilt;
use crate::harness::report::{all_same, Tally};
use crate::judged::lists_within::{list_of, random_hold};
use crate::judged::within::Asked;
use crate::listed::lists::{early, emitted, is_record, random_room, random_threshold, MOST_POINTS, RUBBISH};
use std::collections::BTreeMap;

/// How many edits there are in a sequence, at most; of a ramp of many stops a tenth.
const MOST_EDITS: usize = 200;
const MANY: usize = 64;

/// How often each answer is right: 0 is a list.
type Told = BTreeMap<u32, u64>;

pub fn run(options: &Options) -> Vec<Tally> {
    let mut tallies = ["sheets: thinned lists", "sheets: lists within"].map(|name| Tally::new(name, options.seed));
    let mut told = Told::new();
    let cases = options.cases();
    let of = cases.end;
    for case in cases {
        let mut random = Random::of_case(options.seed, case);
        let is_within = case % 2 == 1;
        sequence(&mut tallies[is_within as usize], &mut told, case, &mut random, is_within);
        tallies[0].progress(case, of);
    }
    println!("steps with a list (0) and refusals: {told:?}");
    tallies.map(Tally::done).into()
}

fn sequence(tally: &mut Tally, told: &mut Told, case: u64, random: &mut Random, is_within: bool) {
    let mut sheet = random_sheet(random, is_within);
    let mut note = |tally: &mut Tally, step: usize, edit: Option<&Sorted>, (number, right): (u32, bool)| {
        tally.inputs(1);
        tally.answered((number == 0) as u64);
        *told.entry(number).or_default() += 1;
        if !right {
            tally.differs(case, || format!("step {step}, {number}, {edit:?}"));
        }
    };
    let number = lent(&sheet).map_or(1, |ramp| early(&ramp));
    note(tally, 0, None, opened(&mut sheet, number));
    if number != 0 {
        return;
    }
    let most = if sheet.stops > MANY { MOST_EDITS / 10 } else { MOST_EDITS };
    for step in 1..=random.below(most + 1) {
        let sort = random.below(SORTS.len()) as u32;
        let edit = random_edit(random, &sheet.own(), sort);
        note(tally, step, Some(&edit), edited(&mut sheet, &edit));
    }
}

/// Any ramp, most of them linear or smoothstep and few of many stops, with room for more or for none; and its list's room.
fn random_sheet(random: &mut Random, is_within: bool) -> Sheet {
    let kind = if random.one_in(4) { random.pick(&KINDS) } else { random.pick(&[Kind::Linear, Kind::Smoothstep]) };
    let mut ramp = random_or_spoilt(random, kind);
    while ramp.positions.len() > MANY && !random.one_in(8) {
        ramp = random_or_spoilt(random, kind);
    }
    let stops = if kind.is_gimp() { ramp.codes.len() / 2 } else { ramp.positions.len() };
    let most = match random.below(8) {
        0 => stops,
        1 => stops + random.below(4),
        2 => MOST_STOPS + 1,
        _ => MOST_STOPS,
    };
    let more = most.saturating_sub(stops);
    ramp.positions.extend(vec![RUBBISH; more]);
    ramp.channels.extend(vec![RUBBISH; 4 * more]);
    let threshold = random_threshold(random);
    let hold = is_within.then(|| random_hold(random, threshold));
    let room = if random.one_in(16) { random_room(random) } else { (MOST_POINTS, 4 * MOST_POINTS) };
    let record = Record { rows: vec![RUBBISH; CELLS * ROW], counts: vec![99; CELLS], marks: vec![9; MARKS] };
    Sheet { ramp, stops, threshold, hold, record, places: vec![RUBBISH; room.0], colours: vec![RUBBISH; room.1] }
}

/// The ramp that a sheet holds, where the slices have so many stops.
pub fn lent(sheet: &Sheet) -> Option<Ramp> {
    let (positions, channels) = sheet.lengths();
    let fits =
        sheet.stops <= MOST_STOPS && sheet.ramp.positions.len() >= positions && sheet.ramp.channels.len() >= channels;
    fits.then(|| sheet.own())
}

/// Whether a stop more has room.
pub fn has_room(sheet: &Sheet) -> bool {
    let (positions, channels) = sheet.lengths();
    positions < sheet.ramp.positions.len() && channels + 4 <= sheet.ramp.channels.len()
}

/// What a list's outputs hold past its stops is rubbish again, so that it is seen what a call writes.
fn strew(sheet: &mut Sheet) {
    sheet.places.fill(RUBBISH);
    sheet.colours.fill(RUBBISH);
}

/// The refusal that is due, and whether all is right.
fn opened(sheet: &mut Sheet, number: u32) -> (u32, bool) {
    let before = sheet.clone();
    let got = ours::sheet_open(sheet);
    if number != 0 {
        return (number, got == (number, [before.stops, 0, 0]) && is_same(sheet, &before));
    }
    let ramp = sheet.own();
    let (_, spent) = oracle::record(&oracle::gradient(&ramp), ramp.domain(), sheet.threshold);
    fresh(sheet, &before, &ramp, spent, got)
}

fn edited(sheet: &mut Sheet, edit: &Sorted) -> (u32, bool) {
    strew(sheet);
    let before = sheet.clone();
    let ramp = sheet.own();
    let got = ours::sheet_edit(sheet, edit);
    let number = if edit.sort == ADD && !has_room(&before) { 6 } else { edits::refusal(&ramp, edit) };
    if number != 0 {
        return (number, got == (number, [before.stops, 0, 0]) && is_same(sheet, &before));
    }
    // the evaluations of a refresh are compared by themselves (`edits`)
    let spent = ours::edit(&ramp, edit, before.threshold, &mut before.record.clone()).unwrap_or(usize::MAX);
    fresh(sheet, &before, &changed(&ramp, edit), spent, got)
}

/// Whether a sheet is that of a ramp: the list's refusal, and whether ramp, record, list and answer are right.
fn fresh(sheet: &Sheet, before: &Sheet, ramp: &Ramp, spent: usize, got: (u32, [usize; 3])) -> (u32, bool) {
    let due = due(sheet, ramp);
    let told = match due.number {
        0 => [ramp.positions.len(), due.stops, spent + due.evaluations],
        _ => [ramp.positions.len(), 0, 0],
    };
    let told = if ramp.kind.is_gimp() { [sheet.stops, told[1], told[2]] } else { told };
    let is_made = is_start(&ramp.positions, &before.ramp.positions, &sheet.ramp.positions)
        && is_start(&ramp.channels, &before.ramp.channels, &sheet.ramp.channels)
        && sheet.stops == told[0];
    let is_listed = all_same(&sheet.places, &due.places) && all_same(&sheet.colours, &due.colours);
    let right = got == (due.number, told) && is_made && is_listed && is_record(&sheet.record, &due.record);
    (due.number, right && is_as_flattened(sheet, ramp, due.number))
}

/// A list in a room, or its refusal, and the record that it is made of.
pub struct Due {
    pub record: Record,
    pub number: u32,
    pub stops: usize,
    pub evaluations: usize,
    pub places: Vec<f32>,
    pub colours: Vec<f32>,
}

/// By the Rust's colours, sampling and thinning.
pub fn due(sheet: &Sheet, ramp: &Ramp) -> Due {
    let (g, room) = (oracle::gradient(ramp), (sheet.places.len(), sheet.colours.len()));
    let (record, _) = oracle::record(&g, ramp.domain(), sheet.threshold);
    let mut list = oracle::thinned(&g, ramp.domain().1, sheet.threshold, &record);
    let mut refused = 0;
    if let Some(hold) = sheet.hold {
        let within = list_of(ramp, &g, Asked { threshold: sheet.threshold, hold }, &record);
        refused = within.refusal(room);
        list.stops = within.kept.iter().map(|kept| (kept.t, kept.colour)).collect();
        list.evaluations = within.evaluations;
    }
    let (mut number, mut places, mut colours) = emitted(&list, room);
    if refused != 0 {
        (number, places, colours) = (refused, vec![0.0; room.0], vec![0.0; room.1]);
    }
    Due { record, number, stops: list.stops.len(), evaluations: list.evaluations, places, colours }
}

/// Whether one call that flattens the ramp here leaves the same.
fn is_as_flattened(sheet: &Sheet, ramp: &Ramp, number: u32) -> bool {
    let mut record = Record::empty();
    let mut out = (vec![RUBBISH; sheet.places.len()], vec![RUBBISH; sheet.colours.len()]);
    let got = match sheet.hold {
        Some(hold) => {
            let asked = Asked { threshold: sheet.threshold, hold };
            ours::flatten_within(ramp, asked, &mut record, &mut out.0, &mut out.1)
        }
        None => ours::flatten(ramp, sheet.threshold, &mut record, &mut out.0, &mut out.1),
    };
    got.err().unwrap_or(0) == number
        && bits(&record.rows) == bits(&sheet.record.rows)
        && (record.counts, record.marks) == (sheet.record.counts.clone(), sheet.record.marks.clone())
        && (bits(&out.0), bits(&out.1)) == (bits(&sheet.places), bits(&sheet.colours))
}

fn bits(list: &[f32]) -> Vec<u32> {
    list.iter().map(|x| x.to_bits()).collect()
}

/// Whether a slice begins with these, and then has what it had.
fn is_start(start: &[f32], was: &[f32], is: &[f32]) -> bool {
    let n = start.len();
    is.len() == was.len() && bits(&is[..n]) == bits(start) && bits(&is[n..]) == bits(&was[n..])
}

fn is_same(sheet: &Sheet, before: &Sheet) -> bool {
    let slices = |sheet: &Sheet| {
        [&sheet.ramp.positions, &sheet.ramp.channels, &sheet.record.rows, &sheet.places, &sheet.colours]
            .map(|list| bits(list))
    };
    slices(sheet) == slices(before)
        && (&sheet.record.counts, &sheet.record.marks) == (&before.record.counts, &before.record.marks)
}
