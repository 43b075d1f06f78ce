//! The stored sheets: each is opened and then edited, turn by turn, refused turns among them. After each of them ramp, record
//! and list are worked out afresh: by the Rust's colours, sampling and thinning, of lists that keep their word by `within`.

use crate::edited::edits::{self, changed, random_edit, ADD, COLOUR, SORTS};
use crate::edited::sheets::{due, has_room, lent};
use crate::harness::options::Options;
use crate::harness::oracle::{self, Record, CELLS, MARKS, ROW};
use crate::harness::ours::{Sheet, Sorted};
use crate::harness::ramps::{Kind, Ramp, KINDS};
use crate::harness::random::Random;
use crate::judged::lists_within::random_hold;
use crate::listed::lists::{early, random_threshold, MOST_POINTS, RUBBISH};
use crate::stored::drawn::{is_wanted, short};
use crate::stored::words::Words;
use std::collections::BTreeMap;

const SHEETS: u64 = 60;
/// Edits of each sheet; of one that is not opened a few.
const EDITS: usize = 12;
const FEW: usize = 2;

/// What the first openings must be refused with, or their lists; every second list is within a hold. The others are opened.
const OF_OPENED: [u32; 12] = [1, 1, 2, 3, 4, 5, 7, 7, 8, 21, 5, 8];

/// What the program has space for.
const MOST_POSITIONS: usize = 3 * 12 + 4;
const MOST_CHANNELS: usize = 8 * 12 + 4 * 4;
const MOST_CODES: usize = 2 * 12 + 1;

/// What a turn answers: a list, a refused one of a ramp that was edited, or a refusal.
#[derive(Clone, Copy, PartialEq)]
enum Which {
    Done,
    Unlisted,
    Refused,
}

struct Told {
    which: Which,
    number: u32,
    stops: usize,
    listed: usize,
    evaluations: usize,
}

impl Told {
    fn refused(number: u32, stops: usize) -> Told {
        Told { which: Which::Refused, number, stops, listed: 0, evaluations: 0 }
    }
}

/// How many edits of each sort are made, and how many refused.
type Made = BTreeMap<(&'static str, bool), u64>;

pub fn run(options: &Options, words: &mut Words) {
    let mut made = Made::new();
    words.size(SHEETS as usize);
    for case in 0..SHEETS {
        stored(words, &mut made, &mut Random::of_case(options.seed, case), case);
    }
    println!("edits of sheets, by their sort and whether they are made: {made:?}");
    words.printed("sheets");
}

fn stored(words: &mut Words, made: &mut Made, random: &mut Random, case: u64) {
    let (before, mut sheet, told) = loop {
        let before = random_sheet(random, case);
        let mut sheet = before.clone();
        let told = opened(&mut sheet);
        let is_first = (case as usize) < OF_OPENED.len();
        if has_space(&before.ramp)
            && is_wanted(&OF_OPENED, case, told.number)
            && (is_first || told.which != Which::Refused)
        {
            break (before, sheet, told);
        }
    };
    words.ramp(&before.ramp);
    words.size(before.record.rows.len());
    words.size(before.places.len());
    words.word(before.hold.is_some() as u32);
    words.float(before.hold.unwrap_or(0.0));
    words.size(before.stops);
    words.float(before.threshold);
    tell(words, &told, &sheet);
    let edits = if told.which == Which::Refused { FEW } else { EDITS };
    words.size(edits);
    for _ in 0..edits {
        let (stops, threshold, edit) = random_turn(random, &sheet);
        words.size(stops);
        words.float(threshold);
        words.edit(&edit);
        let told = turned(&mut sheet, stops, threshold, &edit);
        *made.entry((SORTS[edit.sort as usize], told.which != Which::Refused)).or_default() += 1;
        tell(words, &told, &sheet);
    }
}

fn has_space(ramp: &Ramp) -> bool {
    ramp.positions.len() <= MOST_POSITIONS && ramp.channels.len() <= MOST_CHANNELS && ramp.codes.len() <= MOST_CODES
}

/// A short ramp of any kind, most of them linear or smoothstep, with room for four stops more, for one or for none.
fn random_sheet(random: &mut Random, case: u64) -> Sheet {
    let kind =
        if case % 3 == 0 { KINDS[case as usize / 3 % 6] } else { random.pick(&[Kind::Linear, Kind::Smoothstep]) };
    let wanted = OF_OPENED.get(case as usize).copied().unwrap_or(0);
    let mut ramp = short(random, kind);
    let stops = if kind.is_gimp() { ramp.codes.len() / 2 } else { ramp.positions.len() };
    if wanted == 21 {
        // of colours within ±16,382 it never comes
        ramp.channels.iter_mut().for_each(|c| *c *= 16_777_216.0);
    }
    let more = random.pick(&[0, 1, 4, 4]);
    ramp.positions.extend(vec![RUBBISH; more]);
    ramp.channels.extend(vec![RUBBISH; 4 * more]);
    let threshold = random_threshold(random);
    let hold = (case % 2 == 1).then(|| random_hold(random, threshold));
    let rows = if wanted == 5 { 2 } else { CELLS * ROW };
    let places = if wanted == 7 || random.one_in(8) { random.from_to(2, 12) } else { MOST_POINTS };
    let record = Record { rows: vec![RUBBISH; rows], counts: vec![0; CELLS], marks: vec![0; MARKS] };
    let (places, colours) = (vec![RUBBISH; places], vec![RUBBISH; 4 * MOST_POINTS]);
    Sheet { ramp, stops, threshold, hold, record, places, colours }
}

/// How many stops and which threshold are told, now and then wrong ones; and an edit, of curves mostly of a colour.
fn random_turn(random: &mut Random, sheet: &Sheet) -> (usize, f32, Sorted) {
    let stops = if random.one_in(24) { sheet.ramp.positions.len() + 1 } else { sheet.stops };
    let threshold = if random.one_in(12) { random_threshold(random) } else { sheet.threshold };
    let is_placed = matches!(sheet.ramp.kind, Kind::Linear | Kind::Smoothstep);
    let sort = if is_placed || random.one_in(4) { random.below(SORTS.len()) as u32 } else { COLOUR };
    let edit = random_edit(random, &lent(sheet).unwrap_or_else(|| sheet.ramp.clone()), sort);
    // a word holds it
    (stops, threshold, Sorted { stop: edit.stop.min(MOST_POINTS), ..edit })
}

fn opened(sheet: &mut Sheet) -> Told {
    let number = match lent(sheet).map_or(1, |ramp| early(&ramp)) {
        0 if sheet.record.rows.len() < CELLS * ROW => 5,
        number => number,
    };
    if number != 0 {
        return Told::refused(number, sheet.stops);
    }
    let ramp = sheet.own();
    let (_, spent) = oracle::record(&oracle::gradient(&ramp), ramp.domain(), sheet.threshold);
    made(sheet, &ramp, spent)
}

/// The refusals of an edit that leave all as it was: 1 to 5, 20, then 6, 1 and 3 of the edit itself.
fn refusal(sheet: &Sheet, stops: usize, threshold: f32, edit: &Sorted) -> u32 {
    let Some(ramp) = lent(&Sheet { stops, ..sheet.clone() }) else { return 1 };
    match early(&ramp) {
        0 if sheet.record.rows.len() < CELLS * ROW => 5,
        0 if sheet.record.marks != oracle::marks(ramp.domain(), threshold) => 20,
        0 if edit.sort == ADD && !has_room(sheet) => 6,
        _ => edits::refusal(&ramp, edit),
    }
}

fn turned(sheet: &mut Sheet, stops: usize, threshold: f32, edit: &Sorted) -> Told {
    let number = refusal(sheet, stops, threshold, edit);
    if number != 0 {
        return Told::refused(number, stops);
    }
    let ramp = sheet.own();
    let spent = edits::redone(&ramp, edit, threshold).map(|(_, _, count)| count).sum();
    made(sheet, &changed(&ramp, edit), spent)
}

/// A ramp taken into a sheet, with its record and its list. What lies past the ramp and past the list stays.
fn made(sheet: &mut Sheet, ramp: &Ramp, spent: usize) -> Told {
    let due = due(sheet, ramp);
    let stops = ramp.items();
    sheet.stops = stops;
    sheet.ramp.positions[..ramp.positions.len()].copy_from_slice(&ramp.positions);
    sheet.ramp.channels[..ramp.channels.len()].copy_from_slice(&ramp.channels);
    sheet.record = due.record;
    if due.number != 0 {
        sheet.places.fill(0.0);
        sheet.colours.fill(0.0);
        return Told { which: Which::Unlisted, number: due.number, stops, listed: 0, evaluations: 0 };
    }
    let listed = due.stops;
    sheet.places[..listed].copy_from_slice(&due.places[..listed]);
    sheet.colours[..4 * listed].copy_from_slice(&due.colours[..4 * listed]);
    Told { which: Which::Done, number: 0, stops, listed, evaluations: spent + due.evaluations }
}

fn tell(words: &mut Words, told: &Told, sheet: &Sheet) {
    words.word(told.which as u32);
    words.word(told.number);
    words.size(told.stops);
    words.size(told.listed);
    words.size(told.evaluations);
    let Record { rows, counts, marks } = &sheet.record;
    words.word(sum(bits(&sheet.ramp.positions).chain(bits(&sheet.ramp.channels))));
    words.word(sum(bits(rows).chain(counts.iter().map(|n| *n as u32)).chain(marks.iter().copied())));
    words.word(sum(bits(&sheet.places).chain(bits(&sheet.colours))));
    words.record_done(told.number, 4);
}

/// Every not-a-number is one.
fn bits(list: &[f32]) -> impl Iterator<Item = u32> + '_ {
    list.iter().map(|x| if x.is_nan() { 0x7fc0_0000 } else { x.to_bits() })
}

/// What slices hold as one word: a polynomial in their bits, modulo a prime.
fn sum(words: impl Iterator<Item = u32>) -> u32 {
    words.fold(1, |sum: u64, word| (sum * 1_000_003 + word as u64) % 4_294_967_291) as u32
}
