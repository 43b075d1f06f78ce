//! One stop at a time: from the start the stops are those of `thin` and of the Rust's thinning, up to the first that is refused; then
//! nothing more. And what is told of a place, a record or a threshold that is not right.

use crate::harness::options::Options;
use crate::harness::oracle::{self, List, Record, CELLS, MARKS, ROW};
use crate::harness::ours::{self, Handed, PlainPlace, Told};
use crate::harness::ramps::{Kind, Ramp, KINDS};
use crate::harness::random::Random;
use crate::harness::random_ramps::random_or_spoilt;
use crate::harness::report::{all_same, Tally};
use crate::listed::lists::{early, emitted, random_record, random_threshold, MOST_POINTS, RUBBISH};

const ROOM: (usize, usize) = (MOST_POINTS, 4 * MOST_POINTS);
const START: PlainPlace = PlainPlace { state: 0, row: 0, index: 0 };
const ENDED: PlainPlace = PlainPlace { state: 2, row: 0, index: 0 };

pub fn run(options: &Options) -> Vec<Tally> {
    KINDS.iter().flat_map(|kind| one_kind(options, *kind)).collect()
}

fn one_kind(options: &Options, kind: Kind) -> [Tally; 2] {
    let mut joined = Tally::new(format!("joined: {}", kind.name()), options.seed);
    let mut single = Tally::new(format!("any place: {}", kind.name()), options.seed);
    let cases = options.cases();
    let of = cases.end;
    for case in cases {
        let mut random = Random::of_case(8 * options.seed + kind.code() as u64, case);
        let ramp = random_or_spoilt(&mut random, kind);
        let threshold = random_threshold(&mut random);
        let mut record = Record { rows: vec![RUBBISH; CELLS * ROW], counts: vec![1; CELLS], marks: vec![9; MARKS] };
        if random.one_in(2) || ours::sample(&ramp, threshold, &mut record).is_err() {
            record = random_record(&mut random, &ramp, threshold);
        }
        if early(&ramp) == 0 {
            whole(&mut joined, case, &ramp, threshold, &record);
        }
        any_place(&mut single, case, &mut random, &ramp, threshold, &mut record);
        joined.progress(case, of);
    }
    [joined.done(), single.done()]
}

/// What the steps must tell: the stops before the first fault, that, and twice that nothing more comes.
fn expected(list: &List) -> Vec<Told> {
    let mut told = Vec::new();
    for (i, stop) in list.stops.iter().enumerate() {
        match fault(&list.stops, i) {
            0 => told.push(Ok(Some(*stop))),
            number => {
                told.push(Err(number));
                break;
            }
        }
    }
    told.extend([Ok(None), Ok(None)]);
    told
}

/// 8 or 9 of a stop, 0 for none; the first has none before it.
fn fault(stops: &[(f32, [f32; 4])], i: usize) -> u32 {
    let (t, colour) = stops[i];
    if !t.is_finite() || colour.iter().any(|c| !c.is_finite()) {
        8
    } else if i > 0 && t < stops[i - 1].0 {
        9
    } else {
        0
    }
}

fn same_told(a: &Told, b: &Told) -> bool {
    match (a, b) {
        (Ok(Some(x)), Ok(Some(y))) => all_same(&[x.0], &[y.0]) && all_same(&x.1, &y.1),
        _ => a == b,
    }
}

/// Steps from the start, beside the Rust's thinning and our own.
fn whole(tally: &mut Tally, case: u64, ramp: &Ramp, threshold: f32, record: &Record) {
    tally.inputs(1);
    let list = oracle::thinned(&oracle::gradient(ramp), ramp.domain().1, threshold, record);
    let (mut positions, mut channels) = (vec![RUBBISH; ROOM.0], vec![RUBBISH; ROOM.1]);
    let thinned = ours::thin(ramp, threshold, record, &mut positions, &mut channels);
    let number = emitted(&list, ROOM).0;
    let want = expected(&list);
    let (mut place, mut evaluations) = (START, 0);
    for (i, told) in want.iter().enumerate() {
        let handed = ours::next_stop(ramp, threshold, record, place);
        if !same_told(&handed.0, told) {
            tally.differs(case, || format!("step {i}: {handed:?}, not {told:?}, threshold {threshold:?}, of {ramp:?}"));
            return;
        }
        place = handed.2;
        evaluations += handed.1;
    }
    let right = match thinned {
        Ok((stops, spent)) => {
            number == 0 && want.len() == stops + 2 && evaluations == spent && spent == list.evaluations
        }
        Err(refused) => number == refused,
    };
    tally.answered((number == 0) as u64);
    if !right || place != ENDED {
        tally.differs(case, || format!("{thinned:?}, {evaluations} evaluations in steps, at {place:?}, of {ramp:?}"));
    }
}

/// One step from any place, with a record or a threshold that may be wrong: which refusal, and the place after it.
fn any_place(tally: &mut Tally, case: u64, random: &mut Random, ramp: &Ramp, threshold: f32, record: &mut Record) {
    tally.inputs(1);
    let mut refusal = early(ramp);
    let row = random.below(CELLS + 2);
    let count = record.counts.get(row).copied().unwrap_or(1) as usize;
    let index = random.below(count + 2);
    let place = match random.below(6) {
        0 => START,
        1 => ENDED,
        _ => PlainPlace { state: 1, row: row as u32, index: index as u32 },
    };
    let outside = place.state == 1 && (row >= CELLS || index >= count);
    let mine = if random.one_in(4) { random_threshold(random) } else { threshold };
    let spoilt = random.one_in(6);
    if spoilt {
        record.counts[0] = if random.one_in(2) { 0 } else { 129 };
    }
    if refusal == 0 {
        refusal = match () {
            _ if spoilt || outside => 5,
            _ if record.marks != oracle::marks(ramp.domain(), mine) => 20,
            _ => 0,
        };
    }
    let handed = ours::next_stop(ramp, mine, record, place);
    let right = match refusal {
        0 => goes_on(ramp, mine, record, place, handed),
        number => handed == (Err(number), 0, place),
    };
    tally.answered((refusal == 0) as u64);
    if !right {
        tally.differs(case, || format!("{handed:?} from {place:?}, not {refusal}, threshold {mine:?}, of {ramp:?}"));
    }
}

/// A step that is not refused by the check: it is the Rust's thinning of the rest of the record, its first point the place's.
fn goes_on(ramp: &Ramp, threshold: f32, record: &Record, place: PlainPlace, handed: Handed) -> bool {
    if place == ENDED {
        return handed == (Ok(None), 0, ENDED);
    }
    let list = oracle::thinned(&oracle::gradient(ramp), ramp.domain().1, threshold, &from(record, place));
    let next = (place.state == 1) as usize;
    let told = match fault(&list.stops, next) {
        0 => Ok(Some(list.stops[next])),
        number => Err(number),
    };
    same_told(&handed.0, &told) && (told.is_ok() || (handed.1, handed.2) == (0, ENDED))
}

/// The record's points from a place on, as a record: those before it are not there, and the place's own is the first. Rows that
/// would be empty repeat their first point, which is then nearer than 2^-23 to the one kept last, and skipped.
fn from(record: &Record, place: PlainPlace) -> Record {
    let (row, index) = (place.row as usize, place.index as usize);
    let first = record.rows[row * ROW + index];
    let mut rest = record.clone();
    for cell in 0..row {
        rest.rows[cell * ROW] = first;
        rest.counts[cell] = 1;
    }
    rest.rows.copy_within(row * ROW + index..(row + 1) * ROW, row * ROW);
    rest.counts[row] -= index as u8;
    rest
}
