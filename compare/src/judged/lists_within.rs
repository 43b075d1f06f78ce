//! Lists that keep their word: ours against the rule as it is worked out in `within`, over the Rust's own colours; fresh
//! records and rubbish by halves.

use crate::harness::options::Options;
use crate::harness::oracle::{self, Boxed, Record, CELLS, MARKS, ROW};
use crate::harness::ours;
use crate::harness::ramps::{Ramp, KINDS};
use crate::harness::random::Random;
use crate::harness::random_ramps::random_or_spoilt;
use crate::harness::report::{all_same, Tally};
use crate::judged::within::{self, Asked, Within};
use crate::listed::lists::{early, is_record, random_record, random_room, random_threshold, RUBBISH};
use crate::painted::curves;
use crate::painted::sine;
use std::collections::BTreeMap;

/// How often each answer is right: 0 is a list.
type Told = BTreeMap<u32, u64>;

/// Lent outputs of a room, as they were before the call.
struct Out(Vec<f32>, Vec<f32>);

impl Out {
    fn new(room: (usize, usize)) -> Self {
        Self(vec![RUBBISH; room.0], vec![RUBBISH; room.1])
    }

    fn is_kept(&self) -> bool {
        self.0.iter().chain(&self.1).all(|x| *x == RUBBISH)
    }
}

pub fn run(options: &Options) -> Vec<Tally> {
    let mut fresh = Tally::new("lists within: fresh records", options.seed);
    let mut other = Tally::new("lists within: other records", options.seed);
    let mut told = Told::new();
    let cases = options.cases();
    let of = cases.end;
    for case in cases {
        let mut random = Random::of_case(options.seed, case);
        let ramp = any_ramp(&mut random, case);
        let threshold = random_threshold(&mut random);
        let asked = Asked { threshold, hold: random_hold(&mut random, threshold) };
        let room = random_room(&mut random);
        if case % 2 == 0 {
            flattened(&mut fresh, &mut told, case, &ramp, asked, room);
        } else {
            let record = any_record(&mut random, &ramp, threshold);
            thinned(&mut other, &mut told, case, &ramp, asked, room, &record);
        }
        fresh.progress(case, of);
    }
    println!("lists (0) and refusals: {told:?}");
    vec![fresh.done(), other.done()]
}

/// Every kind in turn, sinusoidal segments and curved ones.
pub fn any_ramp(random: &mut Random, case: u64) -> Ramp {
    let turn = case as usize / 2 % (KINDS.len() + 2);
    match KINDS.get(turn) {
        Some(kind) => random_or_spoilt(random, *kind),
        None if turn == KINDS.len() => sine::random_ramp(random),
        None => curves::random_ramp(random),
    }
}

pub fn random_hold(random: &mut Random, threshold: f32) -> f32 {
    match random.below(8) {
        0 => random.pick(&[f32::NAN, f32::INFINITY, f32::NEG_INFINITY]),
        1 => random.pick(&[0.0, -1.0, 1.0e-9, 0.001, 0.001f32.next_down(), 0.001f32.next_up()]),
        2 => threshold,
        3 => random.pick(&[1.0, 0.035, 0.035f32.next_up(), 0.007]),
        4 | 5 => 0.001,
        _ => 0.001 + 0.034 * random.unit(),
    }
}

/// Rubbish, another ramp's record, or one that is refused; with this ramp's words, but now and then.
pub fn any_record(random: &mut Random, ramp: &Ramp, threshold: f32) -> Record {
    let mut record = random_record(random, ramp, threshold);
    if early(ramp) == 0 && random.one_in(3) {
        let mut stale = ramp.clone();
        stale.channels.iter_mut().for_each(|c| *c = random.unit());
        record = oracle::record(&oracle::gradient(&stale), ramp.domain(), threshold).0;
    }
    match random.below(16) {
        0 => record.counts[random.below(CELLS)] = random.pick(&[0, 129, 255]),
        1 => record.marks[random.below(MARKS)] ^= 1 << random.below(32),
        2 => drop(record.rows.pop()),
        _ => {}
    }
    record
}

/// Refusals 1 to 5 and 20, which change nothing.
pub fn refused(ramp: &Ramp, threshold: f32, record: &Record) -> u32 {
    let number = early(ramp);
    let is_whole = record.rows.len() == CELLS * ROW && record.counts.len() == CELLS && record.marks.len() == MARKS;
    let counts = || record.counts.iter().all(|n| (1..=ROW).contains(&(*n as usize)));
    if number != 0 {
        number
    } else if !is_whole || !counts() {
        5
    } else if record.marks != oracle::marks(ramp.domain(), threshold) {
        20
    } else {
        0
    }
}

/// The Rust's colours; of sinusoidal and curved segments our own, which have rules of their own.
pub fn colours(ramp: &Ramp) -> Boxed {
    if sine::has_sine(ramp) || curves::has_curve(ramp) {
        oracle::of_ours(ramp)
    } else {
        oracle::gradient(ramp)
    }
}

pub fn list_of(ramp: &Ramp, g: &Boxed, asked: Asked, record: &Record) -> Within {
    within::list(&ramp.positions, ramp.domain(), asked, &within::points_of(record), &|t| oracle::at(g, t))
}

/// Whether an answer and its outputs are those of a list, whose evaluations are added to so many; and which it is.
fn agrees(got: ours::Listed, list: &Within, spent: usize, room: (usize, usize), out: &Out) -> (u32, bool) {
    let number = list.refusal(room);
    let mut want = Out::new(room);
    if number != 0 {
        let right = got == Err(number) && out.0.iter().chain(&out.1).all(|x| x.to_bits() == 0);
        return (number, right);
    }
    for (i, stop) in list.kept.iter().enumerate() {
        want.0[i] = stop.t;
        want.1[4 * i..4 * i + 4].copy_from_slice(&stop.colour);
    }
    let answer = got == Ok((list.kept.len(), spent + list.evaluations));
    (0, answer && all_same(&out.0, &want.0) && all_same(&out.1, &want.1))
}

fn flattened(tally: &mut Tally, told: &mut Told, case: u64, ramp: &Ramp, asked: Asked, room: (usize, usize)) {
    tally.inputs(1);
    let mut out = Out::new(room);
    let mut record = Record { rows: vec![RUBBISH; CELLS * ROW], counts: vec![99; CELLS], marks: vec![9; MARKS] };
    let before = record.clone();
    let got = ours::flatten_within(ramp, asked, &mut record, &mut out.0, &mut out.1);
    let (number, right) = match early(ramp) {
        0 => {
            let g = colours(ramp);
            let (want, tries) = oracle::record(&g, ramp.domain(), asked.threshold);
            let (number, right) = agrees(got, &list_of(ramp, &g, asked, &want), tries, room, &out);
            (number, right && is_record(&record, &want))
        }
        number => (number, got == Err(number) && out.is_kept() && record == before),
    };
    note(tally, told, number);
    if !right {
        tally.differs(case, || format!("{got:?}, {number}, {asked:?}, room {room:?}, of {ramp:?}"));
    }
}

fn thinned(
    tally: &mut Tally,
    told: &mut Told,
    case: u64,
    ramp: &Ramp,
    asked: Asked,
    room: (usize, usize),
    record: &Record,
) {
    tally.inputs(1);
    let mut out = Out::new(room);
    let got = ours::thin_within(ramp, asked, record, &mut out.0, &mut out.1);
    let (number, right) = match refused(ramp, asked.threshold, record) {
        0 => agrees(got, &list_of(ramp, &colours(ramp), asked, record), 0, room, &out),
        number => (number, got == Err(number) && out.is_kept()),
    };
    note(tally, told, number);
    if !right {
        tally.differs(case, || format!("thinned {got:?}, {number}, {asked:?}, room {room:?}, of {ramp:?}"));
    }
}

fn note(tally: &mut Tally, told: &mut Told, number: u32) {
    tally.answered((number == 0) as u64);
    *told.entry(number).or_default() += 1;
}
