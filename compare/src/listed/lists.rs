//! Lists: flattening against `linearize`, with its evaluations counted; and thinning of any record.

use crate::harness::options::Options;
use crate::harness::oracle;
use crate::harness::oracle::{List, Record, CELLS, MARKS, ROW};
use crate::harness::ours;
use crate::harness::ramps::{Kind, Ramp, KINDS};
use crate::harness::random::Random;
use crate::harness::random_ramps::random_or_spoilt;
use crate::harness::refused;
use crate::harness::report::{all_same, Tally};
use crate::listed::list_limits;

pub const MOST_POINTS: usize = CELLS * ROW + 1;
pub const RUBBISH: f32 = 7.5;
const MOST: f32 = 1.0e38;

pub fn run(options: &Options) -> Vec<Tally> {
    let kinds = KINDS.iter().flat_map(|kind| one_kind(options, *kind));
    std::iter::once(list_limits::run(options)).chain(kinds).collect()
}

fn one_kind(options: &Options, kind: Kind) -> [Tally; 2] {
    let mut flat = Tally::new(format!("lists: {}", kind.name()), options.seed);
    let mut thin = Tally::new(format!("thinned rubbish: {}", kind.name()), options.seed);
    let cases = options.cases();
    let of = cases.end;
    for case in cases {
        let mut random = Random::of_case(8 * options.seed + kind.code() as u64, case);
        let ramp = random_or_spoilt(&mut random, kind);
        let threshold = random_threshold(&mut random);
        let room = random_room(&mut random);
        flattened(&mut flat, case, &ramp, threshold, room);
        if random.one_in(4) {
            let mut record = random_record(&mut random, &ramp, threshold);
            if case % 8 == 0 {
                record.counts[case as usize / 8 % CELLS] = if case % 16 == 0 { 0 } else { 129 };
            }
            thinned(&mut thin, case, &ramp, threshold, room, &record);
        }
        flat.progress(case, of);
    }
    [flat.done(), thin.done()]
}

pub fn random_threshold(random: &mut Random) -> f32 {
    match random.below(6) {
        0 => 0.001,
        1 => 0.007,
        2 => f32::NAN,
        3 => random.pick(&[0.0, -1.0, 1.0, f32::INFINITY, 0.035]),
        _ => 0.001 + 0.034 * random.unit(),
    }
}

pub fn random_room(random: &mut Random) -> (usize, usize) {
    match random.below(8) {
        0 => (random.below(8), 4 * MOST_POINTS),
        1 => (MOST_POINTS, random.below(100)),
        _ => (MOST_POINTS + 2, 4 * MOST_POINTS + 3),
    }
}

/// Refusals 1 to 4, which come before the record is looked at.
pub fn early(ramp: &Ramp) -> u32 {
    let refusal = ramp.refusal();
    if refusal != 0 {
        return refusal;
    }
    let (min, max) = ramp.domain();
    if min < -MOST || min > MOST || max < -MOST || max > MOST {
        return 4;
    }
    0
}

/// What comes of a list in a room: the refusal, or 0, and what the outputs then hold.
pub fn emitted(list: &List, room: (usize, usize)) -> (u32, Vec<f32>, Vec<f32>) {
    let mut positions = vec![RUBBISH; room.0];
    let mut channels = vec![RUBBISH; room.1];
    let mut before = f32::NEG_INFINITY;
    for (i, (t, colour)) in list.stops.iter().enumerate() {
        let number = if i >= room.0.min(room.1 / 4) {
            7
        } else if !t.is_finite() || colour.iter().any(|c| !c.is_finite()) {
            8
        } else if *t < before {
            9
        } else {
            before = *t;
            positions[i] = *t;
            channels[4 * i..4 * i + 4].copy_from_slice(colour);
            continue;
        };
        return (number, vec![0.0; room.0], vec![0.0; room.1]);
    }
    (0, positions, channels)
}

/// Whether an answer and its outputs are those of a list.
pub fn agrees(got: ours::Listed, list: &List, room: (usize, usize), out: (&[f32], &[f32])) -> bool {
    let (number, positions, channels) = emitted(list, room);
    let answer = match got {
        Ok((stops, evaluations)) => number == 0 && stops == list.stops.len() && evaluations == list.evaluations,
        Err(refused) => number == refused,
    };
    answer && all_same(out.0, &positions) && all_same(out.1, &channels)
}

/// One ramp flattened: the answer, the record and the outputs.
pub fn flattened(tally: &mut Tally, case: u64, ramp: &Ramp, threshold: f32, room: (usize, usize)) {
    tally.inputs(1);
    let mut positions = vec![RUBBISH; room.0];
    let mut channels = vec![RUBBISH; room.1];
    let mut record = Record { rows: vec![RUBBISH; CELLS * ROW], counts: vec![99; CELLS], marks: vec![9; MARKS] };
    let before = record.clone();
    let got = ours::flatten(ramp, threshold, &mut record, &mut positions, &mut channels);
    let refusal = early(ramp);
    if refusal != 0 {
        refused::tell(tally, ramp, refusal, 1, |g, _| drop(oracle::linearize_only(g, threshold)));
        let kept = positions.iter().chain(&channels).all(|x| *x == RUBBISH) && record == before;
        if got != Err(refusal) || !kept {
            tally.differs(case, || format!("{got:?}, not {refusal}, of {ramp:?}"));
        }
        return;
    }
    let g = oracle::gradient(ramp);
    let domain = ramp.domain();
    let (want, tries) = oracle::record(&g, domain, threshold);
    let mut list = oracle::thinned(&g, domain.1, threshold, &want);
    list.evaluations += tries;
    tally.answered((emitted(&list, room).0 == 0) as u64);
    check_linearize(tally, case, &g, threshold, &list);
    let sampled = is_record(&record, &want);
    if !sampled || !agrees(got, &list, room, (&positions, &channels)) {
        tally.differs(case, || {
            let (stops, evaluations) = (list.stops.len(), list.evaluations);
            format!("{got:?}, not {stops} stops {evaluations} evaluations, record {sampled}, threshold {threshold:?}, room {room:?}, of {ramp:?}")
        });
    }
}

/// The list put together from the Rust's parts is `linearize`'s own; where that panics, the list is not one.
fn check_linearize(tally: &mut Tally, case: u64, g: &oracle::Boxed, threshold: f32, list: &List) {
    let fine = emitted(list, (MOST_POINTS, 4 * MOST_POINTS)).0 == 0;
    let right = match oracle::linearize(g, threshold) {
        Some(whole) => fine && whole.evaluations == list.evaluations && same_stops(&whole.stops, &list.stops),
        None => !fine,
    };
    if !right {
        tally.differs(case, || "the Rust's parts do not make its own list".to_string());
    } else if !fine {
        tally.listed("8: the Rust panics");
    }
}

pub fn same_stops(a: &[(f32, [f32; 4])], b: &[(f32, [f32; 4])]) -> bool {
    a.len() == b.len() && a.iter().zip(b).all(|(x, y)| all_same(&[x.0], &[y.0]) && all_same(&x.1, &y.1))
}

pub fn is_record(record: &Record, want: &Record) -> bool {
    all_same(&record.rows, &want.rows) && (&record.counts, &record.marks) == (&want.counts, &want.marks)
}

/// A record with valid counts and the words of the ramp and the threshold, of points near the ramp, of rubbish, or both.
pub fn random_record(random: &mut Random, ramp: &Ramp, threshold: f32) -> Record {
    let domain = if ramp.positions.is_empty() { (0.0, 1.0) } else { ramp.domain() };
    let wild = random.below(4);
    let long = random.one_in(4);
    let mut record = Record { rows: Vec::new(), counts: Vec::new(), marks: oracle::marks(domain, threshold) };
    for cell in 0..CELLS {
        let (left, right) = (oracle::edge(domain, cell), oracle::edge(domain, cell + 1));
        for i in 0..ROW {
            record.rows.push(match wild {
                1 if random.one_in(40) => f32::from_bits(random.bits()),
                2 if random.one_in(3) => left,
                3 => random.finite(),
                _ => left + (right - left) * (i as f32 / ROW as f32),
            });
        }
        record.counts.push(random.from_to(1, if long { ROW } else { 5 }) as u8);
    }
    record
}

/// Any record thinned: the answer and the outputs.
pub fn thinned(tally: &mut Tally, case: u64, ramp: &Ramp, threshold: f32, room: (usize, usize), record: &Record) {
    tally.inputs(1);
    let mut positions = vec![RUBBISH; room.0];
    let mut channels = vec![RUBBISH; room.1];
    let got = ours::thin(ramp, threshold, record, &mut positions, &mut channels);
    let sound = record.counts.iter().all(|n| (1..=ROW).contains(&(*n as usize)));
    let refusal = match early(ramp) {
        0 if !sound => 5,
        number => number,
    };
    let right = if refusal != 0 {
        got == Err(refusal) && positions.iter().chain(&channels).all(|x| *x == RUBBISH)
    } else {
        let list = oracle::thinned(&oracle::gradient(ramp), ramp.domain().1, threshold, record);
        tally.answered((emitted(&list, room).0 == 0) as u64);
        agrees(got, &list, room, (&positions, &channels))
    };
    if !right {
        tally.differs(case, || {
            format!("thinned {got:?}, refusal {refusal}, threshold {threshold:?}, room {room:?}, of {ramp:?}")
        });
    }
}
