//! Colours of every kind: one by one, and many at once into a lent output.

use crate::harness::limits;
use crate::harness::options::Options;
use crate::harness::oracle;
use crate::harness::ours;
use crate::harness::ramps::{Kind, Ramp, KINDS};
use crate::harness::random::Random;
use crate::harness::random_ramps::{random_or_spoilt, random_points};
use crate::harness::refused;
use crate::harness::report::{all_same, Tally};

/// How many points a ramp is asked for.
const POINTS: usize = 48;

/// What lent memory holds before a call.
const RUBBISH: f32 = -7.5;

pub fn run(options: &Options) -> Vec<Tally> {
    let kinds = KINDS.iter().map(|kind| one_kind(options, *kind));
    std::iter::once(at_limits(options)).chain(kinds).collect()
}

/// The fixed ramps, at every position and beside it.
fn at_limits(options: &Options) -> Tally {
    let mut tally = Tally::new("colours: limits", options.seed);
    for (case, ramp) in (0..).zip(limits::all()) {
        let points = limits::turns(&ramp);
        compare(&mut tally, case, &ramp, &points, false);
        compare(&mut tally, case, &ramp, &points, true);
    }
    tally.done()
}

fn one_kind(options: &Options, kind: Kind) -> Tally {
    let mut tally = Tally::new(format!("colours: {}", kind.name()), options.seed);
    tally.until_enough(options, |tally, case| {
        let mut random = Random::of_case(8 * options.seed + kind.code() as u64, case);
        let ramp = random_or_spoilt(&mut random, kind);
        let points = random_points(&mut random, &ramp, POINTS);
        compare(tally, case, &ramp, &points, random.one_in(16));
    });
    tally.done()
}

pub fn compare(tally: &mut Tally, case: u64, ramp: &Ramp, points: &[f32], cramped: bool) {
    let refusal = ramp.refusal();
    let want: Vec<f32> = match refusal {
        0 => {
            let g = oracle::gradient(ramp);
            points.iter().flat_map(|t| oracle::at(&g, *t)).collect()
        }
        _ => Vec::new(),
    };
    tally.inputs(points.len() as u64);
    match refusal {
        0 => tally.answered(points.len() as u64),
        _ => refused::tell(tally, ramp, refusal, points.len(), |g, i| drop(oracle::at(g, points[i]))),
    }
    for (i, t) in points.iter().enumerate() {
        let got = ours::at(ramp, *t);
        let right = match got {
            Ok(colour) => refusal == 0 && all_same(&colour, &want[4 * i..4 * i + 4]),
            Err(number) => refusal != 0 && number == refusal,
        };
        if !right {
            tally.differs(case, || format!("at {t:?}: {got:?}, not {:?} of {ramp:?}", want.get(4 * i..4 * i + 4)));
        }
    }
    painted(tally, case, ramp, points, (refusal, &want), cramped);
}

/// Many points at once, into an output with room to spare, or one number short.
fn painted(tally: &mut Tally, case: u64, ramp: &Ramp, points: &[f32], want: (u32, &[f32]), cramped: bool) {
    let mut out = vec![RUBBISH; if cramped { 4 * points.len() - 1 } else { 4 * points.len() + 3 }];
    let got = ours::paint(ramp, points, &mut out);
    let (number, left) = match want {
        (0, _) if cramped => (7, vec![0.0; out.len()]),
        (0, colours) => (0, [colours, &[RUBBISH; 3]].concat()),
        (number, _) => (number, vec![RUBBISH; out.len()]),
    };
    if got != number || !all_same(&out, &left) {
        tally.differs(case, || format!("painted with {got}, not {number}, of {ramp:?}"));
    }
}
