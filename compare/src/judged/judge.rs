//! Judging lists: ours against a judge worked out here from documents 01 and 02, over the Rust's own colours; of
//! sinusoidal and curved segments over ours.

use crate::harness::options::Options;
use crate::harness::oracle::{self, Record, CELLS};
use crate::harness::ours;
use crate::harness::ramps::Ramp;
use crate::harness::random::Random;
use crate::harness::random_ramps::{random_channels, random_positions};
use crate::harness::report::Tally;
use crate::judged::lists_within::{any_ramp, colours};
use crate::listed::lists::{early, random_threshold, MOST_POINTS};
use std::collections::BTreeMap;

/// A list of stops as it is lent.
#[derive(Clone, Debug)]
pub struct List {
    pub positions: Vec<f32>,
    pub channels: Vec<f32>,
}

/// What is said of a list. Bits are compared.
#[derive(Clone, Copy, PartialEq, Debug)]
pub enum Verdict {
    Yes,
    WrongLength,
    BadStop(usize),
    WrongFirst,
    WrongLast,
    TooFar(usize, usize, u32),
}

/// How often each verdict is right.
type Told = BTreeMap<&'static str, u64>;

/// A point of a fresh sampling, by row and index, and how far the list is off there.
pub struct Looked {
    pub place: (usize, usize),
    pub t: f32,
    pub distance: f32,
}

pub fn run(options: &Options) -> Vec<Tally> {
    let mut own = Tally::new("judged: our own lists", options.seed);
    let mut other = Tally::new("judged: others", options.seed);
    let mut told = Told::new();
    let cases = options.cases();
    let of = cases.end;
    for case in cases {
        let mut random = Random::of_case(options.seed, case);
        let ramp = any_ramp(&mut random, 2 * case);
        let threshold = random_threshold(&mut random);
        let made = own_list(&ramp, threshold);
        if let Some(list) = &made {
            compare(&mut own, &mut told, case, &ramp, threshold, list);
        }
        let list = another(&mut random, &ramp, made);
        compare(&mut other, &mut told, case, &ramp, threshold, &list);
        own.progress(case, of);
    }
    println!("verdicts: {told:?}");
    vec![own.done(), other.done()]
}

fn compare(tally: &mut Tally, told: &mut Told, case: u64, ramp: &Ramp, threshold: f32, list: &List) {
    tally.inputs(1);
    let got = ours::judge(ramp, threshold, &list.positions, &list.channels);
    let want = match early(ramp) {
        0 => {
            let g = colours(ramp);
            tally.answered(1);
            Ok(verdict(ramp.domain(), threshold, list, &|t| oracle::at(&g, t)))
        }
        number => Err(number),
    };
    if let Ok(verdict) = want {
        *told.entry(name(verdict)).or_default() += 1;
    }
    if got != want {
        tally.differs(case, || format!("{got:?}, not {want:?}, threshold {threshold:?}, list {list:?}, of {ramp:?}"));
    }
}

fn name(verdict: Verdict) -> &'static str {
    match verdict {
        Verdict::Yes => "yes",
        Verdict::WrongLength => "wrong length",
        Verdict::BadStop(_) => "bad stop",
        Verdict::WrongFirst => "wrong first",
        Verdict::WrongLast => "wrong last",
        Verdict::TooFar(CELLS, ..) => "max too far",
        Verdict::TooFar(..) => "too far",
    }
}

/// The verdict by document 02 (xi), of a ramp that is not refused and has these colours.
pub fn verdict(domain: (f32, f32), threshold: f32, list: &List, ramp: &dyn Fn(f32) -> [f32; 4]) -> Verdict {
    if let Some(fault) = fault_of_shape(domain, list) {
        return fault;
    }
    let far = |p: &Looked| p.distance.is_nan() || p.distance > oracle::clamped(threshold);
    match looked_at(domain, threshold, list, ramp).into_iter().find(far) {
        Some(Looked { place: (row, index), t, .. }) => Verdict::TooFar(row, index, t.to_bits()),
        None => Verdict::Yes,
    }
}

/// What is wrong with a list before its colours are asked for.
pub fn fault_of_shape(domain: (f32, f32), list: &List) -> Option<Verdict> {
    let n = list.positions.len();
    if !(2..=MOST_POINTS).contains(&n) || list.channels.len() != 4 * n {
        return Some(Verdict::WrongLength);
    }
    for i in 0..n {
        let finite = list.positions[i].is_finite() && list.channels[4 * i..4 * i + 4].iter().all(|c| c.is_finite());
        if !finite || i > 0 && list.positions[i] < list.positions[i - 1] {
            return Some(Verdict::BadStop(i));
        }
    }
    if list.positions[0] != domain.0 {
        return Some(Verdict::WrongFirst);
    }
    (list.positions[n - 1] != domain.1).then_some(Verdict::WrongLast)
}

/// Every point of a fresh sampling, and then max, with how far a sound list is off there.
pub fn looked_at(domain: (f32, f32), threshold: f32, list: &List, ramp: &dyn Fn(f32) -> [f32; 4]) -> Vec<Looked> {
    let mixed = oracle::mixed(&list.positions, &list.channels);
    let look = |place, t| Looked { place, t, distance: distance(ramp(t), oracle::at(&mixed, t)) };
    let mut all = Vec::new();
    for row in 0..CELLS {
        let (left, right) = (oracle::edge(domain, row), oracle::edge(domain, row + 1));
        let mut points = vec![left];
        halve(ramp, oracle::clamped(threshold), (left, right), 7, &mut points);
        all.extend(points.into_iter().enumerate().map(|(index, t)| look((row, index), t)));
    }
    all.push(look((CELLS, 0), domain.1));
    all
}

/// The midpoints that document 01 keeps between two points.
fn halve(ramp: &dyn Fn(f32) -> [f32; 4], threshold: f32, (t0, t1): (f32, f32), left: u32, kept: &mut Vec<f32>) {
    if left == 0 {
        return;
    }
    let middle = (t0 + t1) / 2.0;
    let (a, b) = (ramp(t0), ramp(t1));
    let foretold = std::array::from_fn(|i| a[i] + 0.5 * (b[i] - a[i]));
    if distance(ramp(middle), foretold) > threshold {
        halve(ramp, threshold, (t0, middle), left - 1, kept);
        kept.push(middle);
        halve(ramp, threshold, (middle, t1), left - 1, kept);
    }
}

/// Half the root of the summed squares, of the clamped colours.
pub fn distance(x: [f32; 4], y: [f32; 4]) -> f32 {
    let clamp = |v: f32| {
        if v < 0.0 {
            0.0
        } else if v > 1.0 {
            1.0
        } else {
            v
        }
    };
    let d: [f32; 4] = std::array::from_fn(|i| clamp(x[i]) - clamp(y[i]));
    (d[0] * d[0] + d[1] * d[1] + d[2] * d[2] + d[3] * d[3]).sqrt() / 2.0
}

/// The list that flattening makes, if it makes one.
pub fn own_list(ramp: &Ramp, threshold: f32) -> Option<List> {
    let (mut positions, mut channels) = (vec![0.0; MOST_POINTS], vec![0.0; 4 * MOST_POINTS]);
    let made = ours::flatten(ramp, threshold, &mut Record::empty(), &mut positions, &mut channels);
    let (n, _) = made.ok()?;
    positions.truncate(n);
    channels.truncate(4 * n);
    Some(List { positions, channels })
}

/// A list from elsewhere: the ramp's own stops, our own list disturbed, or any.
pub fn another(random: &mut Random, ramp: &Ramp, own: Option<List>) -> List {
    let mut list = match (own, random.below(4)) {
        (Some(own), 0..=2) => own,
        (None, _) if random.one_in(2) => List { positions: vec![0.0, 1.0], channels: vec![0.5; 8] },
        (_, 3) if ramp.codes.is_empty() => List { positions: ramp.positions.clone(), channels: ramp.channels.clone() },
        _ => {
            let n = random.from_to(2, 9);
            List { positions: random_positions(random, n), channels: random_channels(random, 4 * n) }
        }
    };
    for _ in 0..random.below(3) {
        disturb(random, &mut list);
    }
    list
}

/// One thing changed.
fn disturb(random: &mut Random, list: &mut List) {
    let (n, m) = (list.positions.len(), list.channels.len());
    if n < 2 || m < 8 {
        return;
    }
    let bad = random.pick(&[f32::NAN, f32::INFINITY, f32::NEG_INFINITY]);
    let (i, j) = (random.below(n), random.below(m));
    match random.below(16) {
        0 => list.positions[i] = bad,
        1 => list.channels[j] = bad,
        2 => list.positions[i] = list.positions[random.below(n)],
        3 => list.positions[0] = -list.positions[0],
        4 => list.positions[0] = list.positions[0].next_down(),
        5 => list.positions[n - 1] = list.positions[n - 1].next_up(),
        6 => drop(list.channels.pop()),
        7 => drop(list.positions.pop()),
        8 => {
            list.positions.truncate(1);
            list.channels.truncate(4);
        }
        9 => {
            // one stop more than may be
            let (t, c) = (list.positions[n - 1], list.channels[m - 4..].to_vec());
            list.positions.resize(MOST_POINTS + random.below(2), t);
            list.channels =
                list.channels.iter().copied().chain(c.into_iter().cycle()).take(4 * list.positions.len()).collect();
        }
        10 => list.channels[j] += random.pick(&[0.001, -0.001, 0.01, 0.05, 1.0]),
        11 => list.channels[m - 4 + j % 4] += random.pick(&[0.005, -0.02, 0.25]),
        12 | 13 => {
            // the last place twice: only max has the last colour
            list.positions.push(list.positions[n - 1]);
            list.channels.extend_from_within(m - 4..);
            list.channels[m + j % 4] += random.pick(&[0.0, 0.005, -0.25]);
        }
        14 => list.channels[j] = random.pick(&[-3.0, 2.0, 3.0e38, -3.0e38]),
        _ => {
            list.positions.remove(i);
            list.channels.drain((4 * i).min(m - 4)..(4 * i + 4).min(m));
        }
    }
}
