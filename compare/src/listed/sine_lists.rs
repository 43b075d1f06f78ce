//! Lists of sinusoidal and of curved ramps. Their colours go by rules of their own and not by the Rust's sine, logarithm and
//! exponential, so a list can have other stops than the Rust's: how often, and how far the two are apart. Each list is bit for
//! bit the one that the Rust's own halving and thinning make of our colours.

use crate::harness::options::Options;
use crate::harness::oracle::{self, Boxed, List, Record};
use crate::harness::ours;
use crate::harness::ramps::Ramp;
use crate::harness::random::Random;
use crate::harness::report::Tally;
use crate::listed::lists::{agrees, random_threshold, same_stops, MOST_POINTS, RUBBISH};
use crate::painted::curves;
use crate::painted::sine;

const ROOM: (usize, usize) = (MOST_POINTS, 4 * MOST_POINTS);
const GRID: usize = 1000;

/// What the classes of one sort of ramp are called.
struct Sort {
    name: &'static str,
    near: &'static str,
    other: &'static str,
    random_ramp: fn(&mut Random) -> Ramp,
}

const SORTS: [Sort; 2] = [
    Sort {
        name: "lists of sinusoidal ramps",
        near: "sinusoidal: the same positions, colours within 2^-18",
        other: "sinusoidal: other stops or evaluations",
        random_ramp: sine::random_ramp,
    },
    Sort {
        name: "lists of curved ramps",
        near: "curved: the same positions, colours within 2^-18",
        other: "curved: other stops or evaluations",
        random_ramp: curves::random_ramp,
    },
];

pub fn run(options: &Options) -> Vec<Tally> {
    SORTS.iter().map(|sort| one_sort(options, sort)).collect()
}

fn one_sort(options: &Options, sort: &Sort) -> Tally {
    let mut tally = Tally::new(sort.name, options.seed);
    let mut farthest = (0.0, String::new());
    let cases = options.cases();
    let of = cases.end;
    for case in cases {
        let mut random = Random::of_case(options.seed, case);
        let ramp = (sort.random_ramp)(&mut random);
        compare(&mut tally, sort, case, &ramp, random_threshold(&mut random), &mut farthest);
        tally.progress(case, of);
    }
    println!("lists that differ are apart by at most {:e} in a channel: {}", farthest.0, farthest.1);
    tally.done()
}

fn compare(tally: &mut Tally, sort: &Sort, case: u64, ramp: &Ramp, threshold: f32, farthest: &mut (f32, String)) {
    tally.inputs(1);
    let (mut positions, mut channels) = (vec![RUBBISH; ROOM.0], vec![RUBBISH; ROOM.1]);
    let got = ours::flatten(ramp, threshold, &mut Record::empty(), &mut positions, &mut channels);
    let (here, rust) = (list(&oracle::of_ours(ramp), threshold), list(&oracle::gradient(ramp), threshold));
    if !agrees(got, &here, ROOM, (&positions, &channels)) {
        tally
            .differs(case, || format!("{got:?}, not {} stops, threshold {threshold:?}, of {ramp:?}", here.stops.len()));
        return;
    }
    tally.answered(1);
    let places = |list: &List| list.stops.iter().map(|s| s.0.to_bits()).collect::<Vec<_>>();
    if (places(&here), here.evaluations) == (places(&rust), rust.evaluations) {
        if !same_stops(&here.stops, &rust.stops) {
            tally.listed(sort.near);
        }
        return;
    }
    tally.listed(sort.other);
    let gap = apart(&here, &rust);
    if gap > farthest.0 {
        let told = (here.stops.len(), here.evaluations, rust.stops.len(), rust.evaluations);
        *farthest = (gap, format!("--case {case}: {told:?}, threshold {threshold:?}, of {ramp:?}"));
    }
}

fn list(g: &Boxed, threshold: f32) -> List {
    let domain = (0.0, 1.0);
    let (record, tries) = oracle::record(g, domain, threshold);
    let mut made = oracle::thinned(g, domain.1, threshold, &record);
    made.evaluations += tries;
    made
}

/// The greatest difference of a channel between two lists, mixed linearly, on a grid.
fn apart(a: &List, b: &List) -> f32 {
    let mixed = |list: &List| {
        let positions: Vec<f32> = list.stops.iter().map(|s| s.0).collect();
        oracle::mixed(&positions, &list.stops.iter().flat_map(|s| s.1).collect::<Vec<_>>())
    };
    let (a, b) = (mixed(a), mixed(b));
    let gap = |t: f32| oracle::at(&a, t).iter().zip(oracle::at(&b, t)).map(|(x, y)| (x - y).abs()).fold(0.0, f32::max);
    (0..=GRID).map(|i| gap(i as f32 / GRID as f32)).fold(0.0, f32::max)
}
