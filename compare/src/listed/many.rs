//! Ramps of very many stops: 1,700, evenly spaced, random and crowded, against the Rust in every call; and the limit itself,
//! 2,048 taken and the next number refused by every call.

use crate::edited::refresh::{kept, random_edit, refreshed};
use crate::harness::limits;
use crate::harness::options::Options;
use crate::harness::oracle::CELLS;
use crate::harness::ours::{self, Edit};
use crate::harness::ramps::{Kind, Ramp, KINDS};
use crate::harness::random::Random;
use crate::harness::random_ramps::{random_channels, random_points, random_positions};
use crate::harness::report::Tally;
use crate::listed::lists::{flattened, random_record, random_threshold, thinned, MOST_POINTS};
use crate::painted::colours;

/// As the charts of the sea come.
const STOPS: usize = 1700;
const POINTS: usize = 480;
const ROOM: (usize, usize) = (MOST_POINTS, 4 * MOST_POINTS);

/// How stops lie on the domain. Crowded ones lie in one cell, most of them, which then has more pairs than a row has points.
#[derive(Clone, Copy)]
pub enum Spacing {
    Even,
    Random,
    Crowded,
}

const SPACINGS: [Spacing; 3] = [Spacing::Even, Spacing::Random, Spacing::Crowded];

pub fn run(options: &Options) -> Vec<Tally> {
    let mut tallies = vec![at_the_limit(options)];
    let sorts = ["colours", "lists", "refreshes"].map(|sort| format!("1,700 stops: {sort}"));
    let mut of_sort = sorts.map(|name| Tally::new(name, options.seed));
    let cases = options.cases();
    let of = cases.end;
    for case in cases {
        let mut random = Random::of_case(options.seed, case);
        let kind = KINDS[case as usize % 5];
        let ramp = of_many(&mut random, kind, STOPS, SPACINGS[case as usize / 5 % 3]);
        let points = random_points(&mut random, &ramp, POINTS);
        let threshold = random_threshold(&mut random);
        let [colours, lists, refreshes] = &mut of_sort;
        colours::compare(colours, case, &ramp, &points, false);
        flattened(lists, case, &ramp, threshold, ROOM);
        let record = random_record(&mut random, &ramp, threshold);
        thinned(lists, case, &ramp, threshold, ROOM, &record);
        let edit = random_edit(&mut random, &ramp);
        kept(refreshes, case, &ramp, &edit, threshold, record);
        refreshed(refreshes, case, &ramp, &edit, threshold);
        colours.progress(case, of);
    }
    tallies.extend(of_sort.map(Tally::done));
    tallies
}

/// A ramp of n stops.
pub fn of_many(random: &mut Random, kind: Kind, n: usize, spacing: Spacing) -> Ramp {
    let positions = match spacing {
        Spacing::Even => (0..n).map(|i| i as f32 / (n - 1) as f32).collect(),
        Spacing::Random => random_positions(random, n),
        Spacing::Crowded => crowded_positions(random, n),
    };
    Ramp { kind, positions, channels: random_channels(random, 4 * n), codes: Vec::new() }
}

/// From 0 to 1: a few anywhere, so that some pairs are wider than a cell, and the crowd in a cell or in a small part of one.
fn crowded_positions(random: &mut Random, n: usize) -> Vec<f32> {
    let (left, width) = (random.below(CELLS) as f32, random.pick(&[1.0, 0.5, 0.01]));
    let few = random.pick(&[4, n / 4]);
    let mut list: Vec<f32> =
        (0..n).map(|i| if i < few { random.unit() } else { (left + width * random.unit()) / CELLS as f32 }).collect();
    list.sort_by(f32::total_cmp);
    list[0] = 0.0;
    list[n - 1] = 1.0;
    list
}

/// Every call with as many stops as may be, and with the next number of them.
fn at_the_limit(options: &Options) -> Tally {
    let mut tally = Tally::new("stops: limit", options.seed);
    for kind in &KINDS[..5] {
        for (ramp, refusal) in limits::full(*kind).into_iter().zip([0, 1]) {
            for (call, number) in calls(&ramp) {
                // an edit of a sharp ramp is refused, after the ramp
                let sharp = *kind == Kind::Sharp && call.starts_with("refresh");
                let want = if refusal == 0 && sharp { 6 } else { refusal };
                tally.inputs(1);
                tally.answered((want == 0) as u64);
                if number != want {
                    tally.differs(0, || format!("{call} of {} {} stops: {number}", ramp.positions.len(), kind.name()));
                }
            }
        }
    }
    tally.done()
}

/// Each call that takes a ramp, and the number of its refusal.
fn calls(ramp: &Ramp) -> Vec<(&'static str, u32)> {
    let number = |refused: Option<u32>| refused.unwrap_or(0);
    let (mut places, mut colours) = (vec![0.0; ROOM.0], vec![0.0; ROOM.1]);
    let mut record = crate::harness::oracle::Record::empty();
    let edit = Edit { stop: 1, colour: [0.5; 4] };
    let mut out = [0.0; 4];
    vec![
        ("at", number(ours::at(ramp, 0.5).err())),
        ("paint", ours::paint(ramp, &[0.5], &mut out)),
        ("flatten", number(ours::flatten(ramp, 0.007, &mut record, &mut places, &mut colours).err())),
        ("sample", number(ours::sample(ramp, 0.007, &mut record).err())),
        // a record that may be thinned, also where the ramp was not sampled
        ("thin", {
            record.counts.iter_mut().for_each(|n| *n = (*n).max(1));
            record.marks = crate::harness::oracle::marks(ramp.domain(), 0.007);
            number(ours::thin(ramp, 0.007, &record, &mut places, &mut colours).err())
        }),
        ("refresh", number(ours::refresh(ramp, &edit, 0.007, &mut record).err())),
        ("refresh_list", number(ours::refresh_list(ramp, &edit, 0.007, &mut record, &mut places, &mut colours).err())),
    ]
}
