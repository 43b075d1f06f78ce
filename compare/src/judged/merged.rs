//! How many lists show two depths as one: published ones beside those that keep their word, of fresh records and of stale ones,
//! as two tables.

use crate::harness::options::Options;
use crate::harness::oracle::{self, Boxed, Record};
use crate::harness::ours;
use crate::harness::ramps::{Kind, Ramp};
use crate::harness::random::Random;
use crate::judged::apart::{counted, Asked, MERGED};
use crate::judged::judge::{distance, own_list, List};
use crate::judged::lists_within::colours;
use crate::judged::own_lists::THRESHOLDS;
use crate::judged::sorts::{self, Make};
use crate::judged::within;
use crate::judged::word::{list_within, HOLD};
use crate::listed::lists::MOST_POINTS;

/// Two depths are told apart where their colours differ by more than this.
const STEP: f32 = 0.02;

/// Lists of one sort at one threshold.
#[derive(Clone, Copy, Default)]
struct Count {
    lists: u64,
    refused: u64,
    /// Lists in which a pair is merged, and those in which a depth has moved.
    merging: u64,
    moving: u64,
    /// Pairs that the ramp tells apart, and of these the merged ones.
    pairs: usize,
    merged: usize,
    /// How far apart in the ramp a merged pair is at most.
    widest: f32,
}

/// The published list, and the one that keeps its word.
type Both = [Option<List>; 2];

pub fn run(options: &Options) -> bool {
    head();
    let mut right = true;
    for (name, ramps) in sorts::all(options) {
        right &= rows(&name, ramps.map(|ramp| (ramp, None)), own);
    }
    for (name, make) in [sorts::ATLAS[2], sorts::ATLAS[3]] {
        let name = format!("{name}, asked mid-band");
        right &= rows(&name, sorts::some(options, make).map(|ramp| (ramp, None)), mid_band);
    }
    println!("\nOne tint changed behind the record:\n");
    head();
    for (name, make) in sorts::ATLAS {
        right &= rows(name, accidents(options, make), own);
    }
    right
}

fn head() {
    println!(
        "| ramps | threshold | lists | with a merged pair | pairs merged | apart at most | with a depth moved |\n\
         |---|---|---|---|---|---|---|"
    );
}

/// The ramp's own positions.
fn own(ramp: &Ramp) -> Vec<f32> {
    ramp.positions.clone()
}

/// Half-way between the two stops of each band.
fn mid_band(ramp: &Ramp) -> Vec<f32> {
    ramp.positions.chunks(2).map(|band| (band[0] + band[1]) / 2.0).collect()
}

/// Ramps of which one tint was changed by up to 0.1 a channel, each with the ramp from before. Both stops of a band change.
fn accidents(options: &Options, make: Make) -> impl Iterator<Item = (Ramp, Option<Ramp>)> {
    let seed = options.seed;
    (0..options.size).map(move |case| {
        let mut random = Random::of_case(seed, case);
        let before = make(&mut random);
        let mut after = before.clone();
        let channels = if before.kind == Kind::Sharp { 8 } else { 4 };
        let tint = random.below(before.channels.len() / channels);
        let by: [f32; 3] = std::array::from_fn(|_| 0.2 * (random.unit() - 0.5));
        for colour in after.channels[channels * tint..channels * (tint + 1)].chunks_mut(4) {
            colour.iter_mut().zip(by).for_each(|(c, by)| *c = (*c + by).clamp(0.0, 1.0));
        }
        (after, Some(before))
    })
}

/// A row for each threshold, 'published / within' in each cell; whether every list was told of as it is worked out here.
fn rows(name: &str, ramps: impl Iterator<Item = (Ramp, Option<Ramp>)>, depths: fn(&Ramp) -> Vec<f32>) -> bool {
    let mut counts = [[Count::default(); 2]; THRESHOLDS.len()];
    let mut right = true;
    for (ramp, before) in ramps {
        let g = colours(&ramp);
        for (count, threshold) in counts.iter_mut().zip(THRESHOLDS) {
            let asked = Asked { threshold, step: STEP, depths: depths(&ramp) };
            let lists = match &before {
                None => fresh(&ramp, &g, threshold),
                Some(before) => stale(&ramp, before, threshold),
            };
            for (count, list) in count.iter_mut().zip(lists) {
                right &= look(count, &ramp, &g, &asked, list);
            }
        }
    }
    for ([published, within], threshold) in counts.iter().zip(THRESHOLDS) {
        let share = |part: u64, all: u64| 100.0 * part as f64 / all.max(1) as f64;
        let both = |of: fn(&Count) -> (u64, u64)| {
            let [(a, b), (c, d)] = [of(published), of(within)];
            format!("{:.1} % / {:.1} %", share(a, b), share(c, d))
        };
        let refused = if within.refused > 0 { format!(", and {} refused", within.refused) } else { String::new() };
        println!(
            "| {name} | {threshold} | {}{refused} | {} | {} | {:.4} / {:.4} | {} |",
            within.lists,
            both(|count| (count.merging, count.lists)),
            both(|count| (count.merged as u64, count.pairs as u64)),
            published.widest,
            within.widest,
            both(|count| (count.moving, count.lists)),
        );
    }
    right
}

fn fresh(ramp: &Ramp, g: &Boxed, threshold: f32) -> Both {
    [own_list(ramp, threshold), list_within(ramp, g, threshold).expect("the list of the rule")]
}

/// The lists of the record of the ramp from before.
fn stale(ramp: &Ramp, before: &Ramp, threshold: f32) -> Both {
    let mut record = Record::empty();
    ours::sample(before, threshold, &mut record).expect("a ramp that is taken");
    let made = |thin: &dyn Fn(&mut [f32], &mut [f32]) -> ours::Listed| {
        let (mut positions, mut channels) = (vec![0.0; MOST_POINTS], vec![0.0; 4 * MOST_POINTS]);
        let (n, _) = thin(&mut positions, &mut channels).ok()?;
        positions.truncate(n);
        channels.truncate(4 * n);
        Some(List { positions, channels })
    };
    let asked = within::Asked { threshold, hold: HOLD };
    [
        made(&|places, colours| ours::thin(ramp, threshold, &record, places, colours)),
        made(&|places, colours| ours::thin_within(ramp, asked, &record, places, colours)),
    ]
}

fn look(count: &mut Count, ramp: &Ramp, g: &Boxed, asked: &Asked, list: Option<List>) -> bool {
    let Some(list) = list else {
        count.refused += 1;
        return true;
    };
    let mixed = oracle::mixed(&list.positions, &list.channels);
    let want = asked.faults(&|t| oracle::at(g, t), &|t| oracle::at(&mixed, t));
    let mut faults = vec![0; want.len()];
    let told = ours::apart(ramp, asked, &list.positions, &list.channels, &mut faults);
    let [moved, close, merged, _] = counted(&want);
    count.lists += 1;
    count.merging += (merged > 0) as u64;
    count.moving += (moved > 0) as u64;
    count.pairs += want.len() - 1 - close;
    count.merged += merged;
    let widths = (1..want.len()).filter(|i| want[*i] & MERGED != 0).map(|i| {
        let [before, here] = [asked.depths[i - 1], asked.depths[i]].map(|t| oracle::at(g, t));
        distance(before, here)
    });
    count.widest = widths.fold(count.widest, f32::max);
    let right = told == (0, counted(&want)) && faults == want;
    if !right {
        println!("DIFFERS {told:?} {faults:?}, not {want:?}, {asked:?}, of {ramp:?}");
    }
    right
}
