//! Where our own lists fall short: how many of them the judge turns down, and how far off they are, as a table.

use crate::gimp::files;
use crate::harness::options::Options;
use crate::harness::oracle;
use crate::harness::ours;
use crate::harness::ramps::{Kind, Ramp, KINDS};
use crate::harness::random::Random;
use crate::judged::judge::{looked_at, own_list, Verdict};
use std::path::Path;

pub const THRESHOLDS: [f32; 3] = [0.001, 0.007, 0.035];

/// Lists of one sort at one threshold.
#[derive(Clone, Copy, Default)]
struct Count {
    lists: u64,
    down: u64,
    refused: u64,
    most: f32,
}

/// Random ramps, as many as are asked for over all kinds, and the files of the folder, where one is named.
pub fn run(options: &Options) -> bool {
    println!("| ramps | threshold | lists | turned down | farthest off |");
    println!("|---|---|---|---|---|");
    let mut right = true;
    for (k, kind) in KINDS.into_iter().enumerate() {
        let cases = (0..options.size).filter(|case| *case as usize % KINDS.len() == k);
        let ramps = cases.map(|case| ordinary(&mut Random::of_case(options.seed, case), kind));
        right &= rows(kind.name(), ramps);
    }
    let hued = (0..options.size / KINDS.len() as u64).map(|case| by_hue(&mut Random::of_case(options.seed, case)));
    right &= rows("GIMP, coloured by hue", hued);
    right &= rows("the README's example", example("depths").into_iter());
    if let Some(folder) = &options.name {
        right &= rows("GIMP files", files::ramps(Path::new(folder)).into_iter());
    }
    right
}

/// The linear ramp of an example, where it is at hand: `depths` is the README's.
pub fn example(name: &str) -> Option<Ramp> {
    let text = std::fs::read_to_string(format!("examples/{name}.tsv")).ok()?;
    let mut ramp = Ramp { kind: Kind::Linear, positions: Vec::new(), channels: Vec::new(), codes: Vec::new() };
    for line in text.lines().filter(|line| line.starts_with("stop\t")) {
        let numbers: Vec<f32> = line.split('\t').skip(1).filter_map(|word| word.parse().ok()).collect();
        ramp.positions.push(*numbers.first()?);
        ramp.channels.extend_from_slice(numbers.get(1..5)?);
    }
    Some(ramp)
}

/// A row for each threshold; whether each list was judged as it is worked out here.
fn rows(name: &str, ramps: impl Iterator<Item = Ramp>) -> bool {
    let mut counts = [Count::default(); THRESHOLDS.len()];
    let mut right = true;
    for ramp in ramps {
        for (count, threshold) in counts.iter_mut().zip(THRESHOLDS) {
            right &= look(count, &ramp, threshold);
        }
    }
    for (count, threshold) in counts.iter().zip(THRESHOLDS) {
        let Count { lists, down, refused, most } = count;
        let share = 100.0 * *down as f64 / (*lists).max(1) as f64;
        let refused = if *refused > 0 { format!(", and {refused} refused") } else { String::new() };
        println!("| {name} | {threshold} | {lists}{refused} | {down} ({share:.1} %) | {most:.4} |");
    }
    right
}

fn look(count: &mut Count, ramp: &Ramp, threshold: f32) -> bool {
    let Some(list) = own_list(ramp, threshold) else {
        count.refused += 1;
        return true;
    };
    let colour = |t| ours::at(ramp, t).expect("a ramp that passes");
    let all = looked_at(ramp.domain(), threshold, &list, &colour);
    let far = |d: f32| d.is_nan() || d > oracle::clamped(threshold);
    let verdict = match all.iter().find(|p| far(p.distance)) {
        Some(p) => Verdict::TooFar(p.place.0, p.place.1, p.t.to_bits()),
        None => Verdict::Yes,
    };
    count.lists += 1;
    count.down += (verdict != Verdict::Yes) as u64;
    count.most = all.iter().fold(count.most, |most, p| most.max(p.distance));
    let got = ours::judge(ramp, threshold, &list.positions, &list.channels);
    if got != Ok(verdict) {
        println!("DIFFERS {got:?}, not {verdict:?}, threshold {threshold}, of {ramp:?}");
    }
    got == Ok(verdict)
}

/// The same segments, each coloured by hue, one way or the other.
fn by_hue(random: &mut Random) -> Ramp {
    let mut ramp = ordinary(random, Kind::Gimp);
    ramp.codes.chunks_mut(2).for_each(|code| code[1] = random.pick(&[1, 2]));
    ramp
}

/// 2 to 9 stops or segments from 0 to 1, channels 0 to 1.
pub fn ordinary(random: &mut Random, kind: Kind) -> Ramp {
    let mut n = random.from_to(2, 9);
    if kind == Kind::Sharp {
        n += n % 2;
    }
    let mut inner: Vec<f32> = (2..n).map(|_| random.unit()).collect();
    inner.sort_by(f32::total_cmp);
    let ends: Vec<f32> = std::iter::once(0.0).chain(inner).chain([1.0]).collect();
    if kind != Kind::Gimp {
        let channels = (0..4 * n).map(|_| random.unit()).collect();
        return Ramp { kind, positions: ends, channels, codes: Vec::new() };
    }
    let positions = ends.windows(2).flat_map(|w| [w[0], w[0] + (w[1] - w[0]) * random.unit(), w[1]]).collect();
    let channels = (0..8 * (n - 1)).map(|_| random.unit()).collect();
    let codes = (1..n).flat_map(|_| [random.pick(&[0, 0, 2, 3, 4, 5]), 0]).collect();
    Ramp { kind, positions, channels, codes }
}
