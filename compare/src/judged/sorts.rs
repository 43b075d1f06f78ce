//! Sorts of ramps that tables are made of: ordinary ones of every kind, hard edges, made-up atlas ramps, the examples, files.

use crate::gimp::files;
use crate::harness::options::Options;
use crate::harness::ours;
use crate::harness::ramps::{Kind, Ramp, KINDS};
use crate::harness::random::Random;
use crate::judged::own_lists::{example, ordinary};
use std::path::Path;

/// The ramps of a sort, one after the other.
pub type Ramps = Box<dyn Iterator<Item = Ramp>>;

/// Makes one ramp of a sort.
pub type Make = fn(&mut Random) -> Ramp;

/// Made-up ramps of an atlas.
pub const ATLAS: [(&str, Make); 6] = [
    ("atlas, even steps", |random| atlas(random, Kind::Linear, true)),
    ("atlas, at depths", |random| atlas(random, Kind::Linear, false)),
    ("atlas, hard bands", |random| banded(random, 0.0)),
    ("atlas, soft bands", |random| banded(random, 0.2)),
    ("atlas, at depths, smoothstep", |random| atlas(random, Kind::Smoothstep, false)),
    ("atlas, at depths, Catmull-Rom", |random| atlas(random, Kind::CatmullRom, false)),
];

/// As many random ramps as are asked for.
pub fn some(options: &Options, make: impl Fn(&mut Random) -> Ramp + 'static) -> Ramps {
    let seed = options.seed;
    Box::new((0..options.size).map(move |case| make(&mut Random::of_case(seed, case))))
}

/// Every sort by its name, and the files of the folder, where one is named.
pub fn all(options: &Options) -> Vec<(String, Ramps)> {
    let mut sorts: Vec<(String, Ramps)> = Vec::new();
    for kind in KINDS {
        sorts.push((kind.name().into(), some(options, move |random| ordinary(random, kind))));
    }
    for kind in [Kind::Linear, Kind::Smoothstep] {
        let name = format!("{}, hard edges", kind.name());
        sorts.push((name, some(options, move |random| hard_edged(ordinary(random, kind)))));
    }
    for (name, make) in ATLAS {
        sorts.push((name.into(), some(options, make)));
    }
    for (name, file) in [("the README's example", "depths"), ("the lost band", "lost-band")] {
        sorts.push((name.into(), Box::new(example(file).into_iter())));
    }
    if let Some(folder) = &options.name {
        sorts.push(("GIMP files".into(), Box::new(files::ramps(Path::new(folder)).into_iter())));
    }
    sorts
}

/// Every second inner stop is moved onto the stop before it.
fn hard_edged(mut ramp: Ramp) -> Ramp {
    for i in (2..ramp.positions.len() - 1).step_by(2) {
        ramp.positions[i] = ramp.positions[i - 1];
    }
    ramp
}

/// 12 to 30 tints from dark to pale blue, two decimals, each channel a little off.
fn tints(random: &mut Random) -> Vec<[f32; 4]> {
    let n = random.from_to(12, 30);
    let bend = 0.6 + 1.2 * random.unit();
    let (dark, pale) = ([0.03, 0.06, 0.2], [0.86, 0.95, 0.98]);
    let mut tint = |i: usize| {
        let part = (i as f32 / (n - 1) as f32).powf(bend);
        let channel: [f32; 3] = std::array::from_fn(|k| {
            let exact: f32 = dark[k] + part * (pale[k] - dark[k]) + 0.02 * (random.unit() - 0.5);
            (exact.clamp(0.0, 1.0) * 100.0).round() / 100.0
        });
        [channel[0], channel[1], channel[2], 1.0]
    };
    (0..n).map(&mut tint).collect()
}

/// One tint for each stop, evenly or at depths, which lie closer towards the shore.
fn atlas(random: &mut Random, kind: Kind, even: bool) -> Ramp {
    let tints = tints(random);
    let last = (tints.len() - 1) as f32;
    let bend = if even { 1.0 } else { 0.35 + 0.4 * random.unit() };
    let place = |i: usize| if i == 0 { 0.0 } else { (((i as f32) / last).powf(bend) * 10_000.0).round() / 10_000.0 };
    let positions = (0..tints.len()).map(place).collect();
    Ramp { kind, positions, channels: tints.concat(), codes: Vec::new() }
}

/// One band for each tint, as a sharp ramp is built.
fn banded(random: &mut Random, softness: f32) -> Ramp {
    let tints = tints(random);
    let (mut positions, mut channels) = (vec![0.0; 2 * tints.len()], vec![0.0; 8 * tints.len()]);
    ours::build_sharp(&tints.concat(), (0.0, 1.0), softness, &mut positions, &mut channels).expect("bands");
    Ramp { kind: Kind::Sharp, positions, channels, codes: Vec::new() }
}
