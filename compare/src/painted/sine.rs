//! Sinusoidal segments at points inside them: within 2^-18 of the Rust's sine, and bit for bit what document 02's rule gives,
//! worked out here with a table of its own.

use crate::harness::options::Options;
use crate::harness::oracle;
use crate::harness::ours;
use crate::harness::ramps::{Kind, Ramp};
use crate::harness::random::Random;
use crate::harness::report::{all_same, Tally};

/// How far a channel may lie from the Rust's, where the ends' channels are 0 to 1.
pub const MOST_GAP: f32 = 1.0 / 262_144.0;

pub const CLASS: &str = "sinusoidal: within 2^-18";

const SINUSOIDAL: u8 = 2;
const POINTS: usize = 512;
const STEPS: usize = 1024;

pub fn run(options: &Options) -> Vec<Tally> {
    let mut tally = Tally::new("sine", options.seed);
    let table = table();
    let mut greatest = (0.0, String::new());
    tally.until_enough(options, |tally, case| {
        let mut random = Random::of_case(options.seed, case);
        let ramp = random_ramp(&mut random);
        let points = random_points(&mut random, &ramp);
        compare(tally, case, &ramp, &points, &table, &mut greatest);
    });
    println!("greatest gap {:e}, 2^{:.2}: {}", greatest.0, f32::log2(greatest.0), greatest.1);
    vec![tally.done()]
}

pub fn has_sine(ramp: &Ramp) -> bool {
    ramp.codes.iter().step_by(2).any(|code| *code == SINUSOIDAL)
}

pub fn random_ramp(random: &mut Random) -> Ramp {
    random_segments(random, Kind::Gimp, SINUSOIDAL)
}

/// A ramp's segments run from 0 to 1, with random ends, middles and channels; or there is one from 0 to 1.
pub fn random_segments(random: &mut Random, kind: Kind, blending: u8) -> Ramp {
    let n = random.from_to(1, 6);
    let mut ends: Vec<f32> = (1..n).map(|_| random.unit()).collect();
    ends.extend([0.0, 1.0]);
    ends.sort_by(f32::total_cmp);
    let middle = |random: &mut Random, left: f32, right: f32| match random.below(8) {
        0 => left,
        1 => right,
        2 => left + (right - left) * 0.5,
        _ => (left + (right - left) * random.unit()).clamp(left, right),
    };
    let positions = ends.windows(2).flat_map(|e| [e[0], middle(random, e[0], e[1]), e[1]]).collect();
    let channels = (0..8 * n).map(|_| if random.one_in(4) { random.below(2) as f32 } else { random.unit() }).collect();
    Ramp { kind, positions, channels, codes: [blending, 0].repeat(n) }
}

/// Points inside a segment, each with its segment.
pub fn random_points(random: &mut Random, ramp: &Ramp) -> Vec<(usize, f32)> {
    let n = ramp.codes.len() / 2;
    let mut points = Vec::new();
    for _ in 0..2 * POINTS {
        let i = random.below(n);
        let (left, right) = (ramp.positions[3 * i], ramp.positions[3 * i + 2]);
        let t = left + (right - left) * random.unit();
        if left < t && t < right && points.len() < POINTS {
            points.push((i, t));
        }
    }
    points
}

fn compare(
    tally: &mut Tally,
    case: u64,
    ramp: &Ramp,
    points: &[(usize, f32)],
    table: &[u32],
    greatest: &mut (f32, String),
) {
    tally.inputs(points.len() as u64);
    tally.answered(points.len() as u64);
    let g = oracle::gradient(ramp);
    let at: Vec<f32> = points.iter().map(|p| p.1).collect();
    let mut painted = vec![0.0; 4 * at.len()];
    let refusal = ours::paint(ramp, &at, &mut painted);
    for ((i, t), got) in points.iter().zip(painted.chunks(4)) {
        let (rust, rule) = (oracle::at(&g, *t), by_rule(ramp, *i, *t, table));
        let gap = got.iter().zip(rust).map(|(a, b)| (a - b).abs()).fold(0.0, f32::max);
        let told = || format!("{got:?} at {t:?}, segment {i}, by the Rust {rust:?}, by the rule {rule:?}, of {ramp:?}");
        let one = ours::at(ramp, *t);
        if refusal != 0 || gap > MOST_GAP || !all_same(got, &rule) || one.is_ok_and(|c| !all_same(&c, got)) {
            tally.differs(case, told);
        } else if !all_same(got, &rust) {
            tally.listed(CLASS);
        }
        if gap > greatest.0 {
            *greatest = (gap, format!("--case {case}: {}", told()));
        }
    }
}

/// (1 - cos(pi i / 1024)) / 2 in units of 2^-24, rounded: no entry is nearer than 2^-12 to half-way.
fn table() -> Vec<u32> {
    let part = |i: usize| (1.0 - (std::f64::consts::PI * i as f64 / STEPS as f64).cos()) / 2.0;
    (0..=STEPS).map(|i| (part(i) * 16_777_216.0).round() as u32).collect()
}

/// Document 01's factor, document 02's wave, and the mix of the two colours.
fn by_rule(ramp: &Ramp, i: usize, t: f32, table: &[u32]) -> [f32; 4] {
    let p = &ramp.positions[3 * i..3 * i + 3];
    let along = |x: f32| if p[2] - p[0] < f32::EPSILON { 0.5 } else { (x - p[0]) / (p[2] - p[0]) };
    let f = wave(factor(along(p[1]), along(t)), table);
    let ends = &ramp.channels[8 * i..8 * i + 8];
    [0, 1, 2, 3].map(|k| ends[k] + f * (ends[k + 4] - ends[k]))
}

fn factor(middle: f32, place: f32) -> f32 {
    if place <= middle {
        return if middle < f32::EPSILON { 0.0 } else { 0.5 * place / middle };
    }
    if 1.0 - middle < f32::EPSILON {
        return 1.0;
    }
    0.5 + 0.5 * (place - middle) / (1.0 - middle)
}

fn wave(f: f32, table: &[u32]) -> f32 {
    let x = f.clamp(0.0, 1.0) * STEPS as f32;
    let i = x as usize;
    if i == STEPS {
        return 1.0;
    }
    let (low, rise) = (table[i] as f32, (table[i + 1] - table[i]) as f32);
    (low + rise * (x - i as f32)) / 16_777_216.0
}
