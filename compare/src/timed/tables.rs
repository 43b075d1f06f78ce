//! What is timed: roots, numbers as text, colours, GIMP texts and lists.

use crate::gimp::files;
use crate::gimp::gimp_texts::tidy_text;
use crate::harness::oracle::{self, Boxed, Record};
use crate::harness::ours;
use crate::harness::ramps::{Kind, Ramp, KINDS, MOST_SEGMENTS};
use crate::harness::random::Random;
use crate::listed::lists::MOST_POINTS;
use crate::timed::bench::{beside, used};
use std::hint::black_box;
use std::path::Path;

/// So many that no machine learns them by heart: of 4,096 random ones, painted again and again, the branches of the Rust's
/// search were all guessed right by the time that the clock ran, and it took a fifth of the time of points that are new.
const POINTS: usize = 65536;

/// The blendings carried: the kind of ramp that carries it, GIMP's code, and a name. The first four, in turn, make a ramp of
/// several.
const BLENDINGS: [(Kind, u8, &str); 6] = [
    (Kind::Gimp, 0, "linear"),
    (Kind::Gimp, 3, "spherical increasing"),
    (Kind::Gimp, 4, "spherical decreasing"),
    (Kind::Gimp, 5, "step"),
    (Kind::Gimp, 2, "sinusoidal"),
    (Kind::GimpSaved, 1, "curved"),
];

#[inline(never)]
fn hardware(x: f32) -> f32 {
    x.sqrt()
}

#[inline(never)]
fn libm(x: f32) -> f32 {
    oracle::sqrtf(x)
}

fn each(numbers: &[f32], f: impl Fn(f32) -> f32) {
    for x in numbers {
        black_box(f(black_box(*x)));
    }
}

pub fn roots(random: &mut Random) {
    let unit: Vec<f32> = (0..POINTS).map(|_| random.unit() * 4.0).collect();
    let any: Vec<f32> = (0..POINTS).map(|_| random.finite().abs()).collect();
    for (name, numbers) in [("0 to 4", &unit), ("any", &any)] {
        beside(
            &format!("root, {name}"),
            "sqrt behind a call",
            POINTS,
            || each(numbers, ours::root),
            || each(numbers, hardware),
        );
        beside(&format!("root, {name}"), "libm sqrtf", POINTS, || each(numbers, ours::root), || each(numbers, libm));
    }
}

pub fn tokens(random: &mut Random) {
    for places in [1, 6, 17] {
        let texts: Vec<String> = (0..1024).map(|_| format!("{:.places$}", random.unit() as f64)).collect();
        let ours = || texts.iter().for_each(|t| used(ours::token(black_box(t.as_bytes()))));
        let rust = || texts.iter().for_each(|t| used(black_box(t.as_str()).parse::<f32>()));
        beside(&format!("token of {} digits", places + 1), "str::parse", texts.len(), ours, rust);
    }
    // as many digits as tell a number of 53 binary digits, 17 most often
    for size in [1.0, 1e-1, 1e-2, 1e-3, 1e-16] {
        let texts: Vec<String> =
            (0..1024).map(|_| format!("{:?}", size * (0.1 + 0.9 * random.unit() as f64))).collect();
        let ours = || texts.iter().for_each(|t| used(ours::long_token(black_box(t.as_bytes()))));
        let rust = || texts.iter().for_each(|t| used(black_box(t.as_str()).parse::<f32>()));
        beside(&format!("long token, a tenth of {size:?} to {size:?}"), "str::parse", texts.len(), ours, rust);
    }
}

/// Evenly spaced stops or segments of random colours.
fn even_ramp(random: &mut Random, kind: Kind, n: usize) -> Ramp {
    if kind.is_gimp() {
        let n = n.min(MOST_SEGMENTS);
        let positions = (0..n).flat_map(|i| [i as f32, i as f32 + 0.5, i as f32 + 1.0]).map(|x| x / n as f32).collect();
        let codes = (0..n).flat_map(|i| [BLENDINGS[i % 4].1, 0]).collect();
        return Ramp { kind, positions, channels: (0..8 * n).map(|_| random.unit()).collect(), codes };
    }
    let positions = (0..n).map(|i| i as f32 / (n - 1) as f32).collect();
    Ramp { kind, positions, channels: (0..4 * n).map(|_| random.unit()).collect(), codes: Vec::new() }
}

fn rust_paint(g: &Boxed, points: &[f32], out: &mut [f32]) {
    for (t, colour) in points.iter().zip(out.chunks_exact_mut(4)) {
        colour.copy_from_slice(&oracle::at(g, *t));
    }
}

/// Those of the sizes that a kind can have; 512 stands for the most segments.
fn sizes(kind: Kind, of_stops: &[usize]) -> impl Iterator<Item = usize> + '_ {
    of_stops.iter().copied().filter(move |n| kind != Kind::Gimp || *n <= 512)
}

/// Points from left to right, and random ones.
fn points(random: &mut Random) -> [(&'static str, Vec<f32>); 2] {
    let across = (0..POINTS).map(|i| i as f32 / (POINTS - 1) as f32).collect();
    let anywhere = (0..POINTS).map(|_| random.unit()).collect();
    [("left to right", across), ("random", anywhere)]
}

/// Every real file that is read, where `fetch` has put them, one after the other.
pub fn paint_files(random: &mut Random) {
    let ramps = files::ramps(&Path::new(env!("CARGO_MANIFEST_DIR")).join("../target/compare/files"));
    if ramps.is_empty() {
        return;
    }
    let gradients: Vec<Boxed> = ramps.iter().map(oracle::gradient).collect();
    for (order, points) in points(random) {
        let mut out = (vec![0.0; 4 * POINTS], vec![0.0; 4 * POINTS]);
        let call = format!("paint {} real GIMP files, {order}", ramps.len());
        let ours = || ramps.iter().for_each(|ramp| used(ours::paint(ramp, &points, &mut out.0)));
        let rust = || gradients.iter().for_each(|g| rust_paint(g, black_box(&points), black_box(&mut out.1)));
        beside(&call, "at", ramps.len() * POINTS, ours, rust);
    }
}

pub fn paint(random: &mut Random) {
    let points = points(random);
    for kind in KINDS {
        for n in sizes(kind, &[2, 64, 512, 2048]) {
            paint_beside(kind.name(), &even_ramp(random, kind, n), &points);
        }
    }
    for (kind, blending, name) in BLENDINGS {
        for n in [2, 64] {
            let mut ramp = even_ramp(random, kind, n);
            ramp.codes.iter_mut().step_by(2).for_each(|code| *code = blending);
            paint_beside(&format!("GIMP, {name} alone"), &ramp, &points);
        }
    }
}

fn paint_beside(name: &str, ramp: &Ramp, points: &[(&str, Vec<f32>)]) {
    let g = oracle::gradient(ramp);
    for (order, points) in points {
        let mut out = (vec![0.0; 4 * POINTS], vec![0.0; 4 * POINTS]);
        let call = format!("paint {name}, {} items, {order}", ramp.items());
        let ours = || used(ours::paint(ramp, points, &mut out.0));
        let rust = || rust_paint(&g, black_box(points), black_box(&mut out.1));
        beside(&call, "at", POINTS, ours, rust);
    }
}

pub fn reading(random: &mut Random) {
    let text = tidy_text(random, 46);
    let mut out = (vec![0.0; 3 * MOST_SEGMENTS], vec![0.0; 8 * MOST_SEGMENTS], vec![0; 2 * MOST_SEGMENTS]);
    let (f, b) = ([0.0; 4], [1.0; 4]);
    let ours = || used(ours::read(black_box(&text), (f, b), &mut out.0, &mut out.1, &mut out.2));
    let rust = || used(oracle::read_only(black_box(&text), f, b));
    beside("read, 46 segments", "GimpGradient::new", 1, ours, rust);
}

pub fn flatten(random: &mut Random) {
    for kind in KINDS {
        for n in sizes(kind, &[2, 16, 64, 512, 2048]) {
            let ramp = even_ramp(random, kind, n);
            for threshold in [0.007, 0.001] {
                flatten_beside("flatten", &ramp, threshold, 1);
            }
        }
    }
}

/// How cost grows with the stops: flattening, for each evaluation that document 01 counts.
pub fn growth(random: &mut Random) {
    for kind in KINDS {
        for n in sizes(kind, &[2, 4, 8, 16, 32, 64, 128, 256, 512, 1024, 2048]) {
            let ramp = even_ramp(random, kind, n);
            let mut out = (vec![0.0; MOST_POINTS], vec![0.0; 4 * MOST_POINTS]);
            let made = ours::flatten(&ramp, 0.007, &mut Record::empty(), &mut out.0, &mut out.1);
            flatten_beside("an evaluation in flattening", &ramp, 0.007, made.expect("a ramp that is taken").1);
        }
    }
}

fn flatten_beside(name: &str, ramp: &Ramp, threshold: f32, parts: usize) {
    let g = oracle::gradient(ramp);
    let mut record = Record::empty();
    let mut out = (vec![0.0; MOST_POINTS], vec![0.0; 4 * MOST_POINTS]);
    let call = format!("{name} {}, {} items, {threshold}", ramp.kind.name(), ramp.items());
    let ours = || used(ours::flatten(ramp, threshold, &mut record, &mut out.0, &mut out.1));
    let rust = || used(oracle::linearize_only(&g, black_box(threshold)));
    beside(&call, "linearize", parts, ours, rust);
}
