//! The smallest inputs of docs/DIFFERENCES.md: what the Rust answers to each, and what is answered here.

use crate::harness::oracle::{self, Record, Unchecked};
use crate::harness::ours;
use crate::harness::ramps::{Kind, Ramp, MOST_SEGMENTS};
use crate::listed::lists::MOST_POINTS;
use std::panic::{catch_unwind, AssertUnwindSafe};

const SEGMENT: &str = "0 .5 1 0 0 0 1 1 1 1 1 0 0";
const NAN: f32 = f32::NAN;
const INFINITY: f32 = f32::INFINITY;

pub fn run() {
    println!("| input | the Rust | here |\n|---|---|---|");
    numbers();
    built();
    lent();
    by_the_builder();
    texts();
    lists();
}

fn row(input: &str, rust: impl FnOnce() -> String, here: String) {
    let rust = catch_unwind(AssertUnwindSafe(rust)).unwrap_or_else(|_| "panics".to_string());
    println!("| {input} | {rust} | {here} |");
}

fn bits(x: f32) -> String {
    format!("{:08x}", x.to_bits())
}

fn refused(number: u32) -> String {
    format!("refused {number}")
}

fn stops(kind: Kind, positions: &[f32], reds: &[f32]) -> Ramp {
    let channels = reds.iter().flat_map(|r| [*r, 0.0, 0.0, 1.0]).collect();
    Ramp { kind, positions: positions.to_vec(), channels, codes: Vec::new() }
}

fn numbers() {
    let wide = stops(Kind::Linear, &[-3.0e38, 3.0e38], &[0.0, 1.0]);
    let here = ours::at(&wide, 1.0e38).map_or_else(refused, |c| bits(c[0]));
    row("linear, -3e38 and 3e38, red at 1e38", || bits(oracle::at(&oracle::gradient(&wide), 1.0e38)[0]), here);
    for x in [-0.0, f32::NEG_INFINITY] {
        row(&format!("root of {x:?}"), || bits(oracle::powf(x, 0.5)), bits(ours::root(x)));
    }
}

fn built() {
    let inputs: [(&str, usize, f32, (f32, f32)); 9] = [
        ("one colour on -2..-0.8", 1, 0.0, (-2.0, -0.8)),
        ("three colours on 0..0.003", 3, 0.0, (0.0, 0.003)),
        ("two colours on 0..3e38", 2, 0.0, (0.0, 3.0e38)),
        ("no colour", 0, 0.0, (0.0, 1.0)),
        ("257 colours", 257, 0.0, (0.0, 1.0)),
        ("two colours on -1..-0", 2, 0.0, (-1.0, -0.0)),
        ("one colour on 1..0", 1, 0.0, (1.0, 0.0)),
        ("one colour on 0..infinity", 1, 0.0, (0.0, INFINITY)),
        ("one colour on 0..1, red not-a-number", 1, NAN, (0.0, 1.0)),
    ];
    for (input, n, red, domain) in inputs {
        let channels: Vec<f32> = (0..n).flat_map(|_| [red, 0.0, 0.0, 1.0]).collect();
        let (mut p, mut c) = (vec![0.0; 2 * n], vec![0.0; 8 * n]);
        let here = ours::build_sharp(&channels, domain, 0.1, &mut p, &mut c);
        let last = |stops: &[f32]| format!("{} stops, the last at {}", stops.len(), bits(stops[stops.len() - 1]));
        let here = here.map_or_else(refused, |made| last(&p[..made]));
        let rust = || {
            let stops = oracle::sharp_stops(&channels, domain, 0.1);
            let flat = oracle::linearize(&oracle::sharp(&channels, domain, 0.1), 0.007);
            let end = flat.map_or("cannot be flattened".to_string(), |list| {
                format!("flattened to {}", bits(list.stops[list.stops.len() - 1].0))
            });
            format!("{}, {end}", last(&stops.iter().map(|s| s.0).collect::<Vec<_>>()))
        };
        row(&format!("building sharp: {input}"), rust, here);
    }
}

fn lent() {
    let many: Vec<f32> = (0..2049).map(|i| i as f32 / 2048.0).collect();
    let segments = |n: usize, blending: u8| Ramp {
        kind: Kind::Gimp,
        positions: [0.0, 0.5, 1.0].repeat(n),
        channels: [0.0, 0.0, 0.0, 1.0, 1.0, 1.0, 1.0, 1.0].repeat(n),
        codes: [blending, 0].repeat(n),
    };
    let outside = Ramp { positions: vec![0.0, 1.5, 1.0], ..segments(1, 2) };
    let inputs = [
        ("linear, 2,049 stops", stops(Kind::Linear, &many, &many)),
        ("linear, positions 1, 0", stops(Kind::Linear, &[1.0, 0.0], &[0.0, 1.0])),
        ("smoothstep, positions 1, 0", stops(Kind::Smoothstep, &[1.0, 0.0], &[0.0, 1.0])),
        ("basis, positions 1, 0", stops(Kind::Basis, &[1.0, 0.0], &[0.0, 1.0])),
        ("Catmull-Rom, positions 1, 0", stops(Kind::CatmullRom, &[1.0, 0.0], &[0.0, 1.0])),
        ("smoothstep, red not-a-number", stops(Kind::Smoothstep, &[0.0, 1.0], &[0.0, NAN])),
        ("smoothstep, position not-a-number", stops(Kind::Smoothstep, &[0.0, NAN], &[0.0, 1.0])),
        ("smoothstep, one stop", stops(Kind::Smoothstep, &[0.5], &[0.25])),
        ("basis, one stop", stops(Kind::Basis, &[0.5], &[0.25])),
        ("Catmull-Rom, one stop", stops(Kind::CatmullRom, &[0.5], &[0.25])),
        ("smoothstep, no stop", stops(Kind::Smoothstep, &[], &[])),
        ("lent GIMP segments, 257", segments(257, 0)),
        ("lent GIMP segment, curved", segments(1, 1)),
        ("lent GIMP segment, sinusoidal, its middle outside", outside),
    ];
    for (input, ramp) in inputs {
        let rust = || match oracle::unchecked(&ramp) {
            Unchecked::Made(g) => format!("a ramp, red {} at 0.5", bits(oracle::at(&g, 0.5)[0])),
            Unchecked::Panics => "panics".to_string(),
            Unchecked::Refused => "refused".to_string(),
            Unchecked::NoSuchInput => "no such input".to_string(),
        };
        row(input, rust, ours::at(&ramp, 0.5).map_or_else(refused, |c| format!("red {}", bits(c[0]))));
    }
}

/// The Rust's builder, beside the ramp as it is lent.
fn by_the_builder() {
    for (input, positions, red) in [("two stops at 0.5", [0.5, 0.5], 0.0), ("a red of 2", [0.0, 1.0], 2.0)] {
        let rust =
            || oracle::built(&positions, &[0.0, red]).map_or_else(|e| e, |g| format!("red {}", oracle::at(&g, 1.0)[0]));
        let here = ours::at(&stops(Kind::Linear, &positions, &[0.0, red]), 1.0);
        row(&format!("linear, {input}, at 1"), rust, here.map_or_else(refused, |c| format!("red {}", c[0])));
    }
}

fn texts() {
    let head = "GIMP Gradient\nName: n\n";
    let long = format!("{head}1\n{SEGMENT}\n");
    let many = format!("{head}257\n{}", format!("{SEGMENT}\n").repeat(257));
    let one = |segment: &str| format!("{head}1\n{segment}\n").into_bytes();
    let count = |count: &str| format!("{head}{count}\n{SEGMENT}\n").into_bytes();
    let inputs: [(&str, Vec<u8>, f32); 15] = [
        ("a name in UTF-8", format!("GIMP Gradient\nName: \u{e9}\n1\n{SEGMENT}\n").into_bytes(), 0.0),
        ("line 1 not UTF-8", [b"\xff", &long.as_bytes()[13..]].concat(), 0.0),
        ("65,537 bytes", [long.as_bytes(), &vec![b' '; 65_537 - long.len()]].concat(), 0.0),
        ("1e0", one("0 .5 1e0 0 0 0 1 1 1 1 1 0 0"), 0.0),
        ("inf", one("0 .5 inf 0 0 0 1 1 1 1 1 0 0"), 0.0),
        ("nan", one("0 .5 1 nan 0 0 1 1 1 1 1 0 0"), 0.0),
        ("19 digits", one("0 .5 1 0.000000000000000001 0 0 1 1 1 1 1 0 0"), 0.0),
        ("257 segments", many.into_bytes(), 0.0),
        ("count 2^64 - 1", count("18446744073709551615"), 0.0),
        ("count +1", count("+1"), 0.0),
        ("blending 1", one("0 .5 1 0 0 0 1 1 1 1 1 1 0"), 0.0),
        ("blending 2, middle outside", one("0 1.5 1 0 0 0 1 1 1 1 1 2 0"), 0.0),
        ("blending 2, .6 .5 .4", one(".6 .5 .4 0 0 0 1 1 1 1 1 2 0"), 0.0),
        ("blending 1, then no segment", format!("{head}2\n0 .5 1 0 0 0 1 1 1 1 1 1 0\nx\n").into_bytes(), 0.0),
        ("foreground red not-a-number", long.clone().into_bytes(), NAN),
    ];
    for (input, text, red) in inputs {
        let (f, b) = ([red, 0.0, 0.0, 1.0], [1.0; 4]);
        let room = MOST_SEGMENTS + 1;
        let (mut p, mut c, mut k) = (vec![0.0; 3 * room], vec![0.0; 8 * room], vec![0; 2 * room]);
        let here = match ours::read(&text, (f, b), &mut p, &mut c, &mut k) {
            Ok(n) => format!("read {n}"),
            Err((number, line)) => format!("refused {number} line {line}"),
        };
        let rust = || match oracle::read(&text, f, b) {
            Ok((_, segments, _)) => format!("read {}", segments.len()),
            Err((message, line)) => format!("{message}, line {line}"),
        };
        row(&format!("GIMP text: {input}"), rust, here);
    }
}

fn lists() {
    let wave = Ramp {
        kind: Kind::Gimp,
        positions: vec![0.0, 0.17554358, 1.0],
        channels: vec![0.2544209, 0.20879914, 0.04214492, 1.0, 0.39924964, 0.00993409, 0.5032763, 1.0],
        codes: vec![2, 0],
    };
    let inputs = [
        ("flattening -3e38..3e38", stops(Kind::Linear, &[-3.0e38, 3.0e38], &[0.0, 1.0]), 0.007),
        ("flattening 0..3e38", stops(Kind::Linear, &[0.0, 3.0e38], &[0.0, 1.0]), 0.007),
        (
            "flattening red -3e38, 3e38, -3e38",
            stops(Kind::Linear, &[0.0, 0.5, 1.0], &[-3.0e38, 3.0e38, -3.0e38]),
            0.007,
        ),
        ("flattening two stops at -0", stops(Kind::Linear, &[-0.0, -0.0], &[0.0, 1.0]), 0.007),
        ("flattening one sinusoidal segment", wave, 0.001),
    ];
    for (input, ramp, threshold) in inputs {
        let (mut p, mut c, mut record) = (vec![0.0; MOST_POINTS], vec![0.0; 4 * MOST_POINTS], Record::empty());
        let told = |stops: usize, evaluations: usize, first: f32, last: f32| {
            format!("{stops} stops from {} to {}, {evaluations} evaluations", bits(first), bits(last))
        };
        let here = match ours::flatten(&ramp, threshold, &mut record, &mut p, &mut c) {
            Ok((n, evaluations)) => told(n, evaluations, p[0], p[n - 1]),
            Err(number) => refused(number),
        };
        let rust = || match oracle::linearize(&oracle::gradient(&ramp), threshold) {
            Some(list) => {
                let n = list.stops.len();
                told(n, list.evaluations, list.stops[0].0, list.stops[n - 1].0)
            }
            None => "panics".to_string(),
        };
        row(input, rust, here);
    }
}
