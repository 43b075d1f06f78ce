//! Sharp ramps built from colours, a domain and a softness.

use crate::harness::options::Options;
use crate::harness::oracle;
use crate::harness::ours;
use crate::harness::ramps::{Kind, Ramp};
use crate::harness::random::Random;
use crate::harness::random_ramps::random_points;
use crate::harness::report::{all_same, same, Tally};
use std::panic::catch_unwind;

type Stop = (f32, [f32; 4]);

const MOST_COLOURS: usize = 256;
const RUBBISH: f32 = -7.5;

pub struct Input {
    pub channels: Vec<f32>,
    pub min: f32,
    pub max: f32,
    pub softness: f32,
    /// The lengths of the lent positions and channels.
    pub room: (usize, usize),
}

pub fn run(options: &Options) -> Vec<Tally> {
    let mut tally = Tally::new("sharp: built", options.seed);
    let cases = options.cases();
    let of = cases.end;
    for case in cases {
        let mut random = Random::of_case(options.seed, case);
        let input = random_input(&mut random);
        compare(&mut tally, case, &input, &mut random);
        tally.progress(case, of);
    }
    vec![tally.done()]
}

fn compare(tally: &mut Tally, case: u64, input: &Input, random: &mut Random) {
    tally.inputs(1);
    let mut positions = vec![RUBBISH; input.room.0];
    let mut channels = vec![RUBBISH; input.room.1];
    let got = ours::build_sharp(&input.channels, (input.min, input.max), input.softness, &mut positions, &mut channels);
    let (number, stops, class) = expected(input);
    tally.answered((number == 0) as u64);
    let n = 2 * (input.channels.len() / 4);
    if let Some(class) = class {
        tally.listed(class);
        // the Rust panics at no colour, and has a ramp of all else
        if is_built_there(input) != (n > 0) {
            tally.differs(case, || format!("not as listed, '{class}': {}..{} of {n} stops", input.min, input.max));
        }
    }
    let mut want = (vec![RUBBISH; input.room.0], vec![RUBBISH; input.room.1]);
    if number == 0 {
        for (i, (p, c)) in stops.iter().enumerate() {
            want.0[i] = *p;
            want.1[4 * i..4 * i + 4].copy_from_slice(c);
        }
    }
    let right = match got {
        Ok(made) => number == 0 && made == n,
        Err(refused) => number == refused,
    };
    if !right || !all_same(&positions, &want.0) || !all_same(&channels, &want.1) {
        tally.differs(case, || {
            format!("{got:?}, not {number}, of {n} stops {}..{} {}", input.min, input.max, input.softness)
        });
    } else if number == 0 {
        colours(tally, case, input, positions[..n].to_vec(), channels[..4 * n].to_vec(), random);
    }
}

fn is_built_there(input: &Input) -> bool {
    catch_unwind(|| oracle::sharp(&input.channels, (input.min, input.max), input.softness)).is_ok()
}

/// The ramp as built here, beside the gradient as the Rust builds it.
fn colours(tally: &mut Tally, case: u64, input: &Input, positions: Vec<f32>, channels: Vec<f32>, random: &mut Random) {
    let ramp = Ramp { kind: Kind::Sharp, positions, channels, codes: Vec::new() };
    let g = oracle::sharp(&input.channels, (input.min, input.max), input.softness);
    for t in random_points(random, &ramp, 4) {
        let (got, want) = (ours::at(&ramp, t), oracle::at(&g, t));
        if !got.is_ok_and(|colour| all_same(&colour, &want)) {
            tally.differs(case, || format!("at {t:?}: {got:?}, not {want:?}"));
        }
    }
}

/// Document 01's refusal of an input or 0, the Rust's stops, and the class where the Rust answers otherwise.
pub fn expected(input: &Input) -> (u32, Vec<Stop>, Option<&'static str>) {
    let n = input.channels.len() / 4;
    let domain = (input.min, input.max);
    if n == 0 {
        return (17, Vec::new(), Some("17: no colour"));
    }
    let stops = oracle::sharp_stops(&input.channels, domain, input.softness);
    let last = stops[stops.len() - 1].0;
    let wrong = if n > MOST_COLOURS {
        Some("17: more than 256 colours")
    } else if !domain.0.is_finite() || !domain.1.is_finite() {
        Some("17: domain not finite")
    } else if domain.0 > domain.1 {
        Some("17: min above max")
    } else if stops.iter().any(|s| !s.0.is_finite()) {
        Some("17: positions not finite")
    } else if stops.windows(2).any(|w| w[1].0 < w[0].0) {
        Some("17: positions fall")
    } else if last != domain.1 {
        Some("17: positions do not end at max")
    } else {
        None
    };
    if wrong.is_some() {
        return (17, Vec::new(), wrong);
    }
    if input.channels.len() % 4 != 0 || input.room.0.min(input.room.1 / 4) < 2 * n {
        return (1, Vec::new(), None);
    }
    if input.channels.iter().any(|x| !x.is_finite()) {
        return (2, Vec::new(), Some("2: a channel not finite"));
    }
    (0, stops, if same(last, domain.1) { None } else { Some("built to +0 where max is -0") })
}

pub fn random_input(random: &mut Random) -> Input {
    let n = match random.below(24) {
        0 => random.pick(&[0, MOST_COLOURS, MOST_COLOURS + 1]),
        1..=3 => random.from_to(1, MOST_COLOURS),
        _ => random.from_to(1, 9),
    };
    let mut channels: Vec<f32> = (0..4 * n).map(|_| random.unit()).collect();
    if n > 0 && random.one_in(24) {
        channels[random.below(4 * n)] = random.pick(&[f32::NAN, f32::INFINITY]);
    }
    if random.one_in(48) {
        channels.push(0.5);
    }
    let (a, b) = match random.below(8) {
        0..=2 => (0.0, random.from_to(1, 100) as f32),
        3 => (random.unit(), random.unit()),
        4 => (random.below(100) as f32 / 10.0 - 5.0, random.below(100) as f32 / 10.0),
        5 => (random.finite(), random.finite()),
        6 => (
            random.pick(&[-0.0, 0.0, -1.0, f32::NAN, f32::NEG_INFINITY]),
            random.pick(&[-0.0, 0.0, 3.0e38, f32::INFINITY, f32::NAN]),
        ),
        _ => (0.0, 1.0),
    };
    let (min, max) = if a > b && !random.one_in(16) { (b, a) } else { (a, b) };
    let softness = match random.below(6) {
        0 => 0.0,
        1 => 1.0,
        2 => random.finite(),
        3 => random.pick(&[f32::NAN, f32::INFINITY, -1.0, 2.0, -0.0]),
        _ => random.unit(),
    };
    let room = match random.below(12) {
        0 => ((2 * n).saturating_sub(1), 8 * n),
        1 => (2 * n, (8 * n).saturating_sub(1)),
        2 => (2 * n + 3, 8 * n + 5),
        _ => (2 * n, 8 * n),
    };
    Input { channels, min, max, softness, room }
}
