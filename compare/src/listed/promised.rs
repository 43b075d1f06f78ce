//! Request (xii): ramps that flattening never refuses. Ordinary ones, moderate ones of three kinds on any domain, and beyond
//! each bound of those the next f32, of which there is a ramp that is refused.

use crate::harness::options::Options;
use crate::harness::oracle::Record;
use crate::harness::ours;
use crate::harness::ramps::{Kind, Ramp};
use crate::harness::random::Random;
use crate::harness::report::Tally;
use crate::listed::lists::{flattened, random_threshold, MOST_POINTS};

const ROOM: (usize, usize) = (MOST_POINTS, 4 * MOST_POINTS);
const MOST_EVALUATIONS: usize = 32_146;
/// One ramp in so many is held against the Rust too.
const COMPARED: u64 = 64;
/// The last f32 below 2^127, and the last of which six times it is finite.
const LARGEST_LINEAR: u32 = 0x7eff_ffff;
const LARGEST_SMOOTH: u32 = 0x7e2a_aaaa;
const MOST_DOMAIN: f32 = 1.0e38;

pub fn run(options: &Options) -> Vec<Tally> {
    let moderate = Options { size: options.size / 4, ..options.clone() };
    vec![
        class(options, "promise: ordinary", true, ordinary),
        class(&moderate, "promise: moderate", false, moderate_ramp),
        beyond(options),
        filled_up(options),
    ]
}

/// The least and the most that was seen.
struct Seen {
    what: &'static str,
    least: usize,
    most: usize,
}

impl Seen {
    fn new(what: &'static str) -> Seen {
        Seen { what, least: usize::MAX, most: 0 }
    }

    fn note(&mut self, n: usize) {
        self.least = self.least.min(n);
        self.most = self.most.max(n);
    }
}

fn class(options: &Options, name: &str, unit: bool, make: fn(&mut Random) -> Ramp) -> Tally {
    let mut tally = Tally::new(name, options.seed);
    let mut seen = [Seen::new("stops"), Seen::new("evaluations")];
    let mut record = Record::empty();
    let (mut places, mut colours) = (vec![0.0; ROOM.0], vec![0.0; ROOM.1]);
    let cases = options.cases();
    let of = cases.end;
    for case in cases {
        let mut random = Random::of_case(options.seed, case);
        let ramp = make(&mut random);
        let threshold = random_threshold(&mut random);
        tally.inputs(1);
        tally.answered(1);
        match ours::flatten(&ramp, threshold, &mut record, &mut places, &mut colours) {
            Ok((stops, evaluations)) => {
                seen[0].note(stops);
                seen[1].note(evaluations);
                if !kept(stops, evaluations, &places, &colours, unit) {
                    tally.differs(case, || {
                        format!("{stops} stops, {evaluations} evaluations, out of what is promised: {ramp:?}")
                    });
                }
            }
            Err(number) => tally.differs(case, || format!("refused {number}: {ramp:?}")),
        }
        if case % COMPARED == 0 {
            flattened(&mut tally, case, &ramp, threshold, ROOM);
        }
        tally.progress(case, of);
    }
    for s in &seen {
        println!("{name}: {} to {} {}", s.least, s.most, s.what);
    }
    tally.done()
}

/// 2 to 4,609 stops, few evaluations, positions that never fall, all finite; and channels within 0 to 1 where that is promised.
fn kept(stops: usize, evaluations: usize, places: &[f32], colours: &[f32], unit: bool) -> bool {
    let (places, colours) = (&places[..stops.min(MOST_POINTS)], &colours[..4 * stops.min(MOST_POINTS)]);
    (2..=MOST_POINTS).contains(&stops)
        && evaluations <= MOST_EVALUATIONS
        && places.windows(2).all(|p| p[0] <= p[1])
        && places.iter().chain(colours).all(|x| x.is_finite())
        && (!unit || colours.iter().all(|c| (0.0..=1.0).contains(c)))
}

fn many_stops(random: &mut Random) -> usize {
    match random.below(64) {
        0 => random.from_to(2, 2048),
        1..=7 => random.from_to(2, 64),
        8..=15 => 2,
        _ => random.from_to(2, 9),
    }
}

/// A linear ramp from 0 of either sign to 1, channels within 0 to 1.
fn ordinary(random: &mut Random) -> Ramp {
    let n = many_stops(random);
    let mut positions: Vec<f32> = (1..n - 1).map(|_| place(random)).collect();
    positions.sort_by(f32::total_cmp);
    if random.one_in(4) && n > 3 {
        let i = random.below(n - 3);
        positions[i + 1] = positions[i];
    }
    positions.insert(0, random.pick(&[0.0, -0.0]));
    positions.push(1.0);
    let channels = (0..4 * n).map(|_| unit_channel(random)).collect();
    Ramp { kind: Kind::Linear, positions, channels, codes: Vec::new() }
}

/// From 0 to 1: any, beside the end of a cell, tiny, or an end.
fn place(random: &mut Random) -> f32 {
    match random.below(8) {
        0 => {
            let edge = random.from_to(1, 35) as f32 / 36.0;
            f32::from_bits(edge.to_bits() - 2 + random.below(5) as u32)
        }
        1 => f32::from_bits(random.below(0x3f80_0001) as u32),
        2 => random.pick(&[0.0, 1.0, f32::from_bits(1), f32::from_bits(0x3f7f_ffff)]),
        _ => random.unit(),
    }
}

fn unit_channel(random: &mut Random) -> f32 {
    match random.below(8) {
        0 => random.pick(&[0.0, -0.0, 1.0, f32::from_bits(1), f32::from_bits(0x3f7f_ffff)]),
        1 => random.below(2) as f32,
        2 => f32::from_bits(random.below(0x3f80_0001) as u32),
        _ => random.unit(),
    }
}

/// A linear, smoothstep or sharp ramp on any domain within 1e38, channels up to the largest.
fn moderate_ramp(random: &mut Random) -> Ramp {
    let kind = random.pick(&[Kind::Linear, Kind::Smoothstep, Kind::Sharp]);
    let largest = f32::from_bits(if kind == Kind::Linear { LARGEST_LINEAR } else { LARGEST_SMOOTH });
    let mut n = many_stops(random);
    if kind == Kind::Sharp {
        n += n % 2;
    }
    let mut positions = domain(random, n);
    positions.sort_by(f32::total_cmp);
    let channels = (0..4 * n).map(|_| channel(random, largest)).collect();
    Ramp { kind, positions, channels, codes: Vec::new() }
}

/// Positions far apart, of any size, in few units, and all of one size.
fn domain(random: &mut Random, n: usize) -> Vec<f32> {
    let any = |random: &mut Random| loop {
        let x = random.finite();
        if x.abs() <= MOST_DOMAIN {
            return x;
        }
    };
    let start = any(random);
    match random.below(4) {
        0 => (0..n).map(|_| any(random)).collect(),
        1 => (0..n).map(|_| MOST_DOMAIN * (2.0 * random.unit() - 1.0)).collect(),
        2 => {
            let low = start.abs().to_bits().min(MOST_DOMAIN.to_bits() - 512);
            (0..n).map(|_| f32::from_bits(low + random.below(512) as u32).copysign(start)).collect()
        }
        _ => (0..n).map(|_| start * (2.0 * random.unit() - 1.0)).collect(),
    }
}

fn channel(random: &mut Random, largest: f32) -> f32 {
    match random.below(6) {
        0 => largest,
        1 => -largest,
        2 => loop {
            let x = random.finite();
            if x.abs() <= largest {
                return x;
            }
        },
        3 => largest * (2.0 * random.unit() - 1.0),
        _ => unit_channel(random),
    }
}

/// Of the next f32 after each bound there is a ramp that is refused with 8; with the bound itself it is not.
fn beyond(options: &Options) -> Tally {
    let mut tally = Tally::new("promise: beyond", options.seed);
    let before_half = f32::from_bits(0.5f32.to_bits() - 1);
    let peak = |kind: Kind, bits: u32, places: &[f32], signs: &[f32]| Ramp {
        kind,
        positions: places.to_vec(),
        channels: signs.iter().flat_map(|s| [s * f32::from_bits(bits), 0.0, 0.0, 1.0]).collect(),
        codes: Vec::new(),
    };
    let shapes: [(Kind, u32, &[f32], &[f32]); 3] = [
        (Kind::Linear, LARGEST_LINEAR, &[0.0, 0.5, 1.0], &[-1.0, 1.0, -1.0]),
        (Kind::Smoothstep, LARGEST_SMOOTH, &[0.0, before_half, 1.0], &[-1.0, -1.0, 1.0]),
        (Kind::Sharp, LARGEST_SMOOTH, &[0.0, before_half, 1.0, 1.0], &[-1.0, -1.0, 1.0, 1.0]),
    ];
    for (case, (kind, bits, places, signs)) in (0..).zip(shapes) {
        for (more, wanted) in [(0, 0), (1, 8)] {
            let ramp = peak(kind, bits + more, places, signs);
            let mut record = Record::empty();
            let (mut out, mut colours) = (vec![0.0; ROOM.0], vec![0.0; ROOM.1]);
            tally.inputs(1);
            let got = ours::flatten(&ramp, 0.007, &mut record, &mut out, &mut colours).err().unwrap_or(0);
            println!("{}: channels up to {:08x}: refusal {got}", kind.name(), bits + more);
            if got != wanted {
                tally.differs(case, || format!("refusal {got} and not {wanted}: {ramp:?}"));
            }
        }
    }
    tally.done()
}

/// a + (1 - a), each operation rounded, is 1 for every f32 from 0 to 1: so no channel between two such leaves 0 to 1.
fn filled_up(options: &Options) -> Tally {
    let mut tally = Tally::new("promise: a + (1 - a)", options.seed);
    let last = 1.0f32.to_bits();
    for bits in 0..=last {
        let a = f32::from_bits(bits);
        if a + (1.0 - a) != 1.0 {
            tally.differs(bits as u64, || format!("{bits:08x}"));
        }
    }
    tally.inputs(last as u64 + 1);
    tally.answered(last as u64 + 1);
    tally.done()
}
