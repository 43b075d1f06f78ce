//! Random ramps: plain, crowded, huge, tiny, and wrong in some way; and random points of a ramp.

use crate::harness::ramps::{Kind, Ramp, MOST_SEGMENTS, MOST_STOPS};
use crate::harness::random::Random;

/// A ramp that passes the check; no segment is sinusoidal, since these are compared by themselves (`sine`).
pub fn random_ramp(random: &mut Random, kind: Kind) -> Ramp {
    if kind == Kind::Gimp {
        return random_segments(random);
    }
    let mut n = match random.below(32) {
        0 => random.pick(&[MOST_STOPS, 1700]),
        1 | 2 => random.from_to(2, MOST_STOPS),
        3..=8 => random.from_to(2, 64),
        _ => random.from_to(2, 9),
    };
    if kind == Kind::Sharp {
        n += n % 2;
    }
    let positions = random_positions(random, n);
    let channels = random_channels(random, 4 * n);
    Ramp { kind, positions, channels, codes: Vec::new() }
}

/// The same, spoilt now and then so that it is refused.
pub fn random_or_spoilt(random: &mut Random, kind: Kind) -> Ramp {
    let mut ramp = random_ramp(random, kind);
    if random.one_in(12) {
        spoil(random, &mut ramp);
        if random.one_in(3) {
            spoil(random, &mut ramp);
        }
    }
    ramp
}

pub fn random_positions(random: &mut Random, n: usize) -> Vec<f32> {
    let style = random.below(10);
    let base = if random.one_in(2) { random.unit() } else { random.finite() / 2.0 };
    let mut list: Vec<f32> = (0..n)
        .map(|i| match style {
            0 | 1 => i as f32 / (n - 1) as f32,
            2 => random.unit(),
            3 => random.below(24) as f32 / 8.0 - 1.0,
            4 => f32::from_bits(base.to_bits().wrapping_add(random.below(2 * n) as u32)),
            5 => random.finite(),
            6 => (random.unit() - 0.5) * 3.0e38 * 2.0,
            7 => base,
            8 => f32::from_bits(random.bits() & 0x8000_0007),
            _ => random.below(200) as f32 / 10.0 - 5.0,
        })
        .map(|x| if x.is_finite() { x } else { 1.0 })
        .collect();
    list.sort_by(f32::total_cmp);
    for x in &mut list {
        // either zero may stand before the other
        if *x == 0.0 && random.one_in(2) {
            *x = -*x;
        }
    }
    list
}

pub fn random_channels(random: &mut Random, n: usize) -> Vec<f32> {
    let style = random.below(8);
    let mut last = 0.5;
    (0..n)
        .map(|i| {
            last = match style {
                0..=2 => random.unit(),
                3 => random.below(256) as f32 / 255.0,
                4 => random.pick(&[0.0, 1.0, 0.5, -0.0, 0.25, 2.0, -1.0]),
                5 if i % 4 != 0 && random.one_in(2) => last,
                5 => random.unit() * 3.0 - 1.0,
                6 if random.one_in(4) => random.pick(&[3.0e38, -3.0e38, f32::MAX, f32::MIN, 1.0e-45, -1.0e-40]),
                6 => random.finite(),
                _ => random.unit() * 1.0e-3,
            };
            last
        })
        .collect()
}

fn random_segments(random: &mut Random) -> Ramp {
    let n = match random.below(32) {
        0 => MOST_SEGMENTS,
        1 => random.from_to(1, MOST_SEGMENTS),
        2..=6 => random.from_to(1, 46),
        _ => random.from_to(1, 6),
    };
    let style = random.below(8);
    let mut positions = Vec::new();
    for i in 0..n {
        let (mut left, mut right) = (i as f32 / n as f32, (i + 1) as f32 / n as f32);
        match style {
            0..=3 => {}
            4 => right -= (right - left) * random.unit(),
            5 => (left, right) = (random.unit(), random.unit()),
            6 => right = left + random.pick(&[0.0, 1.0e-7, 1.2e-7, -0.25, 0.125]),
            _ => (left, right) = (random.finite(), random.finite()),
        }
        let middle = match random.below(6) {
            0 => left,
            1 => right,
            2 => random.finite(),
            _ => left + (right - left) * random.pick(&[0.5, 0.25, 0.9]),
        };
        positions.extend([left, if middle.is_finite() { middle } else { left }, right]);
    }
    let channels = random_channels(random, 8 * n);
    let colourings: &[u8] = random.pick(&[&[0], &[0], &[0], &[0, 1, 2]]);
    let codes = (0..n).flat_map(|_| [random.pick(&[0, 0, 3, 4, 5]), random.pick(colourings)]).collect();
    Ramp { kind: Kind::Gimp, positions, channels, codes }
}

/// One fault: a length, a number that is not finite, the order, or a code.
fn spoil(random: &mut Random, ramp: &mut Ramp) {
    let n = ramp.positions.len();
    let bad = random.pick(&[f32::NAN, f32::INFINITY, f32::NEG_INFINITY]);
    match random.below(9) {
        0 => drop(ramp.positions.pop()),
        1 => drop(ramp.channels.pop()),
        2 => ramp.codes.push(random.below(3) as u8),
        3 if n > 0 => ramp.positions[random.below(n)] = bad,
        4 if !ramp.channels.is_empty() => {
            let at = random.below(ramp.channels.len());
            ramp.channels[at] = bad;
        }
        5 if n > 0 => ramp.positions[random.below(n)] = random.finite(),
        6 if !ramp.codes.is_empty() => {
            let at = random.below(ramp.codes.len());
            ramp.codes[at] = random.pick(&[0, 1, 3, 4, 5, 6, 7]);
        }
        7 => {
            // one item more than may be
            let most = if ramp.kind.is_gimp() { MOST_SEGMENTS } else { MOST_STOPS } + 1;
            let (p, c, k) = if ramp.kind.is_gimp() { (3, 8, 2) } else { (1, 4, 0) };
            ramp.positions = vec![0.5; p * most];
            ramp.channels = vec![0.25; c * most];
            ramp.codes = vec![0; k * most];
        }
        _ => {
            let keep = random.below(2);
            let (p, c, k) = if ramp.kind.is_gimp() { (3, 8, 2) } else { (1, 4, 0) };
            ramp.positions.truncate(p * keep);
            ramp.channels.truncate(c * keep);
            ramp.codes.truncate(k * keep);
        }
    }
}

/// Points where a ramp may turn: at, just below and just above positions, the ends, and anywhere.
pub fn random_points(random: &mut Random, ramp: &Ramp, count: usize) -> Vec<f32> {
    (0..count).map(|_| random_point(random, ramp)).collect()
}

fn random_point(random: &mut Random, ramp: &Ramp) -> f32 {
    let odd = [0.0, -0.0, f32::NAN, f32::INFINITY, f32::NEG_INFINITY, f32::MAX, f32::MIN, 1.0e-45, 1.0, 0.5];
    let n = ramp.positions.len();
    if n == 0 || random.one_in(12) {
        return random.pick(&odd);
    }
    let p = ramp.positions[random.below(n)];
    let q = ramp.positions[random.below(n)];
    match random.below(8) {
        0 => p,
        1 => p.next_down(),
        2 => p.next_up(),
        3 => p / 2.0 + q / 2.0,
        4 => random.unit(),
        5 => f32::from_bits(random.bits()),
        _ => p + (q - p) * random.unit(),
    }
}
