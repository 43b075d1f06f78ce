//! Segments coloured by hue, both ways, of every blending: the Rust's circle and its mixing, over the conversions of
//! docs/HSV.md. Bits are compared; a sinusoidal factor moves a hue by as much of a turn, and so counts for more than in RGB.

use crate::harness::options::Options;
use crate::harness::oracle;
use crate::harness::ours;
use crate::harness::ramps::Ramp;
use crate::harness::random::Random;
use crate::harness::report::{all_same, Tally};
use crate::painted::sine;

/// How far a channel may lie from the Rust's where the factor is the table's and not the sine: six sixths of a turn, and half
/// as much again for saturation and value.
pub const MOST_GAP: f32 = 1.0 / 131_072.0;

pub const CLASS: &str = "sinusoidal, by hue: within 2^-17";

pub fn run(options: &Options) -> Vec<Tally> {
    let mut tally = Tally::new("hues", options.seed);
    let mut greatest = (0.0, String::new());
    tally.until_enough(options, |tally, case| {
        let mut random = Random::of_case(options.seed, case);
        let ramp = random_ramp(&mut random);
        let points: Vec<f32> = sine::random_points(&mut random, &ramp).into_iter().map(|p| p.1).collect();
        compare(tally, case, &ramp, &points, &mut greatest);
    });
    println!("greatest gap of a sinusoidal segment {:e}, 2^{:.2}: {}", greatest.0, f32::log2(greatest.0), greatest.1);
    vec![tally.done()]
}

pub fn has_hue(ramp: &Ramp) -> bool {
    ramp.codes.chunks(2).any(|code| code[1] != 0)
}

/// Greys, equal hues, hues a unit apart, bytes, and channels outside 0..1 among the colours.
fn random_ramp(random: &mut Random) -> Ramp {
    let mut ramp = sine::random_ramp(random);
    for ends in ramp.channels.chunks_mut(8) {
        match random.below(12) {
            0 => ends[..3].fill(random.unit()),
            1 => ends[4..7].fill(random.unit()),
            2 => ends.copy_within(..4, 4),
            3 => {
                let part = random.unit();
                (0..3).for_each(|k| ends[k + 4] = ends[k] * part);
            }
            4 => {
                ends.copy_within(..4, 4);
                let k = 4 + random.below(3);
                ends[k] = f32::from_bits(ends[k].to_bits() + 1);
            }
            5 | 6 => ends.iter_mut().for_each(|x| *x = random.below(256) as f32 / 255.0),
            7 => ends.iter_mut().for_each(|x| *x = random.unit() * 3.0 - 1.0),
            8 => ends.iter_mut().for_each(|x| *x *= 1.0e-6),
            _ => {}
        }
    }
    for (code, ends) in ramp.codes.chunks_mut(2).zip(ramp.channels.chunks(8)) {
        // outside 0..1 a saturation, and with it a gap, has no bound
        let bounded = ends.iter().all(|x| (0.0..=1.0).contains(x));
        let blendings: &[u8] = if bounded { &[0, 0, 2, 3, 4, 5] } else { &[0, 0, 3, 4, 5] };
        code.copy_from_slice(&[random.pick(blendings), random.pick(&[1, 2])]);
    }
    ramp
}

fn compare(tally: &mut Tally, case: u64, ramp: &Ramp, points: &[f32], greatest: &mut (f32, String)) {
    tally.inputs(points.len() as u64);
    tally.answered(points.len() as u64);
    let g = oracle::gradient(ramp);
    let mut painted = vec![0.0; 4 * points.len()];
    let refusal = ours::paint(ramp, points, &mut painted);
    let waved = sine::has_sine(ramp);
    for (t, got) in points.iter().zip(painted.chunks(4)) {
        let rust = oracle::at(&g, *t);
        let gap = got.iter().zip(rust).map(|(a, b)| (a - b).abs()).fold(0.0, f32::max);
        let told = || format!("{got:?} at {t:?}, by the Rust {rust:?}, of {ramp:?}");
        let near = all_same(got, &rust) || waved && gap <= MOST_GAP;
        if refusal != 0 || !near || ours::at(ramp, *t).is_ok_and(|c| !all_same(&c, got)) {
            tally.differs(case, told);
        } else if !all_same(got, &rust) {
            tally.listed(CLASS);
        }
        if gap > greatest.0 {
            *greatest = (gap, format!("--case {case}: {}", told()));
        }
    }
}
