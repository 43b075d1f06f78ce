//! Curved segments at points inside them, in RGB and by hue: near the Rust's colours, which go through the platform's own
//! logarithm and exponential; in RGB bit for bit what the rule gives, worked out here from its words.

use crate::harness::options::Options;
use crate::harness::oracle;
use crate::harness::ours;
use crate::harness::ramps::{Kind, Ramp};
use crate::harness::random::Random;
use crate::harness::report::{all_same, Tally};
use crate::painted::hues;
use crate::painted::sine;

pub const CLASS: &str = "curved: within 2^-18";
pub const CLASS_BY_HUE: &str = "curved, by hue: within 2^-17";

const CURVED: u8 = 1;

/// A way to colour segments, the bound of its gap, and the greatest one that was seen.
struct Way {
    tally: Tally,
    colourings: &'static [u8],
    most: f32,
    class: &'static str,
    greatest: (f32, String),
}

impl Way {
    fn new(name: &'static str, options: &Options, colourings: &'static [u8], most: f32, class: &'static str) -> Way {
        Way { tally: Tally::new(name, options.seed), colourings, most, class, greatest: (0.0, String::new()) }
    }
}

pub fn run(options: &Options) -> Vec<Tally> {
    let rgb = Way::new("curves", options, &[0], sine::MOST_GAP, CLASS);
    let hued = Way::new("curves by hue", options, &[1, 2], hues::MOST_GAP, CLASS_BY_HUE);
    [rgb, hued].map(|way| one_way(options, way)).into()
}

fn one_way(options: &Options, mut way: Way) -> Tally {
    let mut tally = way.tally;
    tally.until_enough(options, |tally, case| {
        let mut random = Random::of_case(options.seed, case);
        let mut ramp = random_ramp(&mut random);
        ramp.codes.iter_mut().skip(1).step_by(2).for_each(|colouring| *colouring = random.pick(way.colourings));
        let points = random_points(&mut random, &ramp);
        compare(tally, case, &ramp, &points, (way.most, way.class), &mut way.greatest);
    });
    println!("greatest gap {:e}, 2^{:.2}: {}", way.greatest.0, f32::log2(way.greatest.0), way.greatest.1);
    tally.done()
}

pub fn has_curve(ramp: &Ramp) -> bool {
    ramp.codes.iter().step_by(2).any(|code| *code == CURVED)
}

/// Middles near the ends too, down to where no curve is left.
pub fn random_ramp(random: &mut Random) -> Ramp {
    let mut ramp = sine::random_segments(random, Kind::GimpSaved, CURVED);
    for p in ramp.positions.chunks_mut(3) {
        let part = (p[2] - p[0]) * (random.unit() - 24.0 * random.unit()).exp2();
        p[1] = match random.below(4) {
            0 => p[0] + part,
            1 => p[2] - part,
            _ => p[1],
        }
        .clamp(p[0], p[2]);
    }
    ramp
}

/// Points inside a segment, each with its segment; a third of them near its left end.
fn random_points(random: &mut Random, ramp: &Ramp) -> Vec<(usize, f32)> {
    let mut points = sine::random_points(random, ramp);
    for (i, t) in &mut points {
        let (left, right) = (ramp.positions[3 * *i], ramp.positions[3 * *i + 2]);
        let near = left + (right - left) * (-24.0 * random.unit()).exp2();
        if random.one_in(3) && left < near && near < right {
            *t = near;
        }
    }
    points
}

fn compare(
    tally: &mut Tally,
    case: u64,
    ramp: &Ramp,
    points: &[(usize, f32)],
    (most, class): (f32, &'static str),
    greatest: &mut (f32, String),
) {
    tally.inputs(points.len() as u64);
    tally.answered(points.len() as u64);
    let g = oracle::gradient(ramp);
    let at: Vec<f32> = points.iter().map(|p| p.1).collect();
    let mut painted = vec![0.0; 4 * at.len()];
    let refusal = ours::paint(ramp, &at, &mut painted);
    for ((i, t), got) in points.iter().zip(painted.chunks(4)) {
        let rust = oracle::at(&g, *t);
        let by_rule = ramp.codes[2 * i + 1] != 0 || all_same(got, &by_rule(ramp, *i, *t));
        let gap = got.iter().zip(rust).map(|(a, b)| (a - b).abs()).fold(0.0, f32::max);
        let told = || format!("{got:?} at {t:?}, segment {i}, by the Rust {rust:?}, of {ramp:?}");
        let one = ours::at(ramp, *t);
        if refusal != 0 || !(gap <= most) || !by_rule || one.is_ok_and(|c| !all_same(&c, got)) {
            tally.differs(case, told);
        } else if !all_same(got, &rust) {
            tally.listed(class);
        }
        if gap > greatest.0 {
            *greatest = (gap, format!("--case {case}: {}", told()));
        }
    }
}

fn by_rule(ramp: &Ramp, i: usize, t: f32) -> [f32; 4] {
    let p = &ramp.positions[3 * i..3 * i + 3];
    let along = |x: f32| if p[2] - p[0] < f32::EPSILON { 0.5 } else { (x - p[0]) / (p[2] - p[0]) };
    let (middle, place) = (along(p[1]), along(t));
    let ends = &ramp.channels[8 * i..8 * i + 8];
    if middle < f32::EPSILON {
        return [4, 5, 6, 7].map(|k| ends[k]);
    }
    if 1.0 - middle < f32::EPSILON {
        return [0, 1, 2, 3].map(|k| ends[k]);
    }
    let f = factor(place, middle);
    [0, 1, 2, 3].map(|k| ends[k] + f * (ends[k + 4] - ends[k]))
}

/// One half to the power of so many halvings of the place, each as long as those of the middle.
fn factor(place: f32, middle: f32) -> f32 {
    if place <= 0.0 || place >= 1.0 {
        return if place <= 0.0 { 0.0 } else { 1.0 };
    }
    let r = depth(place) / depth(middle);
    if r >= 32.0 {
        return 0.0;
    }
    let j = r.trunc();
    let u = 1.0 - (r - j);
    (1.0 + u * (0.69315 + u * (0.24016 + u * (0.05584 + u * (0.00895 + u * 0.0019))))) * (-1.0 - j).exp2()
}

/// How often x must be doubled to come to 1.
fn depth(x: f32) -> f32 {
    let (mut m, mut k) = (x, 0);
    while m < 0.5 {
        m *= 2.0;
        k += 1;
    }
    let s = (1.0 - m) / (1.0 + m);
    let z = s * s;
    k as f32 + s * (2.88539 + z * (0.96193 + z * (0.5707 + z * 0.498)))
}
