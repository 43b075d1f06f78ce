//! What the Rust crate works out itself of t: colours repeated, reflected, evenly spaced, from the other end, in bands; of lists
//! with more stops than a ramp may have too. Beside the published Rust's own.

use crate::harness::options::Options;
use crate::harness::oracle::{self, Boxed};
use crate::harness::ramps::{Kind, Ramp, KINDS};
use crate::harness::random::Random;
use crate::harness::random_ramps::{random_points, random_ramp};
use crate::harness::report::{all_same, Tally};
use crate::painted::sharp::{expected, Input};
use guineaplume::{
    BasisGradient, CatmullRomGradient, Color, Gradient, LinearGradient, Refusal, SharpGradient, SmoothstepGradient,
};

/// How many points a ramp is asked for, each in three ways.
const POINTS: usize = 12;

/// One more than there may be bands, and more.
const MOST_BANDS: usize = 260;

pub fn run(options: &Options) -> Vec<Tally> {
    let kinds = KINDS.iter().filter(|kind| !kind.is_gimp()).map(|kind| one_kind(options, *kind));
    kinds.chain(std::iter::once(long_lists(options))).collect()
}

fn one_kind(options: &Options, kind: Kind) -> Tally {
    let mut tally = Tally::new(format!("views: {}", kind.name()), options.seed);
    tally.until_enough(options, |tally, case| {
        let mut random = Random::of_case(8 * options.seed + kind.code() as u64, case);
        let ramp = random_ramp(&mut random, kind);
        let (own, rust) = (gradient(&ramp).expect("a ramp that passes the check"), oracle::gradient(&ramp));
        let points = random_points(&mut random, &ramp, POINTS);
        asked(tally, case, &own, &rust, &points);
        spaced(tally, case, &own, &rust, random.pick(&[0, 1, 2, 3, 7, 20, 41]));
        let most = if random.one_in(16) { MOST_BANDS } else { 12 };
        let (bands, softness) = (random.below(most), soft(&mut random));
        banded(tally, case, &own, &rust, bands as u16, softness);
    });
    tally.done()
}

fn soft(random: &mut Random) -> f32 {
    match random.below(4) {
        0 => random.pick(&[f32::NAN, f32::INFINITY, -1.0, 2.0, 0.0, 1.0]),
        _ => random.unit(),
    }
}

/// The crate's own gradient.
fn gradient(ramp: &Ramp) -> Result<Box<dyn Gradient>, Refusal> {
    let (positions, colors) = (&ramp.positions[..], &colors(ramp)[..]);
    Ok(match ramp.kind {
        // either way to make one
        Kind::Linear if positions.len() % 2 == 0 => LinearGradient::from_rgba_data(ramp.stops())?.boxed(),
        Kind::Linear => LinearGradient::new(positions, colors)?.boxed(),
        Kind::Smoothstep => SmoothstepGradient::new(positions, colors)?.boxed(),
        Kind::Sharp => SharpGradient::new(positions, colors)?.boxed(),
        Kind::Basis => BasisGradient::new(positions, colors)?.boxed(),
        Kind::CatmullRom => CatmullRomGradient::new(positions, colors)?.boxed(),
        Kind::Gimp | Kind::GimpSaved => return Err(Refusal::Misshapen),
    })
}

fn colors(ramp: &Ramp) -> Vec<Color> {
    ramp.channels.chunks_exact(4).map(|c| Color::new(c[0], c[1], c[2], c[3])).collect()
}

/// Whether two are the same; each pair is an input.
fn same(tally: &mut Tally, case: u64, what: &str, ours: Color, rust: colorgrad::Color) {
    tally.inputs(1);
    tally.answered(1);
    if !all_same(&ours.to_array(), &rust.to_array()) {
        tally.differs(case, || format!("{what}: {ours}, not {rust:?}"));
    }
}

fn asked(tally: &mut Tally, case: u64, own: &dyn Gradient, rust: &Boxed, points: &[f32]) {
    use colorgrad::Gradient as _;
    let inverse = rust.inverse();
    for t in points.iter().copied() {
        same(tally, case, &format!("at {t}"), Gradient::at(own, t), rust.at(t));
        same(tally, case, &format!("repeated at {t}"), Gradient::repeat_at(own, t), rust.repeat_at(t));
        same(tally, case, &format!("reflected at {t}"), Gradient::reflect_at(own, t), rust.reflect_at(t));
        same(tally, case, &format!("inverse at {t}"), Gradient::inverse(own).at(t), inverse.at(t));
        let reflected = Gradient::inverse(own).reflect_at(t);
        same(tally, case, &format!("inverse reflected at {t}"), reflected, inverse.reflect_at(t));
        let repeated = Gradient::inverse(own).repeat_at(t);
        same(tally, case, &format!("inverse repeated at {t}"), repeated, inverse.repeat_at(t));
    }
}

fn spaced(tally: &mut Tally, case: u64, own: &dyn Gradient, rust: &Boxed, n: usize) {
    use colorgrad::Gradient as _;
    for (ours, rust) in Gradient::colors(own, n).zip(rust.colors(n)) {
        same(tally, case, &format!("one of {n}"), ours, rust);
    }
    for (ours, rust) in Gradient::inverse(own).colors(n).rev().zip(rust.inverse().colors(n).rev()) {
        same(tally, case, &format!("one of {n}, inverse, from the end"), ours, rust);
    }
}

/// Bands: refused where `SharpGradient::build` refuses the colours, else the Rust's at points of its own.
fn banded(tally: &mut Tally, case: u64, own: &dyn Gradient, rust: &Boxed, n: u16, softness: f32) {
    use colorgrad::Gradient as _;
    let ((min, max), bands) = (rust.domain(), usize::from(n).max(2));
    let colours: Vec<colorgrad::Color> =
        if n > 1 { rust.colors(bands).collect() } else { vec![rust.at(min), rust.at(min)] };
    let channels: Vec<f32> = colours.iter().flat_map(|colour| colour.to_array()).collect();
    let input = Input { channels, min, max, softness, room: (2 * bands, 8 * bands) };
    let (number, stops, _) = expected(&input);
    let made = Gradient::sharp(own, n, softness);
    tally.inputs(1);
    tally.answered((number == 0) as u64);
    let told = made.as_ref().err().map_or(0, |refusal| refusal.number());
    if told != number {
        return tally.differs(case, || format!("{n} bands: {told}, not {number}"));
    }
    if let Ok(made) = made {
        let is_built = made.stops().map(|(p, c)| (p, c.to_array())).eq(stops);
        let shown = rust.sharp(n, softness);
        let is_shown = made.positions().iter().all(|t| all_same(&made.at(*t).to_array(), &shown.at(*t).to_array()));
        if !is_built || !is_shown {
            tally.differs(case, || format!("{n} bands of softness {softness}"));
        }
    }
}

/// Lists of more than 2,048 stops, at their stops, beside them and between them.
fn long_lists(options: &Options) -> Tally {
    let mut tally = Tally::new("views: lists of many stops", options.seed);
    tally.until_enough(options, |tally, case| {
        let mut random = Random::of_case(options.seed, case);
        let n = random.from_to(300, 600);
        let positions = (0..n).map(|i| i as f32 / (n - 1) as f32).collect();
        let channels = (0..4 * n).map(|_| random.unit()).collect();
        let ramp = Ramp { kind: Kind::Smoothstep, positions, channels, codes: Vec::new() };
        let list = gradient(&ramp).and_then(|own| own.linearize(0.001)).expect("a list");
        let places = Ramp { positions: list.positions().to_vec(), ..ramp };
        let channels: Vec<f32> = list.colors().iter().flat_map(|color| color.to_array()).collect();
        let rust = oracle::mixed(list.positions(), &channels);
        asked(tally, case, &list, &rust, &random_points(&mut random, &places, 400));
        spaced(tally, case, &list, &rust, 41);
    });
    tally.done()
}
