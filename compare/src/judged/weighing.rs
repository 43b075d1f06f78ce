//! Times of lists that keep their word, beside those that thinning makes of the same records; and of depths asked of a list,
//! beside a verdict on it.

use crate::edited::typing::striped;
use crate::harness::oracle::Record;
use crate::harness::ours;
use crate::harness::ramps::{Kind, Ramp, KINDS, MOST_STOPS};
use crate::harness::random::Random;
use crate::judged::apart;
use crate::judged::judge::own_list;
use crate::judged::within::Asked;
use crate::listed::lists::MOST_POINTS;
use crate::timed::bench::{row, timed, used};

const REPETITIONS: usize = 21;
const STOPS: usize = 64;

/// The job of request (x), and those of the study: few stops, hard bands, smooth and random ramps of many stops, equal ones.
pub fn table(random: &mut Random) {
    let asked = Asked { threshold: 0.007, hold: 0.001 };
    for kind in KINDS {
        if !kind.is_gimp() {
            let job = striped(kind, STOPS);
            beside(&format!("{STOPS} in turn, {} (request (x))", kind.name()), &job, asked);
        }
    }
    beside("black to white", &striped(Kind::Linear, 2), asked);
    beside("24 hard bands", &bands(24), asked);
    beside("850 hard bands", &bands(850), asked);
    for kind in [Kind::Linear, Kind::CatmullRom] {
        beside(&format!("1,700 smooth, {}", kind.name()), &grays(kind, 1700, |x| x * x * (3.0 - 2.0 * x)), asked);
    }
    let bytes = |x: f32| (x * x * (3.0 - 2.0 * x) * 255.0).round() / 255.0;
    beside("1,700 smooth in bytes, linear", &grays(Kind::Linear, 1700, bytes), asked);
    let even = Asked { hold: 0.007, ..asked };
    beside("1,700 smooth in bytes, linear, hold 0.007", &grays(Kind::Linear, 1700, bytes), even);
    for kind in [Kind::Linear, Kind::Smoothstep, Kind::Basis, Kind::CatmullRom] {
        beside(&format!("2,048 equal, {}", kind.name()), &grays(kind, MOST_STOPS, |_| 0.5), asked);
        let shades: Vec<f32> = (0..MOST_STOPS).map(|_| random.unit()).collect();
        let any = |x: f32| shades[(x * (MOST_STOPS - 1) as f32).round() as usize];
        beside(&format!("2,048 random, {}", kind.name()), &grays(kind, MOST_STOPS, any), asked);
    }
}

fn grays(kind: Kind, n: usize, shade: impl Fn(f32) -> f32) -> Ramp {
    let positions: Vec<f32> = (0..n).map(|i| i as f32 / (n - 1) as f32).collect();
    let channels = positions.iter().flat_map(|x| [shade(*x), shade(*x), shade(*x), 1.0]).collect();
    Ramp { kind, positions, channels, codes: Vec::new() }
}

/// Bands of even width: each edge is two stops at one place.
fn bands(n: usize) -> Ramp {
    let shade = |i: usize| i as f32 / (n - 1) as f32;
    let positions = (0..n).flat_map(|i| [i as f32 / n as f32, (i + 1) as f32 / n as f32]).collect();
    let channels = (0..n).flat_map(|i| [shade(i), shade(i), shade(i), 1.0].repeat(2)).collect();
    Ramp { kind: Kind::Linear, positions, channels, codes: Vec::new() }
}

fn beside(name: &str, ramp: &Ramp, asked: Asked) {
    let mut record = Record::empty();
    ours::sample(ramp, asked.threshold, &mut record).expect("a ramp that is taken");
    let mut out = (vec![0.0; MOST_POINTS], vec![0.0; 4 * MOST_POINTS]);
    let mut others = out.clone();
    let (ours, thin) = timed(
        REPETITIONS,
        || used(ours::thin_within(ramp, asked, &record, &mut out.0, &mut out.1)),
        || used(ours::thin(ramp, asked.threshold, &record, &mut others.0, &mut others.1)),
    );
    row(&format!("thin_within, {name}"), "our own thin", ours, thin);
}

/// `apart` of published lists at the ramp's own positions, beside `judge` of the same lists.
pub fn depths(random: &mut Random) {
    for kind in [Kind::Linear, Kind::Smoothstep, Kind::CatmullRom] {
        asked(&format!("{STOPS} in turn, {}", kind.name()), &striped(kind, STOPS));
        let shades: Vec<f32> = (0..MOST_STOPS).map(|_| random.unit()).collect();
        let any = |x: f32| shades[(x * (MOST_STOPS - 1) as f32).round() as usize];
        asked(&format!("2,048 random, {}", kind.name()), &grays(kind, MOST_STOPS, any));
    }
}

fn asked(name: &str, ramp: &Ramp) {
    let asked = apart::Asked { threshold: 0.007, step: 0.02, depths: ramp.positions.clone() };
    let list = own_list(ramp, asked.threshold).expect("a list");
    let mut faults = vec![0; asked.depths.len()];
    let (ours, judge) = timed(
        REPETITIONS,
        || used(ours::apart(ramp, &asked, &list.positions, &list.channels, &mut faults)),
        || used(ours::judge(ramp, asked.threshold, &list.positions, &list.channels)),
    );
    row(&format!("apart, {name}"), "our own judge", ours, judge);
}
