//! Refresh while typing: a ramp of evenly spaced stops, black and white in turn, one stop to mid grey. How long a keystroke
//! takes, beside a fresh flattening in ordinary Rust and beside our own.

use crate::edited::refresh::{changed, REFRESHED};
use crate::harness::oracle::Record;
use crate::harness::ours::{self, Edit};
use crate::harness::ramps::{Kind, Ramp};
use crate::harness::random::Random;
use crate::listed::lists::MOST_POINTS;
use crate::timed::bench::{median, row, timed, used};
use crate::timed::ordinary;

/// A refresh of a refreshed record does the same work again, so that it can be repeated.
const REPEATED: usize = 5;
const THRESHOLD: f32 = 0.007;

/// The stops of the job, and of the table of keystrokes.
const STOPS: usize = 64;
const SIZES: [usize; 4] = [2, STOPS, 512, 2048];

/// Most stops of a ramp that are edited, one after the other: of more, evenly chosen ones.
const EDITED: usize = 62;

/// What document 02 (x) requires, and what is aimed at.
const TOGETHER: (f64, f64) = (0.75, 0.20);
const ALONE: (f64, f64) = (0.20, 0.06);

/// Lent outputs.
struct Out(Vec<f32>, Vec<f32>);

impl Out {
    fn new() -> Self {
        Self(vec![0.0; MOST_POINTS], vec![0.0; 4 * MOST_POINTS])
    }
}

pub fn striped(kind: Kind, n: usize) -> Ramp {
    let positions = (0..n).map(|i| i as f32 / (n - 1) as f32).collect();
    let channels = (0..n).flat_map(|i| [(i % 2) as f32, (i % 2) as f32, (i % 2) as f32, 1.0]).collect();
    Ramp { kind, positions, channels, codes: Vec::new() }
}

/// The inner stops, or those that there are: each edited by itself, then the medians over them.
fn over_edits(ramp: &Ramp, timed: impl FnMut(Edit) -> (f64, f64)) -> (f64, f64) {
    let n = ramp.positions.len();
    let stops: Vec<usize> = if n > 2 { (1..n - 1).collect() } else { (0..n).collect() };
    let step = stops.len().div_ceil(EDITED);
    let edits = stops.into_iter().step_by(step).map(|stop| Edit { stop, colour: [0.5, 0.5, 0.5, 1.0] });
    let (ours, others) = edits.map(timed).unzip();
    (median(ours), median(others))
}

/// The refresh alone, and our own sampling of the changed ramp.
fn alone(ramp: &Ramp) -> (f64, f64) {
    let (mut record, mut spare) = (Record::empty(), Record::empty());
    over_edits(ramp, |edit| {
        let after = changed(ramp, &edit);
        ours::sample(ramp, THRESHOLD, &mut record).expect("a ramp that is taken");
        timed(
            REPEATED,
            || used(ours::refresh(ramp, &edit, THRESHOLD, &mut record)),
            || used(ours::sample(&after, THRESHOLD, &mut spare)),
        )
    })
}

/// The refresh with its list, and a fresh sampling and thinning in ordinary Rust.
fn together(ramp: &Ramp) -> (f64, f64) {
    let (mut record, mut spare) = (Record::empty(), Record::empty());
    let (mut out, mut others) = (Out::new(), Out::new());
    over_edits(ramp, |edit| {
        let after = changed(ramp, &edit);
        ours::sample(ramp, THRESHOLD, &mut record).expect("a ramp that is taken");
        let made = ours::refresh_list(ramp, &edit, THRESHOLD, &mut record, &mut out.0, &mut out.1);
        let stops = ordinary::flatten(&after, THRESHOLD, &mut spare, &mut others.0, &mut others.1);
        let same = out.0 == others.0 && out.1 == others.1;
        assert!(made.is_ok_and(|m| m.0 == stops) && same, "the ordinary Rust does the same job");
        timed(
            REPEATED,
            || used(ours::refresh_list(ramp, &edit, THRESHOLD, &mut record, &mut out.0, &mut out.1)),
            || used(ordinary::flatten(&after, THRESHOLD, &mut spare, &mut others.0, &mut others.1)),
        )
    })
}

/// The refresh with its list, and our own flattening of the changed ramp.
fn keystroke(ramp: &Ramp) -> (f64, f64) {
    let (mut record, mut spare) = (Record::empty(), Record::empty());
    let (mut out, mut others) = (Out::new(), Out::new());
    over_edits(ramp, |edit| {
        let after = changed(ramp, &edit);
        ours::sample(ramp, THRESHOLD, &mut record).expect("a ramp that is taken");
        timed(
            REPEATED,
            || used(ours::refresh_list(ramp, &edit, THRESHOLD, &mut record, &mut out.0, &mut out.1)),
            || used(ours::flatten(&after, THRESHOLD, &mut spare, &mut others.0, &mut others.1)),
        )
    })
}

/// The job's rows: each kind alone, and linear stops with the list.
pub fn table(_: &mut Random) {
    for kind in REFRESHED {
        let (ours, whole) = alone(&striped(kind, STOPS));
        row(&format!("refresh alone, {}", kind.name()), "our own sampling", ours, whole);
    }
    let (ours, rust) = together(&striped(Kind::Linear, STOPS));
    row("refresh and thin, linear", "sampling and thinning in ordinary Rust", ours, rust);
}

/// How much of a fresh flattening is a keystroke; then the two figures. Whether they hold what is required.
pub fn run() -> bool {
    println!("| kind, a keystroke's part of a fresh flattening | 2 stops | 64 | 512 | 2,048 |");
    println!("|---|---|---|---|---|");
    for kind in REFRESHED {
        let parts = SIZES.map(|n| keystroke(&striped(kind, n))).map(|(ours, whole)| format!("{:.2}", ours / whole));
        println!("| {} | {} |", kind.name(), parts.join(" | "));
    }
    let job = striped(Kind::Linear, STOPS);
    let with_list = holds("refresh and thinning beside ordinary Rust", together(&job), TOGETHER);
    holds("refresh alone beside our own sampling", alone(&job), ALONE) && with_list
}

fn holds(name: &str, (ours, other): (f64, f64), (required, aim): (f64, f64)) -> bool {
    let part = ours / other;
    let held = part <= required;
    let word = if held { "holds" } else { "does not hold" };
    println!("{name}: {part:.2} ({ours:.0} of {other:.0} ns); {word} (required {required}, aimed at {aim})");
    held
}
