//! Times beside the Rust's: one run, the same buffers, medians of interleaved repetitions, processor time. Below callgrind
//! the same tables have instructions.

use crate::edited::sheeting;
use crate::edited::typing;
use crate::harness::clock;
use crate::harness::options::Options;
use crate::harness::random::Random;
use crate::judged::weighing;
use crate::timed::count;
use crate::timed::tables;
use std::hint::black_box;

const REPETITIONS: usize = 21;

/// Every table, or the one that is asked for by name.
pub fn run(options: &Options) {
    let unit = if count::output().is_some() { "instructions" } else { "ns" };
    println!("| call | beside | ours, {unit} | Rust, {unit} | ratio |");
    println!("|---|---|---|---|---|");
    let tables: [(&str, fn(&mut Random)); 11] = [
        ("root", tables::roots),
        ("token", tables::tokens),
        ("paint", tables::paint),
        ("files", tables::paint_files),
        ("read", tables::reading),
        ("flatten", tables::flatten),
        ("growth", tables::growth),
        ("within", weighing::table),
        ("apart", weighing::depths),
        ("refresh", typing::table),
        ("sheet", sheeting::table),
    ];
    for (name, table) in tables {
        if options.name.as_ref().is_none_or(|wanted| wanted == name) {
            table(&mut Random::of_case(options.seed, 0));
        }
    }
}

/// Prints the medians of the two for one of `items`.
pub fn beside(call: &str, other: &str, items: usize, ours: impl FnMut(), rust: impl FnMut()) {
    let (a, b) = timed(REPETITIONS, ours, rust);
    row(call, other, a / items as f64, b / items as f64);
}

pub fn row(call: &str, other: &str, ours: f64, rust: f64) {
    println!("| {call} | {other} | {ours:.1} | {rust:.1} | {:.2} |", ours / rust);
}

/// Runs the two in turn, each long enough to be timed: the medians. Instructions are the same in every run.
pub fn timed(repetitions: usize, mut ours: impl FnMut(), mut rust: impl FnMut()) -> (f64, f64) {
    if let Some(output) = count::output() {
        return (count::instructions(&output, &mut ours), count::instructions(&output, &mut rust));
    }
    let (turns, others) = (turns(&mut ours), turns(&mut rust));
    let mut times = (Vec::new(), Vec::new());
    for _ in 0..repetitions {
        times.0.push(nanoseconds(&mut ours, turns));
        times.1.push(nanoseconds(&mut rust, others));
    }
    (median(times.0), median(times.1))
}

/// As many calls as take about a millisecond.
fn turns(call: &mut impl FnMut()) -> u32 {
    let mut n = 1;
    while nanoseconds(call, n) * (n as f64) < 1.0e6 {
        n *= 2;
    }
    n
}

fn nanoseconds(call: &mut impl FnMut(), turns: u32) -> f64 {
    let start = clock::nanoseconds();
    for _ in 0..turns {
        call();
    }
    (clock::nanoseconds() - start) as f64 / turns as f64
}

/// Keeps the compiler from leaving a call out.
pub fn used<T>(value: T) {
    black_box(value);
}

pub fn median(mut times: Vec<f64>) -> f64 {
    times.sort_by(f64::total_cmp);
    times[times.len() / 2]
}
