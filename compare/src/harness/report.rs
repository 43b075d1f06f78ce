//! What a comparison counts, its progress line and the table at the end.

use crate::harness::options::Options;
use std::collections::BTreeMap;
use std::io::{IsTerminal, Write};
use std::time::{Duration, Instant};

/// How many differences are printed in full.
const SHOWN: u64 = 10;

pub struct Tally {
    name: String,
    seed: u64,
    inputs: u64,
    answered: u64,
    differences: u64,
    listed: BTreeMap<&'static str, u64>,
    started: Instant,
    seconds: f64,
    told: Instant,
}

impl Tally {
    pub fn new(name: impl Into<String>, seed: u64) -> Self {
        let now = Instant::now();
        let listed = BTreeMap::new();
        let (name, started) = (name.into(), now);
        Tally { name, seed, inputs: 0, answered: 0, differences: 0, listed, started, seconds: 0.0, told: now }
    }

    pub fn count(&self) -> u64 {
        self.inputs
    }

    pub fn inputs(&mut self, n: u64) {
        self.inputs += n;
    }

    /// So many of the inputs are not to be refused.
    pub fn answered(&mut self, n: u64) {
        self.answered += n;
    }

    /// An answer that differs and should not.
    pub fn differs(&mut self, case: u64, what: impl FnOnce() -> String) {
        self.differences += 1;
        if self.differences <= SHOWN {
            println!("DIFFERS {} --seed {} --case {case}: {}", self.name, self.seed, what());
        }
    }

    /// An answer that differs as docs/DIFFERENCES.md lists it.
    pub fn listed(&mut self, class: &'static str) {
        *self.listed.entry(class).or_default() += 1;
    }

    /// One case after the other until there are as many inputs as asked for, or the one case that is asked for.
    pub fn until_enough(&mut self, options: &Options, mut one: impl FnMut(&mut Tally, u64)) {
        let mut case = options.case.unwrap_or(0);
        while self.inputs < options.size {
            one(self, case);
            if options.case.is_some() {
                break;
            }
            case += 1;
            self.progress(self.inputs, options.size);
        }
    }

    /// One line that is written over, at most four times a second and only to a terminal.
    pub fn progress(&mut self, done: u64, of: u64) {
        if self.told.elapsed() < Duration::from_millis(250) || !std::io::stderr().is_terminal() {
            return;
        }
        self.told = Instant::now();
        let share = 100.0 * done as f64 / of.max(1) as f64;
        eprint!("\r{:<30} {share:5.1} %  {} inputs, {} differences ", self.name, self.inputs, self.differences);
        let _ = std::io::stderr().flush();
        if done >= of {
            eprintln!();
        }
    }

    /// The comparison is over: the time it took is kept.
    pub fn done(mut self) -> Tally {
        self.seconds = self.started.elapsed().as_secs_f64();
        self
    }

    fn row(&self) -> String {
        let listed: Vec<String> = self.listed.iter().map(|(class, n)| format!("{class}: {n}")).collect();
        format!(
            "| {} | {} | {} | {} | {} | {:.1} |",
            self.name,
            self.inputs,
            self.answered,
            self.differences,
            listed.join("; "),
            self.seconds
        )
    }
}

/// Prints the table; whether no answer differed.
pub fn summary(tallies: &[Tally]) -> bool {
    println!("| comparison | inputs | not refused | differences | listed differences | seconds |");
    println!("|---|---|---|---|---|---|");
    for tally in tallies {
        println!("{}", tally.row());
    }
    tallies.iter().all(|t| t.differences == 0)
}

/// Bits compared, but any not-a-number equals any other.
pub fn same(x: f32, y: f32) -> bool {
    x.to_bits() == y.to_bits() || (x.is_nan() && y.is_nan())
}

pub fn all_same(x: &[f32], y: &[f32]) -> bool {
    x.len() == y.len() && x.iter().zip(y).all(|(a, b)| same(*a, *b))
}
