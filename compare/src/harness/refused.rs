//! Ramps that are refused here, and what the Rust makes of them: most of its constructors check nothing.

use crate::harness::oracle::{self, Boxed, Unchecked};
use crate::harness::ramps::Ramp;
use crate::harness::report::Tally;
use std::panic::{catch_unwind, AssertUnwindSafe};

/// Asks the Rust what was refused here, so many times, and counts its answers by their class. Where it refuses too, or
/// has no such input, there is no difference.
pub fn tell(tally: &mut Tally, ramp: &Ramp, refusal: u32, times: usize, ask: impl Fn(&Boxed, usize)) {
    let made = oracle::unchecked(ramp);
    for i in 0..times {
        let answers = match &made {
            Unchecked::NoSuchInput | Unchecked::Refused => return,
            Unchecked::Panics => false,
            Unchecked::Made(g) => catch_unwind(AssertUnwindSafe(|| ask(g, i))).is_ok(),
        };
        tally.listed(class(refusal, answers));
    }
}

fn class(refusal: u32, answers: bool) -> &'static str {
    match (refusal, answers) {
        (1, true) => "1: the Rust answers",
        (1, false) => "1: the Rust panics",
        (2, true) => "2: the Rust answers",
        (2, false) => "2: the Rust panics",
        (3, true) => "3: the Rust answers",
        (3, false) => "3: the Rust panics",
        (_, true) => "4, domain beyond 1e38: the Rust answers",
        (_, false) => "4, domain beyond 1e38: the Rust panics",
    }
}
