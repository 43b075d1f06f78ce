//! The library under test, over this package's own ramps and records.

/// A call over a ramp. It stands before the modules, which would not see it otherwise.
macro_rules! over {
    ($ramp:expr, $call:ident($($more:expr),* $(,)?)) => {
        ffi::$call($ramp.kind.code(), &$ramp.positions, &$ramp.channels, &$ramp.codes, $($more),*)
    };
}

mod colours;
mod edits;
mod lists;
mod numbers;
mod sheets;
mod texts;
mod verdicts;

pub use colours::*;
pub use edits::*;
pub use lists::*;
pub use numbers::*;
pub use sheets::*;
pub use texts::*;
pub use verdicts::*;

/// What a call tells is put over this.
const UNTOLD: usize = usize::MAX;

/// The answer, or the number of the refusal.
fn answer<T>(refusal: u32, value: T) -> Result<T, u32> {
    match refusal {
        0 => Ok(value),
        number => Err(number),
    }
}

/// The stops written and the evaluations, or the number of the refusal.
pub type Listed = Result<(usize, usize), u32>;

fn listed(refusal: u32, [stops, evaluations]: [usize; 2]) -> Listed {
    answer(refusal, (stops, evaluations))
}
