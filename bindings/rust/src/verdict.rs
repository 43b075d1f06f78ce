//! What is said of a list that was made elsewhere.

use crate::ffi;
use crate::refusal::with_words;
use crate::slices::CELLS;
use core::fmt;

/// What is said of a list of stops that was made elsewhere: yes, or no with the first thing that is wrong.
///
/// Yes is said exactly where the list has 2 to 4,609 stops, finite and never falling, starts and ends where the ramp does,
/// and its colours, mixed linearly, differ from the ramp's by no more than the threshold at every point of a fresh sampling,
/// and at its end.
///
/// ```
/// use guineaplume::{Color, Gradient, LinearGradient, Refusal, Verdict};
///
/// let gray = |x: f32| Color::new(x, x, x, 1.0);
/// let ramp = LinearGradient::new(&[0.0, 0.5, 1.0], &[0.0, 0.9, 1.0].map(gray))?;
/// assert_eq!(ramp.judge(0.007, &[0.0, 0.5, 1.0], &[0.0, 0.9, 1.0].map(gray))?, Verdict::Yes);
///
/// let verdict = ramp.judge(0.007, &[0.0, 1.0], &[gray(0.0), gray(1.0)])?;
/// assert!(matches!(verdict, Verdict::TooFar { row: 1, index: 0, .. }));
/// assert_eq!(verdict.to_string(), "the list's colour is too far from the ramp's at 0.027777778 (point 0 of row 1)");
///
/// assert_eq!(ramp.judge(0.007, &[0.0, f32::NAN], &[gray(0.0), gray(1.0)])?, Verdict::BadStop { stop: 1 });
/// assert_eq!(ramp.judge(0.007, &[0.0, 2.0], &[gray(0.0), gray(1.0)])?, Verdict::WrongLast);
/// # Ok::<(), Refusal>(())
/// ```
#[derive(Clone, Copy, PartialEq, Debug)]
#[non_exhaustive]
pub enum Verdict {
    /// The list shows the ramp within the threshold.
    Yes,
    /// It does not have 2 to 4,609 stops, or not four channels for each.
    WrongLength,
    /// This stop, the first such, is not finite, or its position is below that of the stop before it.
    BadStop {
        /// Which, counted from 0.
        stop: usize,
    },
    /// Its first position is not the ramp's.
    WrongFirst,
    /// Its last position is not the ramp's.
    WrongLast,
    /// At this point, the first such, its colour is too far from the ramp's, or one of the two is not a number.
    TooFar {
        /// The row of a fresh sampling, counted from 0; 36 for the ramp's end, which comes after the rows.
        row: usize,
        /// The point of that row, counted from 0.
        index: usize,
        /// Where it lies.
        t: f32,
    },
}

impl Verdict {
    /// Of what the library told of a ramp that is not refused.
    pub(crate) fn told([verdict, stop, row, index]: [usize; 4], t: f32) -> Verdict {
        match verdict {
            1 => Verdict::Yes,
            2 => Verdict::WrongLength,
            3 => Verdict::BadStop { stop },
            4 => Verdict::WrongFirst,
            5 => Verdict::WrongLast,
            6 => Verdict::TooFar { row, index, t },
            _ => unreachable!("every verdict has a number"),
        }
    }

    /// Its number, the same in every face of the library.
    fn number(self) -> u32 {
        match self {
            Verdict::Yes => 1,
            Verdict::WrongLength => 2,
            Verdict::BadStop { .. } => 3,
            Verdict::WrongFirst => 4,
            Verdict::WrongLast => 5,
            Verdict::TooFar { .. } => 6,
        }
    }

    /// Whether it is yes.
    #[must_use]
    pub fn is_yes(self) -> bool {
        self == Verdict::Yes
    }
}

/// The library's words, with the stop or the point that is named.
impl fmt::Display for Verdict {
    fn fmt(&self, f: &mut fmt::Formatter<'_>) -> fmt::Result {
        with_words(|room| ffi::verdict_message(self.number(), room), |words| self.say(words, f))
    }
}

impl Verdict {
    fn say(self, words: &str, f: &mut fmt::Formatter<'_>) -> fmt::Result {
        match (self, words.split_once("a stop")) {
            (Verdict::BadStop { stop }, Some((before, after))) => write!(f, "{before}stop {stop}{after}"),
            (Verdict::TooFar { row: CELLS, t, .. }, _) => write!(f, "{words} at {t} (the end of the ramp)"),
            (Verdict::TooFar { row, index, t }, _) => write!(f, "{words} at {t} (point {index} of row {row})"),
            _ => f.write_str(words),
        }
    }
}
