//! Why an answer was refused.

use crate::ffi;
use core::fmt;

/// Why an answer was refused. Each has a number, the same in every face of the library.
///
/// ```
/// use guineaplume::{Color, LinearGradient, Refusal};
///
/// let colors = [Color::new(0.0, 0.0, 0.0, 1.0), Color::new(1.0, 1.0, 1.0, 1.0)];
/// let refusal = LinearGradient::new(&[1.0, 0.0], &colors).unwrap_err();
/// assert_eq!(refusal, Refusal::Falling);
/// assert_eq!(refusal.number(), 3);
/// assert_eq!(refusal.to_string(), "a stop's position is below that of the stop before it");
/// ```
#[derive(Clone, Copy, PartialEq, Eq, Hash, Debug)]
#[repr(u8)]
#[non_exhaustive]
pub enum Refusal {
    /// 1: too few stops, too many, an odd number for sharp, segments that are not carried, or lengths that disagree.
    Misshapen = 1,
    /// 2: a position or a channel is not finite.
    NotFinite = 2,
    /// 3: a stop's position is below that of the stop before it.
    Falling = 3,
    /// 4: an end of the domain is beyond plus or minus 1e38.
    FarDomain = 4,
    /// 5: a record that is not 4,608 numbers, 36 counts of 1 to 128 and 3 words; or a place that lies outside it.
    BadRecord = 5,
    /// 6: an edit of no stop that may be edited so, with a number that is not finite, or of a ramp that cannot be edited so.
    BadEdit = 6,
    /// 7: one more colour or stop than the output has room for, or fewer bytes than depths.
    NoRoom = 7,
    /// 8: a stop of the list would not be finite.
    ListNotFinite = 8,
    /// 9: a stop of the list would lie below the stop before it.
    ListFalling = 9,
    /// 10: a GIMP text of more than 65,536 bytes, or with a byte above 127. Of one as GIMP saves it: more than 131,072 bytes, a
    /// byte above 127 in line 1 or 3 or in a segment that is counted, or a name that is not UTF-8.
    NotAText = 10,
    /// 11: line 1, 2 or 3 of a GIMP text is not valid.
    BadHeader = 11,
    /// 12: a segment of a GIMP text is not valid.
    BadSegment = 12,
    /// 13: fewer segment lines than counted.
    FewLines = 13,
    /// 14: no segment.
    NoSegment = 14,
    /// 15: more segments counted than 256, or than there is room for.
    TooManySegments = 15,
    /// 16: a valid segment that is curved, where the call takes none, or curved or sinusoidal with its middle outside its ends.
    NotCarried = 16,
    /// 17: a sharp ramp of no colours or more than 256, or on a domain on which it cannot be built.
    NotBuilt = 17,
    /// 18: segments of a GIMP text that do not run from 0 to 1, each in order and joined to the next.
    Torn = 18,
    /// 19: a list with a number that cannot be written, or that does not run from 0 to 1.
    Unwritable = 19,
    /// 20: a record that was sampled with another threshold in force, or on another domain.
    OtherThreshold = 20,
    /// 21: two stops of a list that keeps its word, which follow each other, do not show what lies between them: colours
    /// beyond 16,384.
    NotShown = 21,
    /// 22: a list that is asked about depths does not have 2 to 4,609 stops, finite and never falling, or does not start and
    /// end where the ramp does.
    BadList = 22,
    /// 23: no depths, or one that is not finite, outside the ramp's domain, or below the depth before it.
    BadDepths = 23,
    /// 24: a step that is not finite, or below 0.
    BadStep = 24,
}

/// Every refusal, in the order of the numbers.
const ALL: [Refusal; 24] = [
    Refusal::Misshapen,
    Refusal::NotFinite,
    Refusal::Falling,
    Refusal::FarDomain,
    Refusal::BadRecord,
    Refusal::BadEdit,
    Refusal::NoRoom,
    Refusal::ListNotFinite,
    Refusal::ListFalling,
    Refusal::NotAText,
    Refusal::BadHeader,
    Refusal::BadSegment,
    Refusal::FewLines,
    Refusal::NoSegment,
    Refusal::TooManySegments,
    Refusal::NotCarried,
    Refusal::NotBuilt,
    Refusal::Torn,
    Refusal::Unwritable,
    Refusal::OtherThreshold,
    Refusal::NotShown,
    Refusal::BadList,
    Refusal::BadDepths,
    Refusal::BadStep,
];

impl Refusal {
    /// Its number, 1 to 24.
    #[must_use]
    pub fn number(self) -> u32 {
        self as u32
    }

    /// The refusal with this number, if there is one.
    #[must_use]
    pub fn from_number(number: u32) -> Option<Refusal> {
        ALL.into_iter().find(|refusal| refusal.number() == number)
    }
}

/// Room for the words of any refusal or verdict.
const MOST_WORDS: usize = 256;

/// Hands on the words that a call of the library writes.
pub(crate) fn with_words<T>(write: impl Fn(&mut [u8]) -> usize, hand: impl FnOnce(&str) -> T) -> T {
    let mut room = [0; MOST_WORDS];
    let length = write(&mut room);
    // the words are ASCII, and shorter than the room (`tests/refusals/main.rs`)
    hand(room.get(..length).and_then(|words| core::str::from_utf8(words).ok()).unwrap_or_default())
}

/// The library's words.
impl fmt::Display for Refusal {
    fn fmt(&self, f: &mut fmt::Formatter<'_>) -> fmt::Result {
        with_words(|room| ffi::message(self.number(), room), |words| f.write_str(words))
    }
}

#[cfg(feature = "std")]
impl std::error::Error for Refusal {}

/// Why a GIMP text was refused, and at which line.
#[derive(Clone, Copy, PartialEq, Eq, Debug)]
#[non_exhaustive]
pub struct ParseGgrError {
    /// Why.
    pub refusal: Refusal,
    /// The line, counted from 1; 0 where no line is to blame.
    pub line: usize,
}

impl fmt::Display for ParseGgrError {
    fn fmt(&self, f: &mut fmt::Formatter<'_>) -> fmt::Result {
        match self.line {
            0 => write!(f, "{}", self.refusal),
            line => write!(f, "{} (line {line})", self.refusal),
        }
    }
}

#[cfg(feature = "std")]
impl std::error::Error for ParseGgrError {
    fn source(&self) -> Option<&(dyn std::error::Error + 'static)> {
        Some(&self.refusal)
    }
}
