//! Every call on the caller's own slices: nothing is allocated, and the caller says where answers go. The module needs
//! neither `std` nor `alloc`.
//!
//! No call needs a check before it. Slices may be empty or too short, lengths may disagree, numbers may be anything: what
//! cannot be used is refused. What a refusal leaves in a lent output is said at each call.
//!
//! ```
//! use guineaplume::slices::{Kind, Ramp};
//! use guineaplume::Refusal;
//!
//! let ramp = Ramp { kind: Kind::Linear, positions: &[0.0, 1.0], channels: &[0., 0., 0., 1., 1., 1., 1., 1.], codes: &[] };
//! let mut out = [7.0; 8];
//! ramp.paint(&[0.0, 0.25], &mut out)?;
//! assert_eq!(out, [0.0, 0.0, 0.0, 1.0, 0.25, 0.25, 0.25, 1.0]);
//!
//! assert_eq!(ramp.paint(&[0.0, 0.25, 0.5], &mut out), Err(Refusal::NoRoom));
//! assert_eq!(out, [0.0; 8]);
//! # Ok::<(), Refusal>(())
//! ```

mod gimp;
mod numbers;
mod ramps;
mod records;
mod verdicts;

use crate::{ffi, Refusal};

pub use crate::sheets::{Sheet, Sheeted};
pub use gimp::{
    name, name_saved, numeral, read, read_saved, write_ggr, written_bytes, SegmentsMut, MOST_NUMERAL, MOST_WRITTEN,
};
pub use numbers::{cutoff, hold, long_token, root, threshold, token, DEFAULT_THRESHOLD};
pub use ramps::{sharp, Kind, Ramp, MOST_SEGMENTS, MOST_STOPS};
pub use records::{Listed, Record, RecordMut, StopsMut, CELLS, MARKS, MOST_POINTS, MOST_WEIGHED, ROWS};
pub use verdicts::{Apart, CLOSE, MERGED, MOVED};

/// The most bytes that the tool prints.
pub const MOST_PRINTED: usize = 50_029;

pub(crate) fn answer<T>(number: u32, value: T) -> Result<T, Refusal> {
    match number {
        0 => Ok(value),
        _ => Err(Refusal::from_number(number).expect("every number that is answered is a refusal's")),
    }
}

/// Calls the library with a ramp's four arguments before the others.
macro_rules! with_ramp {
    ($call:ident, $ramp:expr $(, $argument:expr)*) => {
        $crate::ffi::$call($ramp.kind as u32, $ramp.positions, $ramp.channels, $ramp.codes $(, $argument)*)
    };
}
pub(crate) use with_ramp;

/// How many bytes the tool `flatten` prints for an input. They are written where `output` holds them all, else it is set to
/// zero. [`MOST_PRINTED`] bytes always suffice.
pub fn desk(input: &[u8], output: &mut [u8]) -> usize {
    ffi::desk(input, output)
}

/// The version of the library that is linked, 1000 * (1000 * major + minor) + patch: this crate's own.
#[must_use]
pub fn version() -> u32 {
    ffi::version()
}
