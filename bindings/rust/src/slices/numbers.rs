//! Numbers by themselves: tokens, thresholds and holds in force, roots.

use crate::ffi;

/// The threshold that stands for one that is not finite: what to ask for where nothing speaks for another.
pub const DEFAULT_THRESHOLD: f32 = 0.007;

/// The number that the bytes are: a sign or none, digits with a point or none, 1 to 18 of them.
#[must_use]
pub fn token(text: &[u8]) -> Option<f32> {
    let mut value = [0.0];
    let is_number = ffi::token(text, &mut value) != 0;
    is_number.then_some(value[0])
}

/// The number that the bytes are as a long token: any number of digits, of which 19 count when zeros at the start and at the
/// end are left off, and then perhaps `e` or `E`, a sign or none and digits. Beyond every `f32` it is infinite.
#[must_use]
pub fn long_token(text: &[u8]) -> Option<f32> {
    let mut value = [0.0];
    let is_number = ffi::long_token(text, &mut value) != 0;
    is_number.then_some(value[0])
}

/// The threshold that calls take where this one is asked for: 0.001 to 0.035, and 0.007 for one that is not finite.
#[must_use]
pub fn threshold(asked: f32) -> f32 {
    ffi::threshold(asked)
}

/// The hold that lists which keep their word take where this one and this threshold are asked for: 0.001 to the threshold in
/// force, and 0.001 for one that is not finite.
#[must_use]
pub fn hold(asked: f32, threshold: f32) -> f32 {
    ffi::hold(asked, threshold)
}

/// The correctly rounded square root of any number.
#[must_use]
pub fn root(x: f32) -> f32 {
    ffi::root(x)
}

/// The number such that, for every s, half the root of s is above t exactly when s is above it.
#[must_use]
pub fn cutoff(t: f32) -> f32 {
    ffi::cutoff(t)
}
