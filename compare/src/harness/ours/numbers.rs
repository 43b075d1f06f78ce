//! Roots, and numbers as text.

use crate::harness::ffi;

pub fn root(x: f32) -> f32 {
    ffi::root(x)
}

pub fn token(text: &[u8]) -> Option<f32> {
    let mut value = [f32::NAN];
    match ffi::token(text, &mut value) {
        0 => None,
        1 => Some(value[0]),
        other => panic!("no such answer: {other}"),
    }
}

pub fn long_token(text: &[u8]) -> Option<f32> {
    let mut value = [f32::NAN];
    match ffi::long_token(text, &mut value) {
        0 => None,
        1 => Some(value[0]),
        other => panic!("no such answer: {other}"),
    }
}

/// How long the number's text is; it is written where there is room.
pub fn numeral(x: f32, out: &mut [u8]) -> usize {
    ffi::numeral(x, out)
}
