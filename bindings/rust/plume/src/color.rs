//! Colours as people write them, and how far apart two are.

use crate::number;
use guineaplume::{slices, Color};

/// Of '#rrggbb' or '#rrggbbaa'.
pub fn of_hex(text: &str) -> Option<Color> {
    let digits = text.strip_prefix('#')?;
    if !digits.bytes().all(|byte| byte.is_ascii_hexdigit()) {
        return None;
    }
    let channel = |i: usize| u8::from_str_radix(&digits[2 * i..2 * i + 2], 16).ok().map(|n| number::channel(n.into()));
    match digits.len() {
        6 => Some(Color::new(channel(0)?, channel(1)?, channel(2)?, 1.0)),
        8 => Some(Color::new(channel(0)?, channel(1)?, channel(2)?, channel(3)?)),
        _ => None,
    }
}

/// '#rrggbb', without alpha.
pub fn hex(color: Color) -> String {
    Color { a: 1.0, ..color }.to_css_hex().to_string()
}

/// How far apart two colours are, by the library's measure: half the root of the sum of the squared differences of clamped
/// channels. What is told by it is for people; what is decided is asked of the library.
pub fn distance(x: Color, y: Color) -> f32 {
    let clamped = |color: Color| color.to_array().map(number::clamped);
    let squares = clamped(x).into_iter().zip(clamped(y)).map(|(a, b)| (a - b) * (a - b));
    slices::root(squares.fold(0.0, |sum, square| sum + square)) / 2.0
}

/// The lightness L* of a colour, 0 to 100, alpha aside: sRGB, D65. In double precision, so that pictures are the same
/// wherever they are drawn.
pub fn lightness(color: Color) -> f32 {
    let linear = |channel: f32| {
        let channel = f64::from(number::clamped(channel));
        if channel <= 0.04045 {
            channel / 12.92
        } else {
            ((channel + 0.055) / 1.055).powf(2.4)
        }
    };
    let y = 0.2126 * linear(color.r) + 0.7152 * linear(color.g) + 0.0722 * linear(color.b);
    let lightness = if y <= 216.0 / 24389.0 { y * 24389.0 / 27.0 } else { 116.0 * y.cbrt() - 16.0 };
    lightness as f32
}
