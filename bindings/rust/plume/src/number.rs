//! Numbers: read by the library's proved reader, and written.

use guineaplume::slices;

/// The number that the bytes are, by the library's rule: a sign or none, digits with a point or none, 1 to 18 of them.
pub fn read(text: &str) -> Option<f32> {
    slices::token(text.as_bytes())
}

/// Nine significant digits by the library's proved writer. A number that it does not write, one below 1e-6 or above 1e6 in
/// size, is written with as many digits as it needs.
pub fn nine_digits(x: f32) -> String {
    let mut room = [0; slices::MOST_NUMERAL];
    let length = slices::numeral(x, &mut room);
    match length {
        0 => short(x),
        _ => room[..length].iter().copied().map(char::from).collect(),
    }
}

/// The fewest digits that are read back as the same number.
pub fn short(x: f32) -> String {
    // -0 is 0 to every reader
    format!("{}", x + 0.0)
}

/// Two significant digits, for people.
pub fn about(x: f32) -> String {
    if x == 0.0 || !x.is_finite() {
        return format!("{x}");
    }
    let digits = (1.0 - x.abs().log10().floor()).clamp(0.0, 9.0) as usize;
    format!("{x:.digits$}")
}

/// Taken into 0..1; not-a-number is 0.
#[allow(clippy::manual_clamp)]
pub fn clamped(channel: f32) -> f32 {
    channel.max(0.0).min(1.0)
}

/// How a byte, or a number of 0..255 with decimals, becomes a channel.
pub fn channel(byte: f32) -> f32 {
    byte / 255.0
}

#[cfg(test)]
mod tests {
    use super::*;

    #[test]
    fn what_is_written_is_read_back() {
        for x in [0.0, 1.0, 0.0833, -8000.0, 1.001_953_1, 3e-8, 123_456_790.0] {
            assert_eq!([read(&nine_digits(x)), read(&short(x))], [Some(x); 2], "{x}");
        }
        assert_eq!([about(0.0114), about(0.000_43), about(2.0), about(0.0)], ["0.011", "0.00043", "2.0", "0"]);
    }
}
