//! JSON, for programs of one's own.

use super::Piece;
use crate::color::hex;
use crate::number;
use crate::ramp::name_of;
use std::fmt::Write;

pub fn json(piece: &Piece) -> String {
    let ends = |stop: Option<&(f32, _)>| stop.map_or(String::new(), |(position, _)| digits(*position));
    let (min, max) = (ends(piece.stops.first()), ends(piece.stops.last()));
    let mut text = format!("{{\n  \"name\": {},\n  \"kind\": \"{}\",\n", string(piece.name), name_of(piece.kind));
    let _ = writeln!(text, "  \"domain\": [{min}, {max}],\n  \"stops\": [");
    for (i, (position, color)) in piece.stops.iter().enumerate() {
        let channels = color.to_array().map(digits).join(", ");
        let comma = if i + 1 < piece.stops.len() { "," } else { "" };
        let position = digits(*position);
        let _ = writeln!(
            text,
            "    {{\"position\": {position}, \"color\": [{channels}], \"hex\": \"{}\"}}{comma}",
            hex(*color)
        );
    }
    text + "  ]\n}\n"
}

/// The fewest digits, with an exponent where there would be many zeros.
fn digits(x: f32) -> String {
    if x != 0.0 && !(1e-6..1e16).contains(&x.abs()) {
        format!("{x:e}")
    } else {
        number::short(x)
    }
}

fn string(text: &str) -> String {
    let mut quoted = String::from("\"");
    for c in text.chars() {
        match c {
            '"' | '\\' => quoted.extend(['\\', c]),
            c if c.is_control() => {
                let _ = write!(quoted, "\\u{:04x}", c as u32);
            }
            c => quoted.push(c),
        }
    }
    quoted + "\""
}
