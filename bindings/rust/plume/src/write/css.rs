//! A gradient of CSS, as a property of the file's name.

use super::Piece;
use crate::color::hex;
use crate::number::short;

pub fn css(piece: &Piece) -> String {
    let is_plain = |c: char| c.is_ascii_alphanumeric() || c == '-' || c == '_';
    let name: String = piece.name.chars().map(|c| if is_plain(c) { c } else { '-' }).collect();
    let stops: Vec<String> = piece
        .stops
        .iter()
        .map(|(position, color)| {
            let alpha = match color.to_rgba8()[3] {
                255 => String::new(),
                byte => format!("{byte:02x}"),
            };
            format!("{}{alpha} {}%", hex(*color), short(position * 100.0))
        })
        .collect();
    format!(":root {{\n  --{name}: linear-gradient(to right,\n    {});\n}}\n", stops.join(",\n    "))
}
