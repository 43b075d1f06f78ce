//! A linear gradient of SVG, with a band that shows it.

use super::Piece;
use crate::color::hex;
use crate::number::short;
use std::fmt::Write;

pub fn svg(piece: &Piece) -> String {
    let name = escaped(piece.name);
    let mut text = format!(
        "<svg xmlns=\"http://www.w3.org/2000/svg\" viewBox=\"0 0 512 64\" role=\"img\" aria-labelledby=\"title\">\n\
         <title id=\"title\">{name}</title>\n<defs>\n<linearGradient id=\"ramp\">\n"
    );
    for (position, color) in &piece.stops {
        let opacity = match color.to_rgba8()[3] {
            255 => String::new(),
            byte => format!(" stop-opacity=\"{:.4}\"", f32::from(byte) / 255.0),
        };
        let _ = writeln!(text, "<stop offset=\"{}\" stop-color=\"{}\"{opacity}/>", short(*position), hex(*color));
    }
    text + "</linearGradient>\n</defs>\n<rect width=\"512\" height=\"64\" fill=\"url(#ramp)\"/>\n</svg>\n"
}

/// What may not stand in a text of SVG as it is.
pub fn escaped(text: &str) -> String {
    text.replace('&', "&amp;").replace('<', "&lt;").replace('>', "&gt;").replace('"', "&quot;")
}
