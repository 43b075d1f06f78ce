//! GIMP texts, as the Rust reads them.

use colorgrad::{door, Color};

pub type Segments = Vec<door::Segment>;

/// A colour as the Rust keeps it in a segment: of one coloured by hue, its hue, saturation and value.
pub fn kept(colouring: u8, c: &[f32]) -> [f32; 4] {
    let colour = Color::new(c[0], c[1], c[2], c[3]);
    if colouring == 0 {
        colour.to_array()
    } else {
        colour.to_hsva()
    }
}

/// A GIMP text: gradient, segments and name, or the message and its line.
pub fn read(
    text: &[u8],
    foreground: [f32; 4],
    background: [f32; 4],
) -> Result<(colorgrad::GimpGradient, Segments, String), (&'static str, usize)> {
    let (f, b) = (Color::from(foreground), Color::from(background));
    match colorgrad::GimpGradient::new(text, &f, &b) {
        Ok(g) => {
            let (segments, name) = (door::gimp_segments(&g), g.name().to_string());
            Ok((g, segments, name))
        }
        Err(e) => Err(door::gimp_error(&e)),
    }
}

/// The reading alone, as a caller has it.
pub fn read_only(text: &[u8], foreground: [f32; 4], background: [f32; 4]) -> bool {
    colorgrad::GimpGradient::new(text, &Color::from(foreground), &Color::from(background)).is_ok()
}
