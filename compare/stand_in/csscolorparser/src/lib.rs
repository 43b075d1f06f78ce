//! Stands in for the colour dependency. `interpolate_rgb` and `clamp` are document 01's, `to_hsva` and `from_hsva` are those
//! of docs/HSV.md; the other colour spaces and the parser are there for their names alone, and no comparison reaches them.
#![no_std]

mod hsv;

use core::str::FromStr;

#[derive(Debug, Clone, Copy, PartialEq, Default)]
pub struct Color {
    pub r: f32,
    pub g: f32,
    pub b: f32,
    pub a: f32,
}

#[derive(Debug, Clone, PartialEq, Eq)]
pub struct ParseColorError;

impl Color {
    pub const fn new(r: f32, g: f32, b: f32, a: f32) -> Self {
        Self { r, g, b, a }
    }

    pub const fn to_array(&self) -> [f32; 4] {
        [self.r, self.g, self.b, self.a]
    }

    /// a + t * (b - a) on each of the four channels.
    pub fn interpolate_rgb(&self, other: &Color, t: f32) -> Color {
        Color::new(
            self.r + t * (other.r - self.r),
            self.g + t * (other.g - self.g),
            self.b + t * (other.b - self.b),
            self.a + t * (other.a - self.a),
        )
    }

    /// Below 0 to 0, above 1 to 1, else unchanged.
    pub fn clamp(&self) -> Color {
        Color::new(unit(self.r), unit(self.g), unit(self.b), unit(self.a))
    }

    pub fn to_hsva(&self) -> [f32; 4] {
        hsv::there(self)
    }

    pub fn from_hsva(h: f32, s: f32, v: f32, a: f32) -> Color {
        hsv::back(h, s, v, a)
    }
}

fn unit(x: f32) -> f32 {
    if x < 0.0 {
        0.0
    } else if x > 1.0 {
        1.0
    } else {
        x
    }
}

impl From<[f32; 4]> for Color {
    fn from([r, g, b, a]: [f32; 4]) -> Self {
        Self { r, g, b, a }
    }
}

/// Colour spaces that are not carried: the published files name them, and no comparison calls them.
impl Color {
    pub fn from_linear_rgba(_: f32, _: f32, _: f32, _: f32) -> Color {
        unimplemented!("not carried")
    }

    pub fn from_oklaba(_: f32, _: f32, _: f32, _: f32) -> Color {
        unimplemented!("not carried")
    }

    pub fn from_laba(_: f32, _: f32, _: f32, _: f32) -> Color {
        unimplemented!("not carried")
    }

    pub fn to_linear_rgba(&self) -> [f32; 4] {
        unimplemented!("not carried")
    }

    pub fn to_oklaba(&self) -> [f32; 4] {
        unimplemented!("not carried")
    }

    pub fn to_laba(&self) -> [f32; 4] {
        unimplemented!("not carried")
    }

    pub fn interpolate_linear_rgb(&self, _: &Color, _: f32) -> Color {
        unimplemented!("not carried")
    }

    pub fn interpolate_oklab(&self, _: &Color, _: f32) -> Color {
        unimplemented!("not carried")
    }

    pub fn interpolate_lab(&self, _: &Color, _: f32) -> Color {
        unimplemented!("not carried")
    }
}

/// No text is a colour here.
pub fn parse(_: &str) -> Result<Color, ParseColorError> {
    Err(ParseColorError)
}

impl FromStr for Color {
    type Err = ParseColorError;

    fn from_str(s: &str) -> Result<Self, Self::Err> {
        parse(s)
    }
}
