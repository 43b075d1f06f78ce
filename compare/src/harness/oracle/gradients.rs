//! The Rust's gradients, of ramps and of colours.

use crate::harness::oracle::{read, Boxed};
use crate::harness::ours;
use crate::harness::ramps::{Kind, Ramp};
use colorgrad::{door, Color, Gradient, GradientBuilder, LinearGradient};
use std::panic::{catch_unwind, AssertUnwindSafe};

/// The Rust's own gradient of a ramp that passes the check.
pub fn gradient(ramp: &Ramp) -> Boxed {
    match ramp.kind {
        Kind::Linear => Box::new(LinearGradient::from_rgba_data(ramp.stops()).expect("stops that pass the check")),
        Kind::Smoothstep => Box::new(door::smoothstep(&ramp.stops())),
        Kind::Sharp => Box::new(door::sharp(&ramp.stops())),
        Kind::Basis => Box::new(door::basis(&ramp.stops())),
        Kind::CatmullRom => Box::new(door::catmull_rom(&ramp.stops())),
        Kind::Gimp | Kind::GimpSaved => {
            Box::new(read(segments_text(ramp).as_bytes(), [0.0; 4], [0.0; 4]).expect("its own segments").0)
        }
    }
}

/// The library's own colours, for the Rust's halving and thinning to go by.
#[derive(Clone)]
struct Ours(Ramp);

impl Gradient for Ours {
    fn at(&self, t: f32) -> Color {
        Color::from(ours::at(&self.0, t).expect("a ramp that passes the check"))
    }

    fn domain(&self) -> (f32, f32) {
        self.0.domain()
    }
}

pub fn of_ours(ramp: &Ramp) -> Boxed {
    Box::new(Ours(ramp.clone()))
}

/// A linear gradient by the Rust's builder, or what it says.
pub fn built(positions: &[f32], reds: &[f32]) -> Result<Boxed, String> {
    let colours: Vec<Color> = reds.iter().map(|r| Color::new(*r, 0.0, 0.0, 1.0)).collect();
    let made = GradientBuilder::new().colors(&colours).domain(positions).build::<LinearGradient>();
    made.map(|g| Box::new(g) as Boxed).map_err(|e| e.to_string())
}

/// What the Rust makes of a ramp that is refused here.
pub enum Unchecked {
    /// Lengths that disagree, and lent sharp stops that do not pass the check; codes of colouring that there are not.
    NoSuchInput,
    Refused,
    Panics,
    Made(Boxed),
}

pub fn unchecked(ramp: &Ramp) -> Unchecked {
    let (positions, channels, codes) = (ramp.positions.len(), ramp.channels.len(), ramp.codes.len());
    let is_whole = match ramp.kind {
        Kind::Gimp | Kind::GimpSaved => {
            (3 * codes, 8 * codes) == (2 * positions, 2 * channels) && ramp.codes.chunks(2).all(|c| c[1] <= 2)
        }
        Kind::Sharp => ramp.refusal() == 0,
        _ => channels == 4 * positions && codes == 0,
    };
    if !is_whole {
        return Unchecked::NoSuchInput;
    }
    let made = || -> Option<Boxed> {
        match ramp.kind {
            Kind::Linear => Some(Box::new(LinearGradient::from_rgba_data(ramp.stops())?)),
            Kind::Gimp | Kind::GimpSaved => {
                Some(Box::new(read(segments_text(ramp).as_bytes(), [0.0; 4], [0.0; 4]).ok()?.0))
            }
            _ => Some(gradient(ramp)),
        }
    };
    match catch_unwind(AssertUnwindSafe(made)) {
        Ok(Some(g)) => Unchecked::Made(g),
        Ok(None) => Unchecked::Refused,
        Err(_) => Unchecked::Panics,
    }
}

/// Stops that are never falling, mixed linearly: as many as there are.
pub fn mixed(positions: &[f32], channels: &[f32]) -> Boxed {
    let colour = |c: &[f32]| [c[0], c[1], c[2], c[3]];
    let stops = positions.iter().zip(channels.chunks(4)).map(|(p, c)| (*p, colour(c))).collect::<Vec<_>>();
    Box::new(LinearGradient::from_rgba_data(stops).expect("two stops or more"))
}

pub fn at(g: &Boxed, t: f32) -> [f32; 4] {
    g.at(t).to_array()
}

/// The segments as a file: a float is printed so that the Rust reads the same one back.
fn segments_text(ramp: &Ramp) -> String {
    let n = ramp.codes.len() / 2;
    let mut text = format!("GIMP Gradient\nName: x\n{n}\n");
    for i in 0..n {
        let numbers = ramp.positions[3 * i..3 * i + 3].iter().chain(&ramp.channels[8 * i..8 * i + 8]);
        for x in numbers {
            text += &format!("{x} ");
        }
        text += &format!("{} {}\n", ramp.codes[2 * i], ramp.codes[2 * i + 1]);
    }
    text
}

fn colours(channels: &[f32]) -> Vec<Color> {
    channels.chunks_exact(4).map(|c| Color::new(c[0], c[1], c[2], c[3])).collect()
}

pub fn sharp(channels: &[f32], domain: (f32, f32), softness: f32) -> Boxed {
    Box::new(door::sharp_built(&colours(channels), domain, softness))
}

pub fn sharp_stops(channels: &[f32], domain: (f32, f32), softness: f32) -> Vec<(f32, [f32; 4])> {
    door::sharp_stops(&door::sharp_built(&colours(channels), domain, softness)).to_vec()
}
