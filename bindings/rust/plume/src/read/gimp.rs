//! GIMP gradients, read by the library.

use super::{hues, File, Source};
use crate::fault::{Answer, Fault};
use crate::ramp::Ramp;
use guineaplume::{Color, GimpGradient, Gradient};

/// What a segment names in place of a colour of its own is GIMP's own first choice: black before white.
const FOREGROUND: Color = Color::new(0.0, 0.0, 0.0, 1.0);
const BACKGROUND: Color = Color::new(1.0, 1.0, 1.0, 1.0);

pub fn read(file: &File) -> Answer<Source> {
    let gradient = GimpGradient::new(file.text, &FOREGROUND, &BACKGROUND);
    let gradient = gradient.map_err(|error| Fault::gimp(file.file, error))?;
    let notes = hues::notes(file, gradient.as_slices());
    Ok(Source { notes, ..file.gives(Ramp::Gimp(gradient)) })
}
