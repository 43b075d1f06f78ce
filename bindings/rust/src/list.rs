//! Lists of stops that stand for a ramp.

use alloc::string::String;
use alloc::vec;
use alloc::vec::Vec;
use core::fmt;

use crate::color::{flat, flat_mut};
use crate::sealed::is_gradient;
use crate::slices::{self, Kind, MOST_POINTS, MOST_WRITTEN};
use crate::{Apart, Color, Gradient, LinearGradient, Refusal};

/// Stops that stand for a ramp when they are mixed linearly: a ramp itself, whose colours can be asked.
///
/// ```
/// use guineaplume::{Color, Gradient, LinearGradient, Refusal, DEFAULT_THRESHOLD};
///
/// let colors = [Color::new(0.0, 0.0, 0.0, 1.0), Color::new(1.0, 1.0, 1.0, 1.0)];
/// let list = LinearGradient::new(&[0.0, 1.0], &colors)?.linearize(DEFAULT_THRESHOLD)?;
/// assert_eq!(list.positions(), [0.0, 1.0]);
/// assert_eq!(list.evaluations(), 215);
/// # Ok::<(), Refusal>(())
/// ```
pub struct List {
    /// As many as there are stops, and room past them where a sheet holds the list.
    positions: Vec<f32>,
    colors: Vec<Color>,
    stops: usize,
    evaluations: usize,
}

/// Of what it shows, without the room.
impl Clone for List {
    fn clone(&self) -> List {
        let List { stops, evaluations, .. } = *self;
        List { positions: self.positions().to_vec(), colors: self.colors().to_vec(), stops, evaluations }
    }
}

impl PartialEq for List {
    fn eq(&self, other: &List) -> bool {
        let shown = |list: &List| (list.evaluations, list.stops);
        shown(self) == shown(other) && self.stops().eq(other.stops())
    }
}

// the room is not shown
#[allow(clippy::missing_fields_in_debug)]
impl fmt::Debug for List {
    fn fmt(&self, f: &mut fmt::Formatter<'_>) -> fmt::Result {
        let (positions, colors) = (self.positions(), self.colors());
        let mut list = f.debug_struct("List");
        list.field("positions", &positions).field("colors", &colors).field("evaluations", &self.evaluations).finish()
    }
}

impl List {
    /// The list that a call writes into room for every list there is.
    pub(crate) fn made(
        call: impl FnOnce(slices::StopsMut<'_>) -> Result<slices::Listed, Refusal>,
    ) -> Result<List, Refusal> {
        let mut list = List::empty();
        let listed = call(list.room())?;
        list.keep(listed);
        Ok(list.without_room())
    }

    /// A list to be filled.
    pub(crate) fn empty() -> List {
        List { positions: Vec::new(), colors: Vec::new(), stops: 0, evaluations: 0 }
    }

    /// Its stops, with room for every list there is; it is made once.
    pub(crate) fn room(&mut self) -> slices::StopsMut<'_> {
        self.positions.resize(MOST_POINTS, 0.0);
        self.colors.resize(MOST_POINTS, Color::default());
        slices::StopsMut { positions: &mut self.positions, channels: flat_mut(&mut self.colors) }
    }

    /// What a call told of that room.
    pub(crate) fn keep(&mut self, listed: slices::Listed) {
        self.stops = listed.stops;
        self.evaluations = listed.evaluations;
    }

    pub(crate) fn without_room(mut self) -> List {
        self.positions.truncate(self.stops);
        self.positions.shrink_to_fit();
        self.colors.truncate(self.stops);
        self.colors.shrink_to_fit();
        self
    }

    /// The same list, with the evaluations of the call before it added.
    pub(crate) fn after(self, evaluations: usize) -> List {
        List { evaluations: evaluations + self.evaluations, ..self }
    }

    /// How many stops it has.
    #[must_use]
    pub fn len(&self) -> usize {
        self.stops
    }

    /// Whether it has none; a list always has its first.
    #[must_use]
    pub fn is_empty(&self) -> bool {
        self.stops == 0
    }

    /// The position of each stop.
    #[must_use]
    pub fn positions(&self) -> &[f32] {
        &self.positions[..self.stops]
    }

    /// The colour of each stop.
    #[must_use]
    pub fn colors(&self) -> &[Color] {
        &self.colors[..self.stops]
    }

    /// Each stop with its colour.
    #[must_use]
    pub fn stops(&self) -> impl ExactSizeIterator<Item = (f32, Color)> + '_ {
        self.positions().iter().copied().zip(self.colors().iter().copied())
    }

    /// How many colours the call that made it asked for.
    #[must_use]
    pub fn evaluations(&self) -> usize {
        self.evaluations
    }

    /// The list as the text of a GIMP gradient, named `flattened`: linear RGB segments, 9 significant digits. Reading it
    /// gives the segments back, bit for bit. A channel of a basis ramp's list may be 1.00000012: it is written so, and
    /// Inkscape refuses to read it.
    ///
    /// # Errors
    /// 1 where it has more than 257 stops; 19 where it does not run from 0 to 1 or a number other than zero, a half-way point
    /// too, has a magnitude below 1e-6 or above 1e6: so a list of a smooth ramp, whose channel came out as 3e-8, is refused,
    /// and one in metres must be taken to 0..1 first.
    ///
    /// ```
    /// use guineaplume::{Color, GimpGradient, Gradient, LinearGradient};
    /// use std::fmt::Write;
    ///
    /// let colors = [Color::new(0.0, 0.0, 0.0, 1.0), Color::new(1.0, 1.0, 1.0, 1.0)];
    /// let list = LinearGradient::new(&[0.0, 1.0], &colors)?.linearize(0.007)?;
    /// let mut file = String::new();
    /// write!(file, "{}", list.to_ggr()?)?;
    /// assert!(file.starts_with("GIMP Gradient\nName: flattened\n1\n0 0.500000000 1.00000000 0 0 0 1.00000000 "));
    /// let read = GimpGradient::new(file.as_bytes(), &colors[0], &colors[1])?;
    /// assert_eq!((read.name(), read.at(0.25)), ("flattened", Color::new(0.25, 0.25, 0.25, 1.0)));
    /// # Ok::<(), Box<dyn std::error::Error>>(())
    /// ```
    pub fn to_ggr(&self) -> Result<String, Refusal> {
        let mut text = vec![0; slices::written_bytes(self.stops.min(MOST_WRITTEN))];
        let bytes = slices::write_ggr(self.positions(), flat(self.colors()), &mut text)?;
        text.truncate(bytes);
        // what is written is ASCII
        Ok(text.into_iter().map(char::from).collect())
    }

    /// Which depths of a ramp became one in this list, as [`Gradient::apart`].
    ///
    /// # Errors
    /// As there.
    pub fn apart(
        &self,
        ramp: &(impl Gradient + ?Sized),
        threshold: f32,
        step: f32,
        depths: &[f32],
    ) -> Result<Apart, Refusal> {
        ramp.apart(threshold, step, depths, self.positions(), self.colors())
    }

    /// The list as a ramp of its own.
    ///
    /// # Errors
    /// 1 where it has more than 2,048 stops.
    pub fn gradient(&self) -> Result<LinearGradient, Refusal> {
        LinearGradient::new(self.positions(), self.colors())
    }
}

/// A list of more than 2,048 stops has colours as any other, and is refused with 1 by what makes lists of it.
fn as_slices(list: &List) -> slices::Ramp<'_> {
    slices::Ramp { kind: Kind::Linear, positions: list.positions(), channels: flat(list.colors()), codes: &[] }
}

is_gradient!(List, list => as_slices(list));
