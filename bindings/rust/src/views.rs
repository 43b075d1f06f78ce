//! A ramp's colours, one by one: repeated, reflected, evenly spaced, seen from the other end. The rules of t are
//! colorgrad's, operation by operation.

use alloc::vec;
use alloc::vec::Vec;
use core::iter::FusedIterator;
use core::ops::Range;

use crate::color::unflat;
use crate::slices::{Kind, Ramp, MOST_STOPS};
use crate::{Color, Refusal, SharpGradient};

/// What passed its check is not refused.
pub(crate) fn taken<T>(answer: Result<T, Refusal>) -> T {
    match answer {
        Ok(value) => value,
        Err(refusal) => unreachable!("a ramp that passed its check: {refusal}"),
    }
}

/// A list may have more stops than a ramp.
fn is_long(ramp: Ramp<'_>) -> bool {
    ramp.kind == Kind::Linear && ramp.positions.len() > MOST_STOPS
}

/// The part of a long list that t lies in, as many stops as a ramp may have: the colour there is that of the whole. From the
/// stop before t on, so that t lies past the first of them, and at the last one only where that is the list's own.
fn around(ramp: Ramp<'_>, t: f32) -> Ramp<'_> {
    let before = ramp.positions.partition_point(|position| *position < t).saturating_sub(1);
    let from = before.min(ramp.positions.len() - MOST_STOPS);
    let to = from + MOST_STOPS;
    Ramp { positions: &ramp.positions[from..to], channels: &ramp.channels[4 * from..4 * to], ..ramp }
}

pub(crate) fn at(ramp: Ramp<'_>, t: f32) -> Color {
    let part = if is_long(ramp) { around(ramp, t) } else { ramp };
    taken(part.at(t))
}

pub(crate) fn domain(ramp: Ramp<'_>) -> (f32, f32) {
    match ramp.positions {
        [first, .., last] if is_long(ramp) => (*first, *last),
        _ => taken(ramp.domain()),
    }
}

pub(crate) fn colors_at(ramp: Ramp<'_>, ts: &[f32]) -> Vec<Color> {
    if is_long(ramp) {
        return ts.iter().map(|t| at(ramp, *t)).collect();
    }
    let mut channels = vec![0.0; 4 * ts.len()];
    taken(ramp.paint(ts, &mut channels));
    unflat(&channels).collect()
}

/// t, where the domain runs from 0 to 1.
fn share((min, max): (f32, f32), t: f32) -> f32 {
    (t - min) * (1.0 / (max - min))
}

/// What is left of x above whole turns, of negative x too.
fn remainder(x: f32, turn: f32) -> f32 {
    (x % turn + turn) % turn
}

pub(crate) fn repeated((min, max): (f32, f32), t: f32) -> f32 {
    min + remainder(share((min, max), t), 1.0) * (max - min)
}

pub(crate) fn reflected((min, max): (f32, f32), t: f32) -> f32 {
    let share = remainder(1.0 + share((min, max), t), 2.0) - 1.0;
    let size = if share < 0.0 { -share } else { share };
    min + size * (max - min)
}

fn inverted((min, max): (f32, f32), t: f32) -> f32 {
    max - t + min
}

/// How many colours bands are made of: of fewer than two, the first colour, twice.
pub(crate) fn bands(n: u16) -> usize {
    usize::from(n.max(1))
}

pub(crate) fn sharp(colors: GradientColors<'_>, domain: (f32, f32), softness: f32) -> Result<SharpGradient, Refusal> {
    let mut colors: Vec<Color> = colors.collect();
    if let [only] = colors[..] {
        colors.push(only);
    }
    SharpGradient::build(&colors, domain, softness)
}

/// So many colours of a ramp, evenly spaced over its domain ([`Gradient::colors`](crate::Gradient::colors)).
///
/// ```
/// use guineaplume::{Color, Gradient, LinearGradient, Refusal};
///
/// let ramp = LinearGradient::new(&[0.0, 1.0], &[Color::new(0., 0., 0., 1.), Color::new(1., 1., 1., 1.)])?;
/// let reds: Vec<f32> = ramp.colors(5).map(|color| color.r).collect();
/// assert_eq!(reds, [0.0, 0.25, 0.5, 0.75, 1.0]);
/// assert_eq!(ramp.colors(5).rev().next(), Some(ramp.at(1.0)));
/// # Ok::<(), Refusal>(())
/// ```
#[derive(Clone, Debug)]
#[must_use = "colours are worked out as they are taken"]
pub struct GradientColors<'a> {
    ramp: Ramp<'a>,
    domain: (f32, f32),
    is_inverse: bool,
    /// How many steps there are from the first to the last.
    steps: usize,
    left: Range<usize>,
}

impl<'a> GradientColors<'a> {
    pub(crate) fn new(ramp: Ramp<'a>, n: usize) -> GradientColors<'a> {
        let steps = n.saturating_sub(1);
        GradientColors { ramp, domain: domain(ramp), is_inverse: false, steps, left: 0..n }
    }

    #[allow(clippy::cast_precision_loss)]
    fn color(&self, i: usize) -> Color {
        let (min, max) = self.domain;
        let t = if self.steps == 0 { min } else { min + (i as f32 * (max - min)) / self.steps as f32 };
        at(self.ramp, if self.is_inverse { inverted(self.domain, t) } else { t })
    }
}

impl Iterator for GradientColors<'_> {
    type Item = Color;

    fn next(&mut self) -> Option<Color> {
        self.left.next().map(|i| self.color(i))
    }

    fn size_hint(&self) -> (usize, Option<usize>) {
        self.left.size_hint()
    }

    fn nth(&mut self, n: usize) -> Option<Color> {
        self.left.nth(n).map(|i| self.color(i))
    }
}

impl DoubleEndedIterator for GradientColors<'_> {
    fn next_back(&mut self) -> Option<Color> {
        self.left.next_back().map(|i| self.color(i))
    }
}

impl ExactSizeIterator for GradientColors<'_> {}

impl FusedIterator for GradientColors<'_> {}

/// A ramp seen from its other end: the colour at t is the ramp's at max - t + min.
///
/// ```
/// use guineaplume::{Color, Gradient, LinearGradient, Refusal};
///
/// let ramp = LinearGradient::new(&[0.0, 1.0], &[Color::new(0., 0., 0., 1.), Color::new(1., 1., 1., 1.)])?;
/// assert_eq!(ramp.inverse().at(0.25), ramp.at(0.75));
/// assert!(ramp.inverse().colors(5).eq(ramp.colors(5).rev()));
/// # Ok::<(), Refusal>(())
/// ```
#[derive(Clone, Copy, Debug)]
#[must_use = "it is a view, and the ramp stays as it is"]
pub struct InverseGradient<'a>(Ramp<'a>);

impl<'a> InverseGradient<'a> {
    pub(crate) fn new(ramp: Ramp<'a>) -> InverseGradient<'a> {
        InverseGradient(ramp)
    }

    /// The ramp's own first and last position.
    #[must_use]
    pub fn domain(&self) -> (f32, f32) {
        domain(self.0)
    }

    /// The colour at t.
    #[must_use]
    pub fn at(&self, t: f32) -> Color {
        at(self.0, inverted(self.domain(), t))
    }

    /// The colour at t where the view is repeated to both sides.
    #[must_use]
    pub fn repeat_at(&self, t: f32) -> Color {
        self.at(repeated(self.domain(), t))
    }

    /// The colour at t where the view is repeated to both sides, every second time from its end to its start.
    #[must_use]
    pub fn reflect_at(&self, t: f32) -> Color {
        self.at(reflected(self.domain(), t))
    }

    /// The colours at many points.
    #[must_use]
    pub fn colors_at(&self, ts: &[f32]) -> Vec<Color> {
        let domain = self.domain();
        let ts: Vec<f32> = ts.iter().map(|t| inverted(domain, *t)).collect();
        colors_at(self.0, &ts)
    }

    /// So many colours, evenly spaced, as [`Gradient::colors`](crate::Gradient::colors).
    pub fn colors(&self, n: usize) -> GradientColors<'a> {
        GradientColors { is_inverse: true, ..GradientColors::new(self.0, n) }
    }

    /// The view in n flat bands, as [`Gradient::sharp`](crate::Gradient::sharp).
    ///
    /// # Errors
    /// As there.
    pub fn sharp(&self, n: u16, softness: f32) -> Result<SharpGradient, Refusal> {
        sharp(self.colors(bands(n)), self.domain(), softness)
    }
}
