//! Linear ramps whose flattening cannot be refused.

use crate::color::Color;
use crate::views::taken;
use crate::{Gradient, LinearGradient, List, Record};

/// A linear ramp that runs from exactly 0 to exactly 1 and has all its channels within 0 to 1. It is proved that such a ramp
/// is never refused, so that there is no `Result` here: the list has 2 to 4,609 stops, whose positions never fall and whose
/// channels lie within 0 to 1.
///
/// ```
/// use guineaplume::{Color, LinearGradient, Ordinary, Refusal};
///
/// let gray = |x: f32| Color::new(x, x, x, 1.0);
/// let ramp = LinearGradient::new(&[0.0, 0.25, 1.0], &[0.0, 0.75, 1.0].map(gray))?;
/// let ordinary = Ordinary::of(&ramp).expect("0 to 1, and so are its channels");
/// assert_eq!(ordinary.linearize(0.007).positions(), [0.0, 0.25, 1.0]);
///
/// let glaring = LinearGradient::new(&[0.0, 1.0], &[0.0, 1.5].map(gray))?;
/// assert!(Ordinary::of(&glaring).is_none());
/// # Ok::<(), Refusal>(())
/// ```
#[derive(Clone, Copy, PartialEq, Debug)]
pub struct Ordinary<'a>(&'a LinearGradient);

impl<'a> Ordinary<'a> {
    /// The ramp, where it is ordinary. -0 is 0.
    #[must_use]
    pub fn of(ramp: &'a LinearGradient) -> Option<Ordinary<'a>> {
        let within = |(_, color): (f32, Color)| color.to_array().iter().all(|c| (0.0..=1.0).contains(c));
        let ends = (ramp.positions().first(), ramp.positions().last());
        (ends == (Some(&0.0), Some(&1.0)) && ramp.stops().all(within)).then_some(Ordinary(ramp))
    }

    /// [`Gradient::linearize`], which cannot be refused.
    #[must_use]
    pub fn linearize(&self, threshold: f32) -> List {
        taken(self.0.linearize(threshold))
    }

    /// [`Gradient::flatten`], which cannot be refused.
    #[must_use]
    pub fn flatten(&self, threshold: f32) -> (Record, List) {
        taken(self.0.flatten(threshold))
    }
}
