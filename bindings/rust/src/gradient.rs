//! What every ramp can be asked.

use alloc::boxed::Box;
use alloc::vec;
use alloc::vec::Vec;

use crate::color::flat;
use crate::sealed::Sealed;
use crate::slices;
use crate::views::{self, GradientColors, InverseGradient};
use crate::{Apart, Color, List, Record, Refusal, SharpGradient, Stops, Verdict};

/// What every ramp can be asked.
///
/// The types of this crate have it, references to them and boxes of them, and no others: a ramp is stops or segments that
/// passed the library's check.
///
/// ```
/// use guineaplume::{BasisGradient, Color, Gradient, LinearGradient, Refusal};
///
/// let colors = ["#08306b", "#2171b5", "#f7fbff"].map(|hex| hex.parse().expect("a colour"));
/// let ramps: Vec<Box<dyn Gradient>> = vec![
///     LinearGradient::new(&[0.0, 0.5, 1.0], &colors)?.boxed(),
///     BasisGradient::new(&[0.0, 0.5, 1.0], &colors)?.boxed(),
/// ];
/// for ramp in &ramps {
///     let legend: Vec<String> = ramp.colors(3).map(|color| color.to_css_hex().to_string()).collect();
///     assert_eq!((&legend[0][..], &legend[2][..]), ("#08306b", "#f7fbff"));
/// }
/// # Ok::<(), Refusal>(())
/// ```
///
/// A type of one's own cannot have it:
///
/// ```compile_fail,E0277
/// struct Mine;
/// impl guineaplume::Gradient for Mine {
///     fn as_slices(&self) -> guineaplume::slices::Ramp<'_> {
///         unimplemented!()
///     }
/// }
/// ```
pub trait Gradient: Sealed {
    /// The ramp as slices, for the calls of [`slices`](crate::slices).
    fn as_slices(&self) -> slices::Ramp<'_>;

    /// The ramp as slices.
    #[deprecated(since = "0.2.0", note = "use `as_slices`")]
    fn lent(&self) -> slices::Ramp<'_> {
        self.as_slices()
    }

    /// The colour at t; (0, 0, 0, 1) at not-a-number, and outside a GIMP ramp's domain.
    ///
    /// The ramp is checked each time; [`colors_at`](Gradient::colors_at) checks it once for many points.
    #[must_use]
    fn at(&self, t: f32) -> Color {
        views::at(self.as_slices(), t)
    }

    /// The colour at t where the ramp is repeated to both sides: t is taken into the domain by whole widths of it.
    ///
    /// ```
    /// use guineaplume::{Gradient, LinearGradient, Refusal};
    ///
    /// let ramp = LinearGradient::from_rgba_data([(0.0, [0.0, 0.0, 0.0, 1.0]), (4.0, [1.0, 1.0, 1.0, 1.0])])?;
    /// assert_eq!(ramp.repeat_at(5.0), ramp.at(1.0));
    /// assert_eq!(ramp.reflect_at(5.0), ramp.at(3.0));
    /// # Ok::<(), Refusal>(())
    /// ```
    #[must_use]
    fn repeat_at(&self, t: f32) -> Color {
        self.at(views::repeated(self.domain(), t))
    }

    /// The colour at t where the ramp is repeated to both sides, every second time from its end to its start.
    #[must_use]
    fn reflect_at(&self, t: f32) -> Color {
        self.at(views::reflected(self.domain(), t))
    }

    /// The first and the last position; (0, 1) for GIMP gradients.
    #[must_use]
    fn domain(&self) -> (f32, f32) {
        views::domain(self.as_slices())
    }

    /// The colours at many points.
    #[must_use]
    fn colors_at(&self, ts: &[f32]) -> Vec<Color> {
        views::colors_at(self.as_slices(), ts)
    }

    /// So many colours, evenly spaced over the domain, its ends among them; the first alone where one is asked for. They are
    /// worked out as they are taken, from either end. An example is at [`GradientColors`].
    fn colors(&self, n: usize) -> GradientColors<'_> {
        GradientColors::new(self.as_slices(), n)
    }

    /// The ramp in n flat bands: n colours of it, evenly spaced, as [`SharpGradient::build`] makes them. Of 0 and of 1 it is
    /// two bands of the first colour.
    ///
    /// # Errors
    /// 17 where n is above 256 or the domain cannot be parted so, 2 where a colour is not finite.
    ///
    /// ```
    /// use guineaplume::{Color, Gradient, LinearGradient, Refusal};
    ///
    /// let ramp = LinearGradient::new(&[0.0, 1.0], &[Color::new(0., 0., 0., 1.), Color::new(1., 1., 1., 1.)])?;
    /// let bands = ramp.sharp(5, 0.0)?;
    /// assert_eq!((bands.at(0.1), bands.at(0.3)), (ramp.at(0.0), ramp.at(0.25)));
    /// # Ok::<(), Refusal>(())
    /// ```
    fn sharp(&self, n: u16, softness: f32) -> Result<SharpGradient, Refusal> {
        views::sharp(self.colors(views::bands(n)), self.domain(), softness)
    }

    /// The ramp seen from its other end. A view has colours and no stops, so that it is no `Gradient`: what is to be flattened
    /// is a ramp of the stops the other way round.
    fn inverse(&self) -> InverseGradient<'_> {
        InverseGradient::new(self.as_slices())
    }

    /// The ramp in a box, to stand with ramps of other types.
    fn boxed<'a>(self) -> Box<dyn Gradient + 'a>
    where
        Self: Sized + 'a,
    {
        Box::new(self)
    }

    /// The ramp as a list of stops to be mixed linearly. A point is kept where its colour differs from the mix around it by
    /// more than the threshold. An example is at [`List`].
    ///
    /// A band of colour that is narrower than half a cell, a 72nd of the domain, can lie between the points that are looked
    /// at: the list does not show it, whatever the threshold. [`flatten_within`](Gradient::flatten_within) makes one that does.
    ///
    /// # Errors
    /// 4 where the domain reaches beyond 1e38; 8 where a colour overflows: never, on a domain within 1e38, for a linear ramp
    /// with channels below 2^127 in size, or a smoothstep or sharp one with channels up to a sixth of `f32::MAX`.
    /// [`Ordinary`](crate::Ordinary) has this call without a `Result`. 1 of a [`List`] with more than 2,048 stops, here and
    /// below.
    fn linearize(&self, threshold: f32) -> Result<List, Refusal> {
        self.flatten(threshold).map(|(_, list)| list)
    }

    /// The same, with the record that it was made of, which a later refresh needs. To edit, open a [`Sheet`](crate::Sheet).
    ///
    /// # Errors
    /// As [`linearize`](Gradient::linearize).
    fn flatten(&self, threshold: f32) -> Result<(Record, List), Refusal> {
        Record::made(|record, out| self.as_slices().flatten(threshold, record, out))
    }

    /// The sample record alone.
    ///
    /// # Errors
    /// 4 where the domain reaches beyond 1e38.
    fn sample(&self, threshold: f32) -> Result<Record, Refusal> {
        let mut record = Record::empty();
        record.evaluations = self.as_slices().sample(threshold, record.as_slices_mut())?;
        Ok(record)
    }

    /// The list of a record, at the record's threshold. The record of another ramp on the same domain is taken, and the list
    /// is then wrong.
    ///
    /// # Errors
    /// 4, 8; 20 where the record is of a ramp on another domain, or its first word is no threshold in force (see
    /// [`Record::from_parts`]); 9 where it is of another ramp and falls.
    fn thin(&self, record: &Record) -> Result<List, Refusal> {
        List::made(|out| self.as_slices().thin(record.threshold(), record.as_slices(), out))
    }

    /// The same stops one at a time, with room for none of them: a list's stops, or those before a faulty one and its refusal.
    /// An example is at [`Stops`].
    fn stops_of<'a>(&'a self, record: &'a Record) -> Stops<'a> {
        Stops::new(self.as_slices(), record.threshold(), record.as_slices())
    }

    /// A list that keeps its word, and the record that it was made of. At the ramp's own positions, and at the f32 on both
    /// sides of each, it is within the hold of the ramp; at every point of the record within the threshold, so that
    /// [`judge`](Gradient::judge) says yes to it. The hold is taken into 0.001 to the threshold in force, and is 0.001 where it
    /// is not finite.
    ///
    /// # Errors
    /// 4; 7 where it would have more than 4,609 stops; 8; 21 for colours beyond 16,382 alone.
    ///
    /// ```
    /// use guineaplume::{Color, Gradient, LinearGradient, Refusal, Verdict};
    ///
    /// // a thin red band, which thinning passes over
    /// let (gray, red) = (|x: f32| Color::new(x, x, x, 1.0), Color::new(1.0, 0.0, 0.0, 1.0));
    /// let positions = [0.0, 0.389, 0.3891, 0.4026, 0.4027, 1.0];
    /// let ramp = LinearGradient::new(&positions, &[gray(0.0), gray(0.389), red, red, gray(0.4027), gray(1.0)])?;
    /// assert_eq!(ramp.linearize(0.007)?.len(), 2);
    ///
    /// let (_, list) = ramp.flatten_within(0.007, 0.001)?;
    /// assert!(list.stops().eq(ramp.stops()));
    /// assert_eq!(ramp.judge(0.007, list.positions(), list.colors())?, Verdict::Yes);
    /// # Ok::<(), Refusal>(())
    /// ```
    fn flatten_within(&self, threshold: f32, hold: f32) -> Result<(Record, List), Refusal> {
        Record::made(|record, out| self.as_slices().flatten_within(threshold, hold, record, out))
    }

    /// The list of a record that keeps its word, at the record's threshold. At the ramp's own positions it is within the hold
    /// of the ramp whatever record it is made of.
    ///
    /// # Errors
    /// As [`flatten_within`](Gradient::flatten_within), and 20 as [`thin`](Gradient::thin).
    fn thin_within(&self, record: &Record, hold: f32) -> Result<List, Refusal> {
        List::made(|out| self.as_slices().thin_within(record.threshold(), hold, record.as_slices(), out))
    }

    /// What is to be said of a list of stops that was made elsewhere: whether it shows the ramp within the threshold, and
    /// what is wrong if not. Examples are at [`Verdict`].
    ///
    /// # Errors
    /// 4 where the domain reaches beyond 1e38.
    fn judge(&self, threshold: f32, positions: &[f32], colors: &[Color]) -> Result<Verdict, Refusal> {
        self.as_slices().judge(threshold, positions, flat(colors))
    }

    /// Which depths became one in a list of stops, whoever made it. At each depth the list's colour is held against the ramp's
    /// by the threshold, and both are asked whether they tell it from the depth before: whether the two colours differ by more
    /// than the step. An example is at [`Apart`].
    ///
    /// # Errors
    /// 4; 22 where the list is none that [`judge`](Gradient::judge) would ask for colours; 23 where there are no depths, or one
    /// is not finite, outside the domain, or below the one before; 24 where the step is not finite or below 0.
    fn apart(
        &self,
        threshold: f32,
        step: f32,
        depths: &[f32],
        positions: &[f32],
        colors: &[Color],
    ) -> Result<Apart, Refusal> {
        let mut faults = vec![0; depths.len()];
        let told = self.as_slices().apart(threshold, step, depths, positions, flat(colors), &mut faults)?;
        Ok(Apart::told(told, depths, &faults))
    }
}
