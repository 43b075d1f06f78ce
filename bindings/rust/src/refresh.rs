//! Edits of ramps of stops, and their records kept true.

use crate::{BasisGradient, CatmullRomGradient, LinearGradient, SmoothstepGradient};
use crate::{Color, Edit, Gradient, List, Record, Refusal};

/// Ramps whose record can be kept true after an edit: linear, smoothstep, basis and Catmull-Rom ones.
///
/// The record is the caller's own affair: one of another ramp on the same domain is refreshed without a word, and is then
/// wrong. A [`Sheet`](crate::Sheet) holds both, and is the way to edit.
///
/// ```
/// use guineaplume::{Color, Gradient, LinearGradient, Refresh, Refusal};
///
/// let gray = |x: f32| Color::new(x, x, x, 1.0);
/// let mut ramp = LinearGradient::new(&[0.0, 0.5, 0.75, 1.0], &[0.0, 0.8, 0.2, 1.0].map(gray))?;
/// let mut record = ramp.sample(0.007)?;
/// let list = ramp.refresh_list(1, gray(0.3), &mut record)?;
///
/// // the ramp has the new colour, and its record and list are the ones made afresh
/// let (fresh, whole) = ramp.flatten(0.007)?;
/// assert_eq!(ramp.at(0.5), gray(0.3));
/// assert_eq!(record, fresh);
/// assert!(list.stops().eq(whole.stops()));
/// assert!(list.evaluations() < whole.evaluations());
/// # Ok::<(), Refusal>(())
/// ```
pub trait Refresh: Gradient {
    /// Gives a stop, counted from 0, another colour, and redoes those cells of the ramp's record that the edit touches: the
    /// evaluations. The threshold is the record's own.
    ///
    /// # Errors
    /// 20 as [`thin`](Gradient::thin), 6 where there is no such stop or the colour is not finite, or 4: then neither the ramp
    /// nor the record is changed.
    fn refresh(&mut self, stop: usize, color: Color, record: &mut Record) -> Result<usize, Refusal>;

    /// The same, and the list of the changed ramp; its evaluations are those of both.
    ///
    /// # Errors
    /// As [`refresh`](Refresh::refresh); and 8 or 9: then the ramp and the record are changed, and there is no list.
    fn refresh_list(&mut self, stop: usize, color: Color, record: &mut Record) -> Result<List, Refusal>;

    /// Makes an edit of any sort, and redoes those cells of the ramp's record that it touches: the evaluations.
    ///
    /// # Errors
    /// As [`refresh`](Refresh::refresh). Of a stop moved, added or removed also 6 where the ramp is neither linear nor
    /// smoothstep, where the stop is the first, the last or none, or where a number is not finite; then 1 where there would
    /// be more than 2,048 stops; then 3 where the position lies before the stop before or past the one after. Neither the
    /// ramp nor the record is changed.
    ///
    /// ```
    /// use guineaplume::{Color, Edit, Gradient, LinearGradient, Refresh, Refusal};
    ///
    /// let gray = |x: f32| Color::new(x, x, x, 1.0);
    /// let mut ramp = LinearGradient::new(&[0.0, 0.5, 1.0], &[0.0, 0.8, 1.0].map(gray))?;
    /// let mut record = ramp.sample(0.007)?;
    /// ramp.edit(Edit::Move { stop: 1, position: 0.25 }, &mut record)?;
    /// ramp.edit(Edit::Add { stop: 2, position: 0.75, color: gray(0.1) }, &mut record)?;
    /// assert_eq!(ramp.as_slices().positions, [0.0, 0.25, 0.75, 1.0]);
    /// assert_eq!(record, ramp.sample(0.007)?);
    /// assert_eq!(ramp.edit(Edit::Move { stop: 1, position: 0.8 }, &mut record), Err(Refusal::Falling));
    /// # Ok::<(), Refusal>(())
    /// ```
    fn edit(&mut self, edit: Edit, record: &mut Record) -> Result<usize, Refusal>;

    /// The same, and the list of the changed ramp, as [`refresh_list`](Refresh::refresh_list).
    ///
    /// # Errors
    /// As [`edit`](Refresh::edit), and 8 or 9 as there.
    fn edit_list(&mut self, edit: Edit, record: &mut Record) -> Result<List, Refusal>;
}

/// What a refresh needs of a ramp of stops.
macro_rules! refreshed {
    ($name:ident) => {
        impl Refresh for $name {
            fn refresh(&mut self, stop: usize, color: Color, record: &mut Record) -> Result<usize, Refusal> {
                self.edit(Edit::Color { stop, color }, record)
            }

            fn refresh_list(&mut self, stop: usize, color: Color, record: &mut Record) -> Result<List, Refusal> {
                self.edit_list(Edit::Color { stop, color }, record)
            }

            fn edit(&mut self, edit: Edit, record: &mut Record) -> Result<usize, Refusal> {
                let evaluations = self.as_slices().refresh(edit, record.threshold(), record.as_slices_mut())?;
                edit.make(&mut self.0.positions, &mut self.0.channels);
                record.evaluations = evaluations;
                Ok(evaluations)
            }

            fn edit_list(&mut self, edit: Edit, record: &mut Record) -> Result<List, Refusal> {
                let refreshed = self.edit(edit, record)?;
                self.thin(record).map(|list| list.after(refreshed))
            }
        }
    };
}

refreshed!(LinearGradient);
refreshed!(SmoothstepGradient);
refreshed!(BasisGradient);
refreshed!(CatmullRomGradient);
