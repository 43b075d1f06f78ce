//! A ramp, its record and its list, which move together.

use crate::slices::{self, Listed};
use crate::{Apart, Edit, Gradient, List, ListSort, Record, Refusal, Verdict};

/// A ramp, its record and its list, which stay of one ramp through any number of edits: the way to edit.
///
/// A [`Record`] by itself is its owner's affair. One of another ramp on the same domain is taken, and what is made of it is
/// wrong without a word. A sheet holds all three, and an edit changes all three. It is proved of the calls that it stands on,
/// for any edits one after the other, refused ones among them: the ramp is what those that were not refused make of the first,
/// the record is what a sampling of it gives, and the list what a flattening of it gives.
///
/// ```
/// use guineaplume::{Color, Edit, Gradient, LinearGradient, ListSort, Refusal, Sheet, DEFAULT_THRESHOLD};
///
/// let gray = |x: f32| Color::new(x, x, x, 1.0);
/// let ramp = LinearGradient::new(&[0.0, 0.5, 1.0], &[0.0, 0.8, 1.0].map(gray))?;
/// let mut sheet = Sheet::open(ramp.clone(), DEFAULT_THRESHOLD, ListSort::Within(0.001))?;
///
/// let back = sheet.edit(Edit::Move { stop: 1, position: 0.25 })?;
/// assert_eq!(sheet.list()?.positions(), [0.0, 0.25, 1.0]);
/// assert_eq!(sheet.edit(Edit::Move { stop: 1, position: 7.0 }), Err(Refusal::Falling));
/// assert_eq!(sheet.ramp().positions(), [0.0, 0.25, 1.0]);
///
/// // undone: all is as it was
/// sheet.edit(back)?;
/// let (same, record, list) = sheet.into_parts();
/// assert_eq!((same, record), (ramp.clone(), ramp.sample(DEFAULT_THRESHOLD)?));
/// assert_eq!(list?.positions(), ramp.positions());
/// # Ok::<(), Refusal>(())
/// ```
#[derive(Clone, Debug)]
pub struct Sheet<G> {
    ramp: G,
    record: Record,
    sort: ListSort,
    list: List,
    /// Why there is no list.
    refused: Option<Refusal>,
}

impl<G: Gradient> Sheet<G> {
    /// A sheet of a ramp. Where its list is refused (7, 8, 21), [`list`](Sheet::list) says so, and an edit can mend it.
    ///
    /// # Errors
    /// 4 where the domain reaches beyond 1e38; 1 of a [`List`] with more than 2,048 stops.
    pub fn open(ramp: G, threshold: f32, sort: ListSort) -> Result<Sheet<G>, Refusal> {
        let (mut record, mut list) = (Record::empty(), List::empty());
        let opened = ramp.as_slices().open_sheet(threshold, sort, record.as_slices_mut(), list.room())?;
        let mut sheet = Sheet { ramp, record, sort, list, refused: None };
        sheet.keep(opened.list);
        Ok(sheet)
    }

    /// Makes an edit in the ramp, refreshes the record, makes the list anew, and hands out the edit that undoes this one.
    /// Where the list is refused (7, 8, 21) the edit is made all the same, and [`list`](Sheet::list) says so.
    ///
    /// # Errors
    /// As [`Refresh::edit`](crate::Refresh::edit), with nothing changed. 6 also of a ramp that has no edits: a sharp one, a
    /// GIMP one, a list, and any that is only borrowed.
    pub fn edit(&mut self, edit: Edit) -> Result<Edit, Refusal> {
        let kind = self.ramp.as_slices().kind;
        let back = edit.undone(self.ramp.as_slices()).ok_or(Refusal::BadEdit)?;
        let parts = self.ramp.parts_mut().ok_or(Refusal::BadEdit)?;
        let stops = parts.positions.len();
        // room for a stop more, so that one too many is refused as it is without a sheet
        parts.positions.push(0.0);
        parts.channels.extend([0.0; 4]);
        let mut lent = slices::Sheet {
            kind,
            positions: &mut parts.positions,
            channels: &mut parts.channels,
            codes: &parts.codes,
            stops,
            threshold: self.record.threshold(),
            sort: self.sort,
            record: self.record.as_slices_mut(),
            list: self.list.room(),
        };
        let edited = lent.edit(edit);
        let stops = lent.stops;
        parts.positions.truncate(stops);
        parts.channels.truncate(4 * stops);
        self.keep(edited?.list);
        Ok(back)
    }

    /// What was told of the list that was made.
    fn keep(&mut self, told: Result<Listed, Refusal>) {
        let listed = told.unwrap_or(Listed { stops: 0, evaluations: 0 });
        self.refused = told.err();
        self.list.keep(listed);
        self.record.evaluations = listed.evaluations;
    }

    /// The list of the ramp as it is now; its evaluations are those of the call that made it.
    ///
    /// # Errors
    /// 7, 8 or 21, where the list was refused.
    pub fn list(&self) -> Result<&List, Refusal> {
        self.refused.map_or(Ok(&self.list), Err)
    }

    /// The ramp as it is now.
    #[must_use]
    pub fn ramp(&self) -> &G {
        &self.ramp
    }

    /// The record of the ramp as it is now.
    #[must_use]
    pub fn record(&self) -> &Record {
        &self.record
    }

    /// The threshold in force.
    #[must_use]
    pub fn threshold(&self) -> f32 {
        self.record.threshold()
    }

    /// What is to be said of its own list, as [`Gradient::judge`].
    ///
    /// # Errors
    /// As [`list`](Sheet::list).
    pub fn judge(&self) -> Result<Verdict, Refusal> {
        let list = self.list()?;
        self.ramp.judge(self.threshold(), list.positions(), list.colors())
    }

    /// Which depths became one in its own list, as [`Gradient::apart`].
    ///
    /// # Errors
    /// As [`list`](Sheet::list), then as there.
    pub fn apart(&self, step: f32, depths: &[f32]) -> Result<Apart, Refusal> {
        self.list()?.apart(&self.ramp, self.threshold(), step, depths)
    }

    /// Ramp, record and list, no longer tied.
    pub fn into_parts(self) -> (G, Record, Result<List, Refusal>) {
        (self.ramp, self.record, self.refused.map_or(Ok(self.list.without_room()), Err))
    }
}
