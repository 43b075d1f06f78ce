//! Sheets on slices: a ramp with room for a stop more, its record and its list.

use crate::slices::{answer, with_ramp, Kind, Listed, Ramp, RecordMut, StopsMut};
use crate::{ffi, Color, Edit, Refusal};

/// The sort of list that a sheet has.
#[derive(Clone, Copy, PartialEq, Debug)]
#[non_exhaustive]
pub enum ListSort {
    /// The published one, which thinning makes: as `Gradient::flatten` gives it.
    Thinned,
    /// One that keeps its word within this hold: as `Gradient::flatten_within` gives it.
    Within(f32),
}

impl ListSort {
    /// Its number, and the hold; 0 where it has none.
    fn parts(self) -> (u32, f32) {
        match self {
            ListSort::Thinned => (0, 0.0),
            ListSort::Within(hold) => (1, hold),
        }
    }
}

/// What became of a sheet: its ramp and its record are made, and its list is, or is refused.
#[derive(Clone, Copy, PartialEq, Eq, Debug)]
pub struct Sheeted {
    /// Stops of the ramp, of a GIMP ramp segments.
    pub stops: usize,
    /// The list, or why there is none: 7, 8, 9 or 21.
    pub list: Result<Listed, Refusal>,
}

fn sheeted(refusal: u32, told: [usize; 3]) -> Result<Sheeted, Refusal> {
    let [ramp, stops, evaluations] = told;
    match answer(refusal, Listed { stops, evaluations }) {
        Err(all @ (Refusal::NoRoom | Refusal::ListNotFinite | Refusal::ListFalling | Refusal::NotShown)) => {
            Ok(Sheeted { stops: ramp, list: Err(all) })
        }
        Err(all) => Err(all),
        list => Ok(Sheeted { stops: ramp, list }),
    }
}

impl Ramp<'_> {
    /// Fills a record and makes its list, of either sort: with the ramp they are a sheet.
    ///
    /// # Errors
    /// 1 to 5 change nothing. Where the list is refused, with 7, 8 or 21, the record is filled and `out` is zero.
    pub fn open_sheet(
        &self,
        threshold: f32,
        sort: ListSort,
        record: RecordMut<'_>,
        out: StopsMut<'_>,
    ) -> Result<Sheeted, Refusal> {
        let RecordMut { rows, counts, marks } = record;
        let StopsMut { positions, channels } = out;
        // segments have codes, and stops have none
        let stops = if self.codes.is_empty() { self.positions.len() } else { self.codes.len() / 2 };
        let (list_sort, hold) = sort.parts();
        let mut told = [0; 3];
        let refusal = with_ramp!(
            sheet_open, self, stops, threshold, list_sort, hold, rows, counts, marks, positions, channels, &mut told
        );
        sheeted(refusal, told)
    }
}

/// A ramp with room, its record and its list, which [`Ramp::open_sheet`] filled: changed by edits only.
#[derive(PartialEq, Debug)]
pub struct Sheet<'a> {
    /// The ramp's kind.
    pub kind: Kind,
    /// The ramp's positions, and room for more.
    pub positions: &'a mut [f32],
    /// Its channels, and room for more.
    pub channels: &'a mut [f32],
    /// The codes of segments; empty for stops.
    pub codes: &'a [u8],
    /// How many stops the ramp has now; what lies past them is room.
    pub stops: usize,
    /// The threshold that it was opened with.
    pub threshold: f32,
    /// The sort of list.
    pub sort: ListSort,
    /// The ramp's record.
    pub record: RecordMut<'a>,
    /// Where its list goes.
    pub list: StopsMut<'a>,
}

impl Sheet<'_> {
    /// Makes an edit: of the ramp, of its record and of its list.
    ///
    /// # Errors
    /// 1 to 6 and 20, with nothing changed; 6 also of a stop more for which there is no room. Where the list is refused, with
    /// 7, 8, 9 or 21, the edit is made and the list is zero.
    pub fn edit(&mut self, edit: Edit) -> Result<Sheeted, Refusal> {
        let RecordMut { rows, counts, marks } = &mut self.record;
        let StopsMut { positions, channels } = &mut self.list;
        let (sort, stop, position, Color { r, g, b, a }) = edit.parts();
        let (list_sort, hold) = self.sort.parts();
        let mut told = [0; 3];
        let refusal = ffi::sheet_edit(
            self.kind as u32,
            self.positions,
            self.channels,
            self.codes,
            self.stops,
            sort,
            stop,
            position,
            r,
            g,
            b,
            a,
            self.threshold,
            list_sort,
            hold,
            rows,
            counts,
            marks,
            positions,
            channels,
            &mut told,
        );
        self.stops = told[0];
        sheeted(refusal, told)
    }
}
