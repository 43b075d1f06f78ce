//! Records, the lists that are made of them, and what an edit refreshes.

use super::{answer, with_ramp, Ramp};
use crate::{Color, Edit, Refusal};

/// How many cells a record has, each with a count.
pub const CELLS: usize = 36;
/// How many numbers the rows of a record have, 128 for each cell.
pub const ROWS: usize = 4608;
/// How many words of a record say what it was sampled with.
pub const MARKS: usize = 3;
/// The most stops that a list can have: with this room, [`Ramp::thin`] and [`Ramp::flatten`] never give [`Refusal::NoRoom`].
pub const MOST_POINTS: usize = ROWS + 1;
/// The most evaluations of a list that keeps its word; a sampling's come on top.
pub const MOST_WEIGHED: usize = 10_755;

/// A record to read: [`ROWS`] numbers, [`CELLS`] counts and [`MARKS`] words.
///
/// To thin or refresh it with another threshold in force than its own is refused with [`Refusal::OtherThreshold`].
#[derive(Clone, Copy, PartialEq, Debug)]
pub struct Record<'a> {
    /// 128 numbers for each cell, of which its count says how many are used.
    pub rows: &'a [f32],
    /// One for each cell, 1 to 128.
    pub counts: &'a [u8],
    /// The bits of the threshold in force, of min and of max.
    pub marks: &'a [u32],
}

/// A record to fill or to refresh.
#[derive(PartialEq, Debug)]
pub struct RecordMut<'a> {
    /// 128 numbers for each cell, of which its count says how many are used.
    pub rows: &'a mut [f32],
    /// One for each cell, 1 to 128.
    pub counts: &'a mut [u8],
    /// The bits of the threshold in force, of min and of max: a sampling writes them, a refresh leaves them.
    pub marks: &'a mut [u32],
}

/// Where the stops of a list go. Its room is the whole stops that both slices hold; what lies past the last one stays.
#[derive(PartialEq, Debug)]
pub struct StopsMut<'a> {
    /// One position for each stop.
    pub positions: &'a mut [f32],
    /// Four channels for each stop.
    pub channels: &'a mut [f32],
}

/// How many stops a list has, and how often its definition asks for a colour.
#[derive(Clone, Copy, PartialEq, Eq, Debug)]
pub struct Listed {
    /// Stops written.
    pub stops: usize,
    /// Evaluations.
    pub evaluations: usize,
}

/// Of the stops and the evaluations that were told.
fn listed(refusal: u32, [stops, evaluations]: [usize; 2]) -> Result<Listed, Refusal> {
    answer(refusal, Listed { stops, evaluations })
}

impl Ramp<'_> {
    /// Fills a record, whatever was in it: the evaluations.
    ///
    /// # Errors
    /// 1 to 5 leave it as it was.
    pub fn sample(&self, threshold: f32, record: RecordMut<'_>) -> Result<usize, Refusal> {
        let RecordMut { rows, counts, marks } = record;
        let mut told = [0];
        let refusal = with_ramp!(sample, self, threshold, rows, counts, marks, &mut told);
        answer(refusal, told[0])
    }

    /// Makes the list of a record.
    ///
    /// # Errors
    /// 1 to 5 and 20 leave `out` as it was; 7, 8, 9 set it to zero.
    pub fn thin(&self, threshold: f32, record: Record<'_>, out: StopsMut<'_>) -> Result<Listed, Refusal> {
        let Record { rows, counts, marks } = record;
        let StopsMut { positions, channels } = out;
        let mut told = [0; 2];
        let refusal = with_ramp!(thin, self, threshold, rows, counts, marks, positions, channels, &mut told);
        listed(refusal, told)
    }

    /// Fills a record and makes its list.
    ///
    /// # Errors
    /// 1 to 5 change nothing; after 7, 8, 9 the record is filled and `out` is zero. With room for [`MOST_POINTS`] there is no
    /// 7; 9 is never given; 8 is not for linear ramps with channels below 2^127 in size, nor for smoothstep and sharp ones
    /// with channels up to a sixth of `f32::MAX`.
    pub fn flatten(&self, threshold: f32, record: RecordMut<'_>, out: StopsMut<'_>) -> Result<Listed, Refusal> {
        let RecordMut { rows, counts, marks } = record;
        let StopsMut { positions, channels } = out;
        let mut told = [0; 2];
        let refusal = with_ramp!(flatten, self, threshold, rows, counts, marks, positions, channels, &mut told);
        listed(refusal, told)
    }

    /// Makes a list of a record that keeps its word: at the ramp's own positions it is within the hold of the ramp.
    ///
    /// # Errors
    /// 1 to 5 and 20 leave `out` as it was; 7, also of more than [`MOST_POINTS`] stops, 8 and 21 set it to zero.
    pub fn thin_within(
        &self,
        threshold: f32,
        hold: f32,
        record: Record<'_>,
        out: StopsMut<'_>,
    ) -> Result<Listed, Refusal> {
        let Record { rows, counts, marks } = record;
        let StopsMut { positions, channels } = out;
        let mut told = [0; 2];
        let refusal =
            with_ramp!(thin_within, self, threshold, hold, rows, counts, marks, positions, channels, &mut told);
        listed(refusal, told)
    }

    /// Fills a record and makes its list that keeps its word.
    ///
    /// # Errors
    /// 1 to 5 change nothing; after 7, 8, 21 the record is filled and `out` is zero.
    pub fn flatten_within(
        &self,
        threshold: f32,
        hold: f32,
        record: RecordMut<'_>,
        out: StopsMut<'_>,
    ) -> Result<Listed, Refusal> {
        let RecordMut { rows, counts, marks } = record;
        let StopsMut { positions, channels } = out;
        let mut told = [0; 2];
        let refusal =
            with_ramp!(flatten_within, self, threshold, hold, rows, counts, marks, positions, channels, &mut told);
        listed(refusal, told)
    }

    /// Refreshes the record of this ramp for an edit, and says with how many evaluations: it then equals the record of the
    /// changed ramp. The edit itself is the caller's to make.
    ///
    /// # Errors
    /// 1 to 6 and 20 leave it as it was. After 20 come, of the edit, 6 (another kind of ramp, no such stop, a number that is
    /// not finite), 1 (a stop too many) and 3 (a position out of order).
    pub fn refresh(&self, edit: Edit, threshold: f32, record: RecordMut<'_>) -> Result<usize, Refusal> {
        let RecordMut { rows, counts, marks } = record;
        let (sort, stop, position, Color { r, g, b, a }) = edit.parts();
        let mut told = [0];
        let refusal =
            with_ramp!(edit, self, sort, stop, position, r, g, b, a, threshold, rows, counts, marks, &mut told);
        answer(refusal, told[0])
    }

    /// Refreshes a record and makes the list of the changed ramp.
    ///
    /// # Errors
    /// 1 to 6 and 20 change nothing; after 7, 8, 9 the record is refreshed and `out` is zero.
    pub fn refresh_list(
        &self,
        edit: Edit,
        threshold: f32,
        record: RecordMut<'_>,
        out: StopsMut<'_>,
    ) -> Result<Listed, Refusal> {
        let RecordMut { rows, counts, marks } = record;
        let StopsMut { positions, channels } = out;
        let (sort, stop, position, Color { r, g, b, a }) = edit.parts();
        let mut told = [0; 2];
        let refusal = with_ramp!(
            edit_list, self, sort, stop, position, r, g, b, a, threshold, rows, counts, marks, positions, channels,
            &mut told
        );
        listed(refusal, told)
    }
}
