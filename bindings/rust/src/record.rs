//! Sample records.

use alloc::vec;
use alloc::vec::Vec;

use crate::slices::{self, CELLS, MARKS, ROWS};
use crate::{List, Refusal};

/// How finely each of 36 cells of a ramp's domain has to be cut, at one threshold.
///
/// [`Gradient::sample`](crate::Gradient::sample) makes one, [`Refresh::refresh`](crate::Refresh::refresh) keeps it true
/// after an edit, and [`Gradient::thin`](crate::Gradient::thin) makes a list of it: both with the threshold that the record
/// was sampled with, which it remembers. That it is used with its own ramp is its owner's affair; a
/// [`Sheet`](crate::Sheet) sees to it. Two records are equal where their rows, counts and words are, however they came
/// about.
#[derive(Clone, Debug)]
pub struct Record {
    rows: Vec<f32>,
    counts: Vec<u8>,
    marks: Vec<u32>,
    pub(crate) evaluations: usize,
}

impl Record {
    /// A record that was kept elsewhere. The words are taken as they are: where the first is not the bits of a threshold in
    /// force, one that [`slices::threshold`](crate::slices::threshold) leaves as it is, every call on the record is refused
    /// with 20.
    ///
    /// # Errors
    /// 5 where it is not 4,608 numbers, 36 counts of 1 to 128 and 3 words.
    pub fn from_parts(rows: Vec<f32>, counts: Vec<u8>, marks: Vec<u32>) -> Result<Record, Refusal> {
        let is_shaped = rows.len() == ROWS && counts.len() == CELLS && marks.len() == MARKS;
        if !is_shaped || !counts.iter().all(|count| (1..=128).contains(count)) {
            return Err(Refusal::BadRecord);
        }
        Ok(Record { rows, counts, marks, evaluations: 0 })
    }

    /// A record to be filled.
    pub(crate) fn empty() -> Record {
        Record { rows: vec![0.0; ROWS], counts: vec![1; CELLS], marks: vec![0; MARKS], evaluations: 0 }
    }

    /// The record that a call fills, and the list that it makes of it.
    pub(crate) fn made(
        call: impl FnOnce(slices::RecordMut<'_>, slices::StopsMut<'_>) -> Result<slices::Listed, Refusal>,
    ) -> Result<(Record, List), Refusal> {
        let mut record = Record::empty();
        let list = List::made(|out| call(record.as_slices_mut(), out))?;
        record.evaluations = list.evaluations();
        Ok((record, list))
    }

    /// 128 numbers for each cell, of which its count says how many are used.
    #[must_use]
    pub fn rows(&self) -> &[f32] {
        &self.rows
    }

    /// One for each cell, 1 to 128.
    #[must_use]
    pub fn counts(&self) -> &[u8] {
        &self.counts
    }

    /// The bits of the threshold in force, of min and of max that it was sampled with.
    #[must_use]
    pub fn marks(&self) -> &[u32] {
        &self.marks
    }

    /// The threshold in force when it was sampled.
    #[must_use]
    pub fn threshold(&self) -> f32 {
        f32::from_bits(self.marks[0])
    }

    /// How many colours the call that last filled it asked for.
    #[must_use]
    pub fn evaluations(&self) -> usize {
        self.evaluations
    }

    pub(crate) fn as_slices(&self) -> slices::Record<'_> {
        slices::Record { rows: &self.rows, counts: &self.counts, marks: &self.marks }
    }

    pub(crate) fn as_slices_mut(&mut self) -> slices::RecordMut<'_> {
        slices::RecordMut { rows: &mut self.rows, counts: &mut self.counts, marks: &mut self.marks }
    }
}

impl PartialEq for Record {
    fn eq(&self, other: &Record) -> bool {
        (&self.rows, &self.counts, &self.marks) == (&other.rows, &other.counts, &other.marks)
    }
}
