//! Edits of a ramp with its record, and its list.

use crate::harness::ffi;
use crate::harness::oracle::Record;
use crate::harness::ours::{answer, listed, Listed, UNTOLD};
use crate::harness::ramps::Ramp;

/// An edit of any sort, by the code of its sort and its parts.
#[derive(Clone, Copy, Debug)]
pub struct Sorted {
    pub sort: u32,
    pub stop: usize,
    pub position: f32,
    pub colour: [f32; 4],
}

/// The evaluations.
pub fn edit(ramp: &Ramp, edit: &Sorted, threshold: f32, record: &mut Record) -> Result<usize, u32> {
    let Record { rows, counts, marks } = record;
    let Sorted { sort, stop, position, colour: [r, g, b, a] } = *edit;
    let mut told = [UNTOLD];
    let refusal = over!(ramp, edit(sort, stop, position, r, g, b, a, threshold, rows, counts, marks, &mut told));
    answer(refusal, told[0])
}

pub fn edit_list(
    ramp: &Ramp,
    edit: &Sorted,
    threshold: f32,
    record: &mut Record,
    places: &mut [f32],
    colours: &mut [f32],
) -> Listed {
    let Record { rows, counts, marks } = record;
    let Sorted { sort, stop, position, colour: [r, g, b, a] } = *edit;
    let mut told = [UNTOLD; 2];
    let refusal = over!(
        ramp,
        edit_list(sort, stop, position, r, g, b, a, threshold, rows, counts, marks, places, colours, &mut told)
    );
    listed(refusal, told)
}

/// The new colour of a stop.
pub struct Edit {
    pub stop: usize,
    pub colour: [f32; 4],
}

impl Edit {
    /// As an edit of its sort, which names no position.
    fn sorted(&self) -> Sorted {
        Sorted { sort: 0, stop: self.stop, position: f32::NAN, colour: self.colour }
    }
}

/// The evaluations.
pub fn refresh(ramp: &Ramp, edit: &Edit, threshold: f32, record: &mut Record) -> Result<usize, u32> {
    self::edit(ramp, &edit.sorted(), threshold, record)
}

pub fn refresh_list(
    ramp: &Ramp,
    edit: &Edit,
    threshold: f32,
    record: &mut Record,
    places: &mut [f32],
    colours: &mut [f32],
) -> Listed {
    edit_list(ramp, &edit.sorted(), threshold, record, places, colours)
}
