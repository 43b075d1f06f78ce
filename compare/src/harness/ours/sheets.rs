//! Sheets, opened and edited.

use crate::harness::ffi;
use crate::harness::oracle::Record;
use crate::harness::ours::{Sorted, UNTOLD};
use crate::harness::ramps::Ramp;

/// A sheet as it is lent: a ramp with room, of which so many stops count (of a GIMP ramp segments), its record and its list.
#[derive(Clone, Debug)]
pub struct Sheet {
    pub ramp: Ramp,
    pub stops: usize,
    pub threshold: f32,
    /// Of a list that keeps its word.
    pub hold: Option<f32>,
    pub record: Record,
    pub places: Vec<f32>,
    pub colours: Vec<f32>,
}

impl Sheet {
    /// How many positions and channels are the ramp's own.
    pub fn lengths(&self) -> (usize, usize) {
        if self.ramp.kind.is_gimp() {
            (3 * self.stops, 8 * self.stops)
        } else {
            (self.stops, 4 * self.stops)
        }
    }

    /// The ramp without its room.
    pub fn own(&self) -> Ramp {
        let (positions, channels) = self.lengths();
        let start = |list: &[f32], n: usize| list[..n].to_vec();
        let (positions, channels) = (start(&self.ramp.positions, positions), start(&self.ramp.channels, channels));
        Ramp { kind: self.ramp.kind, positions, channels, codes: self.ramp.codes.clone() }
    }

    /// The number of its sort of list, and the hold.
    fn sort(&self) -> (u32, f32) {
        self.hold.map_or((0, f32::NAN), |hold| (1, hold))
    }
}

/// 0 or the refusal; and what is told: stops of the ramp, stops of the list, evaluations.
pub fn sheet_open(sheet: &mut Sheet) -> (u32, [usize; 3]) {
    let (sort, hold) = sheet.sort();
    let Sheet { ramp, stops, threshold, record: Record { rows, counts, marks }, places, colours, .. } = sheet;
    let mut told = [UNTOLD; 3];
    let refusal =
        over!(ramp, sheet_open(*stops, *threshold, sort, hold, rows, counts, marks, places, colours, &mut told));
    (refusal, told)
}

/// The same; the stops are then those that are told.
pub fn sheet_edit(sheet: &mut Sheet, edit: &Sorted) -> (u32, [usize; 3]) {
    let (list_sort, hold) = sheet.sort();
    let Sheet { ramp, stops, threshold, record: Record { rows, counts, marks }, places, colours, .. } = sheet;
    let Ramp { kind, positions, channels, codes } = ramp;
    let Sorted { sort, stop, position, colour: [r, g, b, a] } = *edit;
    let mut told = [UNTOLD; 3];
    let refusal = ffi::sheet_edit(
        kind.code(),
        positions,
        channels,
        codes,
        *stops,
        sort,
        stop,
        position,
        r,
        g,
        b,
        a,
        *threshold,
        list_sort,
        hold,
        rows,
        counts,
        marks,
        places,
        colours,
        &mut told,
    );
    *stops = told[0];
    (refusal, told)
}
