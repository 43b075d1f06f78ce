//! Memory that is lent, and what stands in it.

use guineaplume::slices::{self, Kind, Record, RecordMut, StopsMut, CELLS, MOST_POINTS, ROWS};
use guineaplume::{Color, Edit, Refusal};

pub const GRAY: [f32; 8] = [0.0, 0.0, 0.0, 1.0, 1.0, 1.0, 1.0, 1.0];
/// What stands in lent memory before a call.
pub const RUBBISH: f32 = 7.0;

pub fn ramp<'a>(kind: Kind, positions: &'a [f32], channels: &'a [f32]) -> slices::Ramp<'a> {
    slices::Ramp { kind, positions, channels, codes: &[] }
}

pub fn gray() -> slices::Ramp<'static> {
    ramp(Kind::Linear, &[0.0, 1.0], &GRAY)
}

/// A record and the room for a list, lent together.
pub struct Desk {
    pub rows: Vec<f32>,
    pub counts: Vec<u8>,
    pub marks: Vec<u32>,
    pub positions: Vec<f32>,
    pub channels: Vec<f32>,
}

impl Desk {
    pub fn new(positions: usize, channels: usize) -> Desk {
        Desk {
            rows: vec![RUBBISH; ROWS],
            counts: vec![9; CELLS],
            marks: vec![0.007f32.to_bits(), 0.0f32.to_bits(), 1.0f32.to_bits()],
            positions: vec![RUBBISH; positions],
            channels: vec![RUBBISH; channels],
        }
    }

    pub fn roomy() -> Desk {
        Desk::new(MOST_POINTS, 4 * MOST_POINTS)
    }

    pub fn flatten(&mut self, ramp: slices::Ramp<'_>) -> Result<slices::Listed, Refusal> {
        ramp.flatten(
            0.007,
            RecordMut { rows: &mut self.rows, counts: &mut self.counts, marks: &mut self.marks },
            StopsMut { positions: &mut self.positions, channels: &mut self.channels },
        )
    }

    pub fn thin(&mut self, ramp: slices::Ramp<'_>) -> Result<slices::Listed, Refusal> {
        ramp.thin(
            0.007,
            Record { rows: &self.rows, counts: &self.counts, marks: &self.marks },
            StopsMut { positions: &mut self.positions, channels: &mut self.channels },
        )
    }

    pub fn refresh(&mut self, ramp: slices::Ramp<'_>, stop: usize, color: Color) -> Result<usize, Refusal> {
        let record = RecordMut { rows: &mut self.rows, counts: &mut self.counts, marks: &mut self.marks };
        ramp.refresh(Edit::Color { stop, color }, 0.007, record)
    }

    pub fn record_is_rubbish(&self) -> bool {
        self.rows.iter().all(|x| *x == RUBBISH) && self.counts.iter().all(|n| *n == 9)
    }

    pub fn outputs_are(&self, x: f32) -> bool {
        self.positions.iter().chain(&self.channels).all(|y| *y == x)
    }
}
