//! Lists at the limits: every threshold that is clamped, every room that is too small, and records that no sampling made.

use crate::harness::limits;
use crate::harness::options::Options;
use crate::harness::oracle::{self, Record, CELLS, ROW};
use crate::harness::ramps::{Ramp, KINDS};
use crate::harness::report::Tally;
use crate::listed::lists::{early, flattened, thinned, MOST_POINTS};

const ROOM: (usize, usize) = (MOST_POINTS + 2, 4 * MOST_POINTS + 3);
const THRESHOLDS: [f32; 9] = [f32::NAN, f32::INFINITY, f32::NEG_INFINITY, 0.0, -1.0, 0.0005, 0.007, 0.035, 1.0];
/// 2^-23: a point nearer than this to the last one kept is skipped.
const NEAR: f32 = f32::EPSILON;

pub fn run(options: &Options) -> Tally {
    let mut tally = Tally::new("lists: limits", options.seed);
    for (case, ramp) in (0..).zip(limits::all()) {
        for threshold in THRESHOLDS {
            flattened(&mut tally, case, &ramp, threshold, ROOM);
        }
    }
    for (case, ramp) in (0..).zip(KINDS.iter().flat_map(|kind| limits::short(*kind))) {
        every_room(&mut tally, case, &ramp);
        for record in records(&ramp) {
            thinned(&mut tally, case, &ramp, 0.007, ROOM, &record);
        }
    }
    tally.done()
}

/// Room for none, for one, and so on to one too few and for all; the two outputs uneven, each the shorter once.
fn every_room(tally: &mut Tally, case: u64, ramp: &Ramp) {
    let stops = if early(ramp) == 0 {
        let g = oracle::gradient(ramp);
        let (record, _) = oracle::record(&g, ramp.domain(), 0.007);
        oracle::thinned(&g, ramp.domain().1, 0.007, &record).stops.len()
    } else {
        1
    };
    for n in 0..=stops {
        flattened(tally, case, ramp, 0.007, (n, ROOM.1));
        flattened(tally, case, ramp, 0.007, (ROOM.0, 4 * n));
        flattened(tally, case, ramp, 0.007, (n + 1, 4 * n + 3));
    }
}

/// Not-a-number, falling points, points just nearer than 2^-23, exactly so far and just farther, and counts out of range.
fn records(ramp: &Ramp) -> Vec<Record> {
    let (min, max) = if ramp.positions.is_empty() { (0.0, 1.0) } else { ramp.domain() };
    let all = |count: u8, point: &dyn Fn(usize) -> f32| Record {
        rows: (0..CELLS * ROW).map(point).collect(),
        counts: vec![count; CELLS],
        marks: oracle::marks((min, max), 0.007),
    };
    let part = |i: usize| i as f32 / (CELLS * ROW) as f32;
    let mut records = vec![
        all(1, &|_| f32::NAN),
        all(128, &|i| max - (max - min) * part(i)),
        all(3, &|i| [f32::INFINITY, min, f32::NEG_INFINITY, -0.0][i % 4]),
    ];
    for step in [NEAR.next_down(), NEAR, NEAR.next_up()] {
        records.push(all(128, &|i| min + i as f32 * step));
        records.push(all(2, &|i| if i % ROW == 0 { 0.0 } else { step }));
    }
    for (cell, count) in [(0, 0), (CELLS - 1, 0), (17, 129), (CELLS - 1, 255)] {
        let mut record = all(4, &|i| min + (max - min) * part(i));
        record.counts[cell] = count;
        records.push(record);
    }
    records
}
