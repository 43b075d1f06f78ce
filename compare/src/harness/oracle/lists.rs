//! The Rust's lists, and records by its own halving.

use crate::harness::oracle::Boxed;
use colorgrad::{door, Color, Gradient, LinearGradient};
use std::cell::Cell;
use std::panic::{catch_unwind, AssertUnwindSafe};
use std::rc::Rc;

/// Counts the evaluations that a gradient is asked for.
#[derive(Clone)]
struct Counted {
    inner: Boxed,
    count: Rc<Cell<usize>>,
}

impl Gradient for Counted {
    fn at(&self, t: f32) -> Color {
        self.count.set(self.count.get() + 1);
        self.inner.at(t)
    }

    fn domain(&self) -> (f32, f32) {
        self.inner.domain()
    }
}

pub struct List {
    pub stops: Vec<(f32, [f32; 4])>,
    pub evaluations: usize,
}

/// `linearize`, or nothing where it panics.
pub fn linearize(g: &Boxed, threshold: f32) -> Option<List> {
    let counted = Counted { inner: g.clone(), count: Rc::new(Cell::new(0)) };
    let made = catch_unwind(AssertUnwindSafe(|| counted.linearize(threshold))).ok()?;
    Some(List { stops: made.stops().to_vec(), evaluations: counted.count.get() })
}

/// `linearize` alone, as a caller has it.
pub fn linearize_only(g: &Boxed, threshold: f32) -> LinearGradient {
    g.linearize(threshold)
}

pub const CELLS: usize = 36;
pub const ROW: usize = 128;
pub const MARKS: usize = 3;

/// A sample record: rows, counts and words.
#[derive(Clone, PartialEq, Debug)]
pub struct Record {
    pub rows: Vec<f32>,
    pub counts: Vec<u8>,
    pub marks: Vec<u32>,
}

impl Record {
    pub fn empty() -> Record {
        Record { rows: vec![0.0; CELLS * ROW], counts: vec![0; CELLS], marks: vec![0; MARKS] }
    }
}

/// The left end of cell i, which is the right end of the one before.
pub fn edge((min, max): (f32, f32), i: usize) -> f32 {
    min + (max - min) * (i as f32 / CELLS as f32)
}

/// One row of the record by the Rust's own halving, and its evaluations.
pub fn row(g: &Boxed, domain: (f32, f32), cell: usize, threshold: f32) -> (Vec<f32>, usize) {
    let count = Cell::new(0);
    let counted = |t: f32| {
        count.set(count.get() + 1);
        g.at(t)
    };
    let (left, right) = (edge(domain, cell), edge(domain, cell + 1));
    let mut row = vec![left];
    row.extend(door::halves(&counted, left, right, clamped(threshold)));
    (row, count.get())
}

pub fn record(g: &Boxed, domain: (f32, f32), threshold: f32) -> (Record, usize) {
    let mut made = Record::empty();
    let mut evaluations = 0;
    for cell in 0..CELLS {
        let (row, count) = row(g, domain, cell, threshold);
        made.rows[cell * ROW..cell * ROW + row.len()].copy_from_slice(&row);
        made.counts[cell] = row.len() as u8;
        evaluations += count;
    }
    made.marks = marks(domain, threshold);
    (made, evaluations)
}

/// The list that thinning makes of any record, with its evaluations; colours are not judged.
pub fn thinned(g: &Boxed, max: f32, threshold: f32, record: &Record) -> List {
    let mut points = Vec::new();
    for (row, count) in record.rows.chunks(ROW).zip(&record.counts) {
        points.extend_from_slice(&row[..*count as usize]);
    }
    points.push(max);
    let count = Cell::new(0);
    let counted = |t: f32| {
        count.set(count.get() + 1);
        g.at(t)
    };
    let kept = door::kept(&counted, &points, clamped(threshold));
    let stops: Vec<_> = kept.iter().map(|t| (*t, counted(*t).to_array())).collect();
    List { stops, evaluations: count.get() }
}

/// The words of a record, which the Rust does not have: the bits of the threshold in force, of min and of max.
pub fn marks((min, max): (f32, f32), threshold: f32) -> Vec<u32> {
    [clamped(threshold), min, max].map(f32::to_bits).to_vec()
}

/// The threshold as `linearize` takes it.
pub fn clamped(threshold: f32) -> f32 {
    if threshold.is_finite() {
        threshold.clamp(0.001, 0.035)
    } else {
        0.007
    }
}
