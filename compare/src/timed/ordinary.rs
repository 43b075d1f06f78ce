//! The job of a refresh written in ordinary Rust, as the rival of request (x): a linear ramp sampled afresh and thinned, over
//! lent buffers, without a heap. Each point is evaluated once and carries its colour, differences are compared as squares, and
//! the pair is looked for from the one found last. What it answers is checked against the library before it is timed.

use crate::harness::oracle::{edge, Record, CELLS, ROW};
use crate::harness::ramps::Ramp;

type Colour = [f32; 4];

#[derive(Clone, Copy)]
struct Point {
    t: f32,
    colour: Colour,
}

/// A ramp, and the pair in which the last point lay.
struct Ordinary<'a> {
    positions: &'a [f32],
    channels: &'a [f32],
    threshold: f32,
    pair: usize,
}

fn mix(p: Colour, q: Colour, t: f32) -> Colour {
    std::array::from_fn(|i| p[i] + t * (q[i] - p[i]))
}

impl<'a> Ordinary<'a> {
    fn new(ramp: &'a Ramp, threshold: f32) -> Self {
        Self { positions: &ramp.positions, channels: &ramp.channels, threshold, pair: 1 }
    }

    fn colour(&self, i: usize) -> Colour {
        let c = &self.channels[4 * i..4 * i + 4];
        [c[0], c[1], c[2], c[3]]
    }

    fn at(&mut self, t: f32) -> Point {
        let p = self.positions;
        let last = p.len() - 1;
        if t <= p[0] {
            return Point { t, colour: self.colour(0) };
        }
        if t >= p[last] {
            return Point { t, colour: self.colour(last) };
        }
        if !(p[self.pair - 1] < t && t <= p[self.pair]) {
            self.pair = p.partition_point(|x| *x < t);
        }
        let k = self.pair;
        let colour = mix(self.colour(k - 1), self.colour(k), (t - p[k - 1]) / (p[k] - p[k - 1]));
        Point { t, colour }
    }

    /// The distance is asked for as the library defines it; a root is one instruction here.
    fn differs(&self, p: Colour, q: Colour) -> bool {
        let d: Colour = std::array::from_fn(|i| p[i].clamp(0.0, 1.0) - q[i].clamp(0.0, 1.0));
        (d[0] * d[0] + d[1] * d[1] + d[2] * d[2] + d[3] * d[3]).sqrt() / 2.0 > self.threshold
    }

    fn halve(&mut self, left: Point, right: Point, depth: usize, row: &mut [f32], n: &mut usize) {
        if depth == 0 {
            return;
        }
        let middle = self.at((left.t + right.t) / 2.0);
        if self.differs(middle.colour, mix(left.colour, right.colour, 0.5)) {
            self.halve(left, middle, depth - 1, row, n);
            row[*n] = middle.t;
            *n += 1;
            self.halve(middle, right, depth - 1, row, n);
        }
    }

    fn sample(&mut self, domain: (f32, f32), record: &mut Record) {
        let mut left = self.at(edge(domain, 0));
        for cell in 0..CELLS {
            let row = &mut record.rows[cell * ROW..(cell + 1) * ROW];
            let right = self.at(edge(domain, cell + 1));
            row[0] = left.t;
            let mut n = 1;
            self.halve(left, right, 7, row, &mut n);
            row[n..].fill(0.0);
            record.counts[cell] = n as u8;
            left = right;
        }
    }

    fn thin(&mut self, max: f32, record: &Record, positions: &mut [f32], channels: &mut [f32]) -> usize {
        let rows = record.rows.chunks_exact(ROW).zip(&record.counts);
        let mut points = rows.flat_map(|(row, n)| &row[..*n as usize]).copied().chain([max]);
        let mut kept = 0;
        let mut emit = |p: Point| {
            positions[kept] = p.t;
            channels[4 * kept..4 * kept + 4].copy_from_slice(&p.colour);
            kept += 1;
        };
        let mut before = self.at(points.next().unwrap_or(max));
        emit(before);
        let mut point = self.at(points.next().unwrap_or(max));
        for t in points {
            let next = self.at(t);
            if (before.t - point.t).abs() >= f32::EPSILON {
                let mixed = mix(before.colour, next.colour, (point.t - before.t) / (next.t - before.t));
                if self.differs(point.colour, mixed) {
                    emit(point);
                    before = point;
                }
            }
            point = next;
        }
        emit(point);
        kept
    }
}

/// The number of stops written.
pub fn flatten(ramp: &Ramp, threshold: f32, record: &mut Record, positions: &mut [f32], channels: &mut [f32]) -> usize {
    let domain = ramp.domain();
    let mut job = Ordinary::new(ramp, threshold);
    job.sample(domain, record);
    job.thin(domain.1, record, positions, channels)
}
