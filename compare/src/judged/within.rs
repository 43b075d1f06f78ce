//! Lists that keep their word: the rule of `thin_within` and `flatten_within`, worked out here from its words alone, over any
//! colours.

use crate::harness::oracle::{self, Record, ROW};
use crate::judged::judge::distance;

/// The stops that a list may have.
pub const MOST_LISTED: usize = 4609;
const LEAST: f32 = 0.001;

/// A list is made with these, as they are asked for.
#[derive(Clone, Copy, Debug)]
pub struct Asked {
    pub threshold: f32,
    pub hold: f32,
}

impl Asked {
    /// The hold in force.
    pub fn held(self) -> f32 {
        let most = oracle::clamped(self.threshold);
        if !self.hold.is_finite() || self.hold < LEAST {
            LEAST
        } else if self.hold > most {
            most
        } else {
            self.hold
        }
    }
}

/// By the list that a point came from.
#[derive(Clone, Copy, PartialEq)]
enum From {
    Record,
    Beside,
    Lent,
}

struct Weighed {
    t: f32,
    colour: [f32; 4],
    from: From,
}

/// A stop, and whether it and the stop before it show what they must.
pub struct Kept {
    pub t: f32,
    pub colour: [f32; 4],
    pub shown: bool,
}

pub struct Within {
    pub kept: Vec<Kept>,
    /// One for each point.
    pub evaluations: usize,
}

impl Within {
    /// The first refusal among the stops in a room: 7, 8, 21, or 0.
    pub fn refusal(&self, room: (usize, usize)) -> u32 {
        let most = room.0.min(room.1 / 4).min(MOST_LISTED);
        let one = |(i, stop): (usize, &Kept)| {
            if i >= most {
                7
            } else if !stop.t.is_finite() || stop.colour.iter().any(|c| !c.is_finite()) {
                8
            } else if !stop.shown {
                21
            } else {
                0
            }
        };
        self.kept.iter().enumerate().map(one).find(|number| *number != 0).unwrap_or(0)
    }
}

/// The points of a record, row by row.
pub fn points_of(record: &Record) -> Vec<f32> {
    record.rows.chunks(ROW).zip(&record.counts).flat_map(|(row, n)| row[..*n as usize].to_vec()).collect()
}

/// The list of a record's points: of a ramp with these lent positions, this domain and these colours.
pub fn list(
    lent: &[f32],
    (min, max): (f32, f32),
    asked: Asked,
    record: &[f32],
    colour: &dyn Fn(f32) -> [f32; 4],
) -> Within {
    let sites = sites(lent, (min, max), record);
    let point = |t: f32, from: From| Weighed { t, colour: colour(t), from };
    let mut all = vec![point(min, From::Lent)];
    all.extend(sites.into_iter().map(|(t, from)| point(t, from)));
    all.push(point(max, From::Lent));
    let weighing = Weighing { threshold: oracle::clamped(asked.threshold), hold: asked.held(), all: &all };
    let mut kept = vec![Kept { t: min, colour: all[0].colour, shown: true }];
    let mut last = 0;
    while last + 1 < all.len() {
        let next = weighing.next(last);
        kept.push(Kept { t: all[next].t, colour: all[next].colour, shown: weighing.shows(last, next) });
        last = next;
    }
    Within { kept, evaluations: all.len() }
}

/// What lies strictly between min and max, rising, each once.
fn sites(lent: &[f32], (min, max): (f32, f32), record: &[f32]) -> Vec<(f32, From)> {
    let own = own(lent);
    let (mut last, mut i, mut j) = (min, 0, 0);
    let mut taken = Vec::new();
    loop {
        let inside = |t: f32| last < t && t < max;
        while i < record.len() && !inside(record[i]) {
            i += 1;
        }
        while j < own.len() && !inside(own[j].0) {
            j += 1;
        }
        let site = match (record.get(i), own.get(j)) {
            (None, None) => return taken,
            (Some(t), Some(o)) if *t < o.0 => (*t, From::Record),
            (_, Some(o)) => *o,
            (Some(t), None) => (*t, From::Record),
        };
        if site.1 == From::Record {
            i += 1;
        } else {
            j += 1;
        }
        last = site.0;
        taken.push(site);
    }
}

/// The lent positions, what lies just above them and just below, joined: at a tie in this order.
fn own(lent: &[f32]) -> Vec<(f32, From)> {
    let above: Vec<f32> = lent.iter().map(|p| p.next_up()).collect();
    let below: Vec<f32> = lent.iter().map(|p| p.next_down()).collect();
    let lists = [(lent, From::Lent), (&above[..], From::Beside), (&below[..], From::Beside)];
    let mut taken = [0; 3];
    let mut joined = Vec::new();
    while joined.len() < 3 * lent.len() {
        let mut first: Option<usize> = None;
        for k in (0..3).filter(|k| taken[*k] < lent.len()) {
            if first.is_none_or(|f| lists[k].0[taken[k]] < lists[f].0[taken[f]]) {
                first = Some(k);
            }
        }
        let k = first.expect("something is left");
        joined.push((lists[k].0[taken[k]], lists[k].1));
        taken[k] += 1;
    }
    joined
}

/// The points from min to max, and how far off a list may be.
struct Weighing<'a> {
    threshold: f32,
    hold: f32,
    all: &'a [Weighed],
}

impl Weighing<'_> {
    /// Whether points a and b show what lies after a up to and with b, but never max.
    fn shows(&self, a: usize, b: usize) -> bool {
        let (left, right) = (&self.all[a], &self.all[b]);
        self.all[a + 1..=b.min(self.all.len() - 2)].iter().all(|p| {
            let x = (p.t - left.t) / (right.t - left.t);
            let mix = std::array::from_fn(|i| left.colour[i] + x * (right.colour[i] - left.colour[i]));
            let off = if p.from == From::Record { self.threshold } else { self.hold };
            distance(mix, p.colour) <= off
        })
    }

    /// The point kept after a kept one.
    fn next(&self, a: usize) -> usize {
        let after = a + 1..self.all.len();
        let lent: Vec<usize> = after.clone().filter(|i| self.all[*i].from == From::Lent).collect();
        let places = if self.shows(a, lent[0]) { lent } else { after.collect() };
        places[reach(places.len(), |r| self.shows(a, places[r - 1])) - 1]
    }
}

/// How far a question of 1, 2, .. n is answered yes, by doubling and then by halves.
fn reach(n: usize, yes: impl Fn(usize) -> bool) -> usize {
    let mut r = 1;
    while 2 * r <= n && yes(2 * r) {
        r *= 2;
    }
    let mut part = r / 2;
    while part > 0 {
        if r + part <= n && yes(r + part) {
            r += part;
        }
        part /= 2;
    }
    r
}
