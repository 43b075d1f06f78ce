//! Words as the stored answers have them: ramps, points, records, edits and lists, each as the program reads it; and how
//! many of each sort there are.

use crate::harness::oracle::{self, List, Record, CELLS, ROW};
use crate::harness::ours::Sorted;
use crate::harness::ramps::Ramp;
use crate::listed::lists::{emitted, MOST_POINTS};
use std::collections::BTreeSet;
use std::fmt::Write;
use std::path::Path;

/// How the program lends a record and outputs: in full, a record too short, outputs for two stops.
#[derive(Clone, Copy, PartialEq)]
pub enum Room {
    Full,
    ShortRecord,
    Small,
}

impl Room {
    /// The lengths of positions and channels.
    pub fn outputs(self) -> (usize, usize) {
        (if self == Room::Small { 2 } else { MOST_POINTS }, 4 * MOST_POINTS)
    }
}

#[derive(Default)]
pub struct Words {
    text: String,
    /// Records of the sort at hand, those of them that are not refused, and what of all is compared.
    records: u64,
    pub answered: u64,
    refusals: BTreeSet<u32>,
    answers: u64,
    /// The lines that the program prints.
    printed: String,
}

impl Words {
    pub fn word(&mut self, n: u32) {
        writeln!(self.text, "{n:08x}").expect("a string takes it");
    }

    pub fn size(&mut self, n: usize) {
        self.word(u32::try_from(n).expect("a small number"));
    }

    /// Every not-a-number is stored as one.
    pub fn float(&mut self, x: f32) {
        self.word(if x.is_nan() { 0x7fc0_0000 } else { x.to_bits() });
    }

    pub fn floats(&mut self, list: &[f32]) {
        list.iter().for_each(|x| self.float(*x));
    }

    pub fn bytes(&mut self, list: &[u8]) {
        list.iter().for_each(|b| self.word(*b as u32));
    }

    pub fn ramp(&mut self, ramp: &Ramp) {
        self.word(ramp.kind.code());
        self.size(ramp.positions.len());
        self.size(ramp.channels.len());
        self.size(ramp.codes.len());
        self.floats(&ramp.positions);
        self.floats(&ramp.channels);
        self.bytes(&ramp.codes);
    }

    pub fn colours(&mut self, ramp: &Ramp, points: &[f32]) {
        let refusal = ramp.refusal();
        let points = if refusal == 0 { points } else { &[] };
        self.ramp(ramp);
        self.word(refusal);
        self.size(points.len());
        if refusal == 0 {
            let g = oracle::gradient(ramp);
            for t in points {
                self.float(*t);
                self.floats(&oracle::at(&g, *t));
            }
        }
        self.record_done(refusal, 1 + points.len() as u64);
    }

    /// A refusal, or a list that may itself be refused; and the start of the outputs, with what comes after the list.
    pub fn list(&mut self, refusal: u32, list: &List, room: Room) {
        let kept = List { stops: Vec::new(), evaluations: 0 };
        let (number, positions, channels) = emitted(if refusal == 0 { list } else { &kept }, room.outputs());
        let refusal = if refusal == 0 { number } else { refusal };
        let told = if refusal == 0 { (list.stops.len(), list.evaluations) } else { (0, 0) };
        self.listed(refusal, told, &positions, &channels);
    }

    /// An answer, its stops and evaluations, and the start of the outputs that it leaves.
    pub fn listed(&mut self, refusal: u32, (stops, evaluations): (usize, usize), positions: &[f32], channels: &[f32]) {
        let shown = (stops + 1).min(positions.len());
        self.word(refusal);
        self.size(stops);
        self.size(evaluations);
        self.size(shown);
        self.floats(&positions[..shown]);
        self.size(4 * shown);
        self.floats(&channels[..4 * shown]);
        self.record_done(refusal, 3);
    }

    /// The points that a record's counts name, each after its place, then the counts and the words.
    pub fn record(&mut self, record: &Record) {
        let points = |cell: usize| (0..(record.counts[cell] as usize).min(ROW)).map(move |i| cell * ROW + i);
        let places: Vec<usize> = (0..CELLS).flat_map(points).collect();
        self.size(places.len());
        for at in places {
            self.size(at);
            self.float(record.rows[at]);
        }
        self.bytes(&record.counts);
        record.marks.iter().for_each(|word| self.word(*word));
    }

    /// A ramp, a record of it and an edit.
    pub fn edited(&mut self, ramp: &Ramp, threshold: f32, room: Room, edit: &Sorted) {
        self.ramp(ramp);
        self.float(threshold);
        self.word(room as u32);
        self.edit(edit);
    }

    /// Whether or not the sort has a position and a colour.
    pub fn edit(&mut self, edit: &Sorted) {
        self.word(edit.sort);
        self.size(edit.stop);
        self.float(edit.position);
        self.floats(&edit.colour);
    }

    /// One record more, of so many answers.
    pub fn record_done(&mut self, refusal: u32, answers: u64) {
        self.records += 1;
        self.answered += (refusal == 0) as u64;
        self.refusals.insert(refusal);
        self.answers += answers;
    }

    /// One sort is at its end.
    pub fn printed(&mut self, name: &str) {
        let n = std::mem::take(&mut self.answers);
        let (records, answered) = (std::mem::take(&mut self.records), std::mem::take(&mut self.answered));
        let refusals: Vec<u32> = std::mem::take(&mut self.refusals).into_iter().filter(|n| *n != 0).collect();
        println!("{name}: {records} records, {answered} of them not refused, the others with {refusals:?}");
        writeln!(self.printed, "{name} {n} equal {n}").expect("a string takes it");
    }

    /// The words as stdin, the lines as stdout.
    pub fn store(&self, folder: &Path) -> std::io::Result<()> {
        std::fs::write(folder.join("stdin"), &self.text)?;
        std::fs::write(folder.join("stdout"), &self.printed)
    }
}
