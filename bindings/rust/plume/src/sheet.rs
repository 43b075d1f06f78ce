//! A ramp with its record and its list, which move together: opened once, changed by edits only.

use crate::ramp::Ramp;
use guineaplume::slices::{CELLS, ROWS};
use guineaplume::{Edit, Gradient, List, ListSort, Record, Refusal};

/// The sort of list.
#[derive(Clone, Copy, Debug, PartialEq)]
pub enum Way {
    /// The published Rust's.
    Published,
    /// One that keeps its word, within a hold.
    Within(f32),
}

/// The library's sheet, and what is told of it: changed by edits only.
pub struct Sheet {
    held: guineaplume::Sheet<Box<dyn Gradient>>,
    pub ramp: Ramp,
    /// The cells that edits have redone.
    pub redone: [bool; CELLS],
}

impl Sheet {
    pub fn open(ramp: Ramp, threshold: f32, way: Way) -> Result<Sheet, Refusal> {
        let sort = match way {
            Way::Published => ListSort::Thinned,
            Way::Within(hold) => ListSort::Within(hold),
        };
        let sheet = Sheet {
            held: guineaplume::Sheet::open(ramp.clone().boxed(), threshold, sort)?,
            ramp,
            redone: [false; CELLS],
        };
        sheet.list()?;
        Ok(sheet)
    }

    /// The threshold in force.
    pub fn threshold(&self) -> f32 {
        self.held.threshold()
    }

    pub fn list(&self) -> Result<&List, Refusal> {
        self.held.list()
    }

    pub fn edit(&mut self, edit: Edit) -> Result<(), Refusal> {
        let redone = redone(self.ramp.clone(), edit, self.held.record())?;
        self.held.edit(edit)?;
        self.ramp = Ramp::of_slices(self.held.ramp().as_slices())?;
        self.list()?;
        for (all, now) in self.redone.iter_mut().zip(redone) {
            *all |= now;
        }
        Ok(())
    }
}

/// Which cells an edit redoes: a row that is clear of it keeps every number, also one that no sampling gives.
fn redone(mut ramp: Ramp, edit: Edit, record: &Record) -> Result<[bool; CELLS], Refusal> {
    const STRANGE: f32 = -7.25e30;
    let mut strange = Record::from_parts(vec![STRANGE; ROWS], record.counts().to_vec(), record.marks().to_vec())?;
    ramp.edit(edit, &mut strange)?;
    let mut redone = [false; CELLS];
    for (cell, row) in redone.iter_mut().zip(strange.rows().chunks_exact(ROWS / CELLS)) {
        *cell = row.iter().any(|x| *x != STRANGE);
    }
    Ok(redone)
}
