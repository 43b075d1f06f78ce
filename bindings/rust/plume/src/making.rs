//! From a file and what is asked of it to its list.

use crate::apart::{self, Apart};
use crate::edits::Word;
use crate::fault::{Answer, Fault, FAULTY};
use crate::options::Options;
use crate::ramp::{stops_of, Ramp, Stops};
use crate::read::Source;
use crate::report;
use crate::sheet::{Sheet, Way};
use guineaplume::slices::{self, Kind, CELLS};
use guineaplume::{Color, Refusal, Verdict};

/// A ramp, edits made, with its list.
pub struct Made {
    pub ramp: Ramp,
    pub list: Stops,
    pub evaluations: usize,
    /// The threshold in force.
    pub threshold: f32,
    pub way: Way,
    /// The cells that the edits redid.
    pub redone: [bool; CELLS],
}

/// Flattens a source: its own edit first, then the words of others.
pub fn make(source: &Source, edits: &[Word], options: &Options) -> Answer<Made> {
    let refused = |refusal| Fault::refused_since(&source.file, 0, refusal, more(refusal));
    let asked = options.threshold(source.threshold);
    let way = match options.way() {
        Way::Within(hold) => Way::Within(slices::hold(hold, asked)),
        Way::Published => Way::Published,
    };
    let mut sheet = Sheet::open(source.ramp.clone(), asked, way).map_err(refused)?;
    if let Some((edit, line)) = source.edit {
        sheet.edit(edit).map_err(|refusal| Fault::refused_since(&source.file, line, refusal, more(refusal)))?;
    }
    for word in edits {
        let refused = |refusal| Fault::refused_since(&source.file, 0, refusal, &format!("; the edit is '{word}'"));
        sheet.edit(word.of(&sheet.ramp)).map_err(refused)?;
    }
    let list = sheet.list().map_err(refused)?;
    let (list, evaluations) = (stops_of(list), list.evaluations());
    Ok(Made { threshold: sheet.threshold(), way, evaluations, redone: sheet.redone, ramp: sheet.ramp, list })
}

/// What helps against a refusal of a list.
fn more(refusal: Refusal) -> &'static str {
    match refusal {
        Refusal::NoRoom => "; a list has at most 4,609 stops: a greater --hold gives fewer, --published never more",
        _ => "",
    }
}

/// What is said of a list beside its ramp.
pub struct Said {
    pub apart: Apart,
    pub verdict: Verdict,
}

impl Said {
    pub fn of(file: &str, ramp: &Ramp, list: &Stops, threshold: f32, options: &Options) -> Answer<Said> {
        let (positions, colors): (Vec<f32>, Vec<Color>) = list.iter().copied().unzip();
        let judged = ramp.gradient().judge(threshold, &positions, &colors);
        let verdict = judged.map_err(|refusal| Fault::refused(file, refusal))?;
        let apart = apart::apart(file, ramp, list, threshold, options.step(), options.depths.as_deref())?;
        Ok(Said { apart, verdict })
    }

    /// Judged no, or depths merged.
    pub fn status(&self) -> u8 {
        let is_faulty = !self.verdict.is_yes() || self.apart.has_merged();
        if is_faulty {
            FAULTY
        } else {
            0
        }
    }

    pub fn line(&self, made: &Made) -> String {
        let linear = if made.ramp.kind() == Kind::Linear {
            " The ramp is linear: its own stops are a list already, which 'plume convert' keeps."
        } else {
            ""
        };
        format!("{}{linear}", report::line(&made.ramp.count(), made.list.len(), &self.apart, self.verdict))
    }
}

/// What is to be said where a number was taken otherwise than it was asked for.
pub fn notes(source: &Source, options: &Options) -> Vec<String> {
    let asked = options.threshold(source.threshold);
    let in_force = slices::threshold(asked);
    let mut notes = source.notes.clone();
    if asked != in_force {
        notes.push(format!("{}: the threshold {asked} is taken as {in_force}", source.file));
    }
    if let Way::Within(hold) = options.way() {
        let held = slices::hold(hold, asked);
        if held != hold {
            notes.push(format!("{}: the hold {hold} is taken as {held}", source.file));
        }
    }
    notes
}
