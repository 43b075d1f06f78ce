//! What `apart` finds: marks between the bands, with the numbers of the depths, and the same in words below.

use super::canvas::{Canvas, LEFT};
use crate::apart::Apart;
use crate::number::{about, short};

const MARK: f32 = 18.0;
/// Below this many pixels two marks are one.
const NEAR: f32 = 44.0;
const ROWS: usize = 12;
const COLUMNS: usize = 3;

/// Faults that stand so near each other that one mark serves.
struct Run {
    first: usize,
    last: usize,
    from: f32,
    to: f32,
}

pub fn marks(canvas: &mut Canvas, apart: &Apart) {
    canvas.y += 2.0;
    let moved = runs(canvas, apart, |i| apart.depths[i].is_moved.then_some(i));
    row(canvas, &moved, "moved");
    let merged = runs(canvas, apart, |i| apart.depths[i].is_merged.then(|| i - 1));
    row(canvas, &merged, "merged");
    canvas.y += 2.0;
}

/// Faults in runs; a fault stands from one depth to another.
fn runs(canvas: &Canvas, apart: &Apart, fault: impl Fn(usize) -> Option<usize>) -> Vec<Run> {
    let mut runs: Vec<Run> = Vec::new();
    let found = (0..apart.depths.len()).filter_map(|last| Some((fault(last)?, last)));
    for (first, last) in found {
        let (from, to) = (canvas.x(apart.depths[first].position), canvas.x(apart.depths[last].position));
        match runs.last_mut() {
            Some(run) if from - run.to < NEAR => (run.last, run.to) = (last, to),
            _ => runs.push(Run { first, last, from, to }),
        }
    }
    runs
}

/// A mark for each run; of merged depths it is a bracket from the one to the other.
fn row(canvas: &mut Canvas, runs: &[Run], pattern: &str) {
    let top = canvas.y;
    for run in runs {
        let label = if run.first == run.last { run.first.to_string() } else { format!("{}–{}", run.first, run.last) };
        let words = 8.0 * label.chars().count() as f32 + 6.0;
        let middle = (run.from + run.to) / 2.0;
        let width = (run.to - run.from + 12.0).max(words + 20.0);
        let style = format!("fill=\"url(#{pattern})\" stroke=\"#000\"");
        canvas.rect(middle - width / 2.0, top, width, MARK, &style);
        canvas.rect(middle - words / 2.0, top + 2.0, words, MARK - 4.0, "fill=\"#fff\"");
        canvas.text(middle, top + 13.5, label, "font-size=\"12\" font-weight=\"600\" text-anchor=\"middle\"");
    }
    if !runs.is_empty() {
        canvas.text(LEFT - 8.0, top + 13.5, pattern, "font-size=\"12\" text-anchor=\"end\"");
        canvas.y += MARK + 2.0;
    }
}

/// The faults one by one, as far as there is room.
pub fn table(canvas: &mut Canvas, apart: &Apart) {
    let faults: Vec<String> = words(apart);
    if faults.is_empty() {
        return;
    }
    canvas.y += 24.0;
    canvas.text(LEFT, canvas.y, "The marks, by the numbers of the stops (counted from 0)", "font-weight=\"600\"");
    let rows = ((faults.len() + COLUMNS - 1) / COLUMNS).min(ROWS);
    for (i, words) in faults.iter().take(rows * COLUMNS).enumerate() {
        let (column, row) = (i / rows, i % rows);
        canvas.text(LEFT + 340.0 * column as f32, canvas.y + 18.0 * (row + 1) as f32, words, "font-size=\"12\"");
    }
    canvas.y += 18.0 * rows as f32;
    if faults.len() > rows * COLUMNS {
        canvas.y += 18.0;
        let rest = faults.len() - rows * COLUMNS;
        canvas.text(LEFT, canvas.y, format!("and {rest} more: 'plume apart' has them all"), "font-size=\"12\"");
    }
}

/// Each depth that is moved or merged.
pub fn words(apart: &Apart) -> Vec<String> {
    let mut all = Vec::new();
    for (i, depth) in apart.depths.iter().enumerate() {
        let moved = depth.is_moved.then(|| format!("moved, {} off", about(depth.distance)));
        let merged = depth.is_merged.then(|| format!("merged with {}", i - 1));
        let said: Vec<String> = [moved, merged].into_iter().flatten().collect();
        if !said.is_empty() {
            all.push(format!("{i} at {}: {}", short(depth.position), said.join("; ")));
        }
    }
    all
}
