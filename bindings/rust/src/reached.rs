//! Every call of the header is reached from the public names of this crate.

use std::cell::RefCell;
use std::collections::BTreeSet;
use std::string::{String, ToString};
use std::vec::Vec;
use std::{assert, assert_eq, thread_local};

use crate::slices::{self, RecordMut, SegmentsMut, StopsMut, CELLS, MARKS, MOST_POINTS, ROWS};
use crate::{
    desk, Color, Edit, GimpGradient, Gradient, LinearGradient, ListSort, Refresh, Refusal, SharpGradient, Sheet,
    Verdict,
};

const HEADER: &str = include_str!("../../../include/colorgrad_calls.h");
const TEXT: &[u8] = b"GIMP Gradient\nName: x\n1\n0 0.5 1 0 0 0 1 1 1 1 1 0 0\n";

thread_local! {
    static REACHED: RefCell<BTreeSet<&'static str>> = RefCell::default();
}

/// An export was called.
pub(crate) fn note(export: &'static str) {
    REACHED.with(|reached| reached.borrow_mut().insert(export));
}

/// Each line that starts with a type and a name with a bracket after it.
fn declared() -> BTreeSet<String> {
    let types = ["uint32_t", "size_t", "float"];
    let name = |line: &str| {
        let (answer, rest) = line.split_once(' ')?;
        let name = rest.split('(').next().filter(|name| name.starts_with("colorgrad_"))?;
        types.contains(&answer).then(|| name.to_string())
    };
    HEADER.lines().filter_map(name).collect()
}

fn ramp() -> LinearGradient {
    let gray = |x: f32| Color::new(x, x, x, 1.0);
    LinearGradient::new(&[0.0, 0.5, 1.0], &[0.0, 0.75, 1.0].map(gray)).expect("a ramp")
}

fn ramps_are_asked() {
    let ramp = ramp();
    let _ = (ramp.at(0.5), ramp.domain(), ramp.colors_at(&[0.5]), desk(b""));
    let colors: Vec<Color> = ramp.colors(2).collect();
    SharpGradient::build(&colors, (0.0, 1.0), 0.5).expect("bands");
    assert_eq!(GimpGradient::new(TEXT, &colors[0], &colors[1]).expect("a text").name(), "x");
    let out = SegmentsMut { positions: &mut [0.0; 3], channels: &mut [0.0; 8], codes: &mut [0; 2] };
    assert_eq!(slices::read(TEXT, colors[0], colors[1], out), Ok(1));
}

fn lists_are_made() -> Result<(), Refusal> {
    let ramp = ramp();
    let record = ramp.sample(0.007)?;
    let (_, list) = ramp.flatten(0.007)?;
    ramp.flatten_within(0.007, 0.001)?;
    assert_eq!(ramp.thin(&record)?.len(), ramp.stops_of(&record).count());
    ramp.thin_within(&record, 0.001)?;
    assert_eq!(ramp.judge(0.007, list.positions(), list.colors())?.to_string(), Verdict::Yes.to_string());
    list.apart(&ramp, 0.007, 0.02, &[0.5])?;
    list.to_ggr()?;
    Ok(())
}

fn edits_are_made() -> Result<(), Refusal> {
    let (mut ramp, edit) = (ramp(), Edit::Remove { stop: 1 });
    let mut record = ramp.sample(0.007)?;
    let (mut rows, mut counts, mut marks) = ([0.0; ROWS], [0; CELLS], [0; MARKS]);
    rows.copy_from_slice(record.rows());
    counts.copy_from_slice(record.counts());
    marks.copy_from_slice(record.marks());
    let (mut positions, mut channels) = ([0.0; MOST_POINTS], [0.0; 4 * MOST_POINTS]);
    let held = RecordMut { rows: &mut rows, counts: &mut counts, marks: &mut marks };
    let out = StopsMut { positions: &mut positions, channels: &mut channels };
    ramp.as_slices().refresh_list(edit, 0.007, held, out)?;
    let mut sheet = Sheet::open(ramp.clone(), 0.007, ListSort::Thinned)?;
    sheet.edit(edit)?;
    ramp.edit(edit, &mut record)?;
    assert_eq!((sheet.record(), sheet.list()?.len()), (&record, 2));
    Ok(())
}

fn leaves_are_asked() {
    let _ = (slices::threshold(0.1), slices::hold(0.1, 0.1), slices::root(2.0), slices::cutoff(0.1), slices::version());
    let _ = (
        slices::token(b"1"),
        slices::long_token(b"1e5"),
        slices::name(TEXT, &mut []),
        slices::numeral(1.0, &mut []),
        Refusal::Torn.to_string(),
    );
}

#[test]
fn every_call_of_the_header_is_reached() {
    ramps_are_asked();
    lists_are_made().expect("lists");
    edits_are_made().expect("edits");
    leaves_are_asked();
    let reached = REACHED.with(|reached| reached.borrow().iter().map(ToString::to_string).collect::<BTreeSet<_>>());
    assert!(declared().len() >= 30, "every call is found");
    assert_eq!(reached, declared());
}
