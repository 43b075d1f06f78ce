//! Real GIMP files: read or refused as the Rust's reader and document 01 have it; and read as GIMP saves them, with the Rust's
//! colours and lists.

use crate::gimp::texts;
use crate::harness::options::Options;
use crate::harness::oracle;
use crate::harness::ours;
use crate::harness::ramps::{Kind, Ramp, MOST_SEGMENTS};
use crate::harness::report::{all_same, Tally};
use crate::listed::lists::{self, MOST_POINTS};
use crate::painted::curves;
use crate::painted::hues;
use crate::painted::sine;
use std::path::{Path, PathBuf};

const POINTS: usize = 4096;

pub fn run(options: &Options, folder: &Path) -> Vec<Tally> {
    let files = sorted(folder);
    let mut tally = Tally::new("files: read", options.seed);
    let mut saved = Tally::new("files: read as GIMP saves them", options.seed);
    let mut colours = Tally::new("files: colours", options.seed);
    let mut flat = Tally::new("files: lists", options.seed);
    for (case, file) in files.iter().enumerate() {
        match std::fs::read(file) {
            Ok(text) => compare([&mut tally, &mut saved, &mut colours, &mut flat], case as u64, &text),
            Err(e) => tally.differs(case as u64, || format!("{}: {e}", file.display())),
        }
    }
    vec![tally.done(), saved.done(), colours.done(), flat.done()]
}

/// The segments of every file that the library reads.
pub fn ramps(folder: &Path) -> Vec<Ramp> {
    let texts = sorted(folder).into_iter().filter_map(|file| std::fs::read(file).ok());
    texts.filter_map(|text| ramp(&whole(text))).collect()
}

/// The segments of one file as GIMP saves it, foreground black and background white; or why there are none.
pub fn read_ramp(path: &Path) -> Result<Ramp, String> {
    let text = std::fs::read(path).map_err(|e| e.to_string())?;
    let (mut positions, mut channels) = (vec![0.0; 3 * MOST_SEGMENTS], vec![0.0; 8 * MOST_SEGMENTS]);
    let mut codes = vec![0; 2 * MOST_SEGMENTS];
    let colours = ([0.0, 0.0, 0.0, 1.0], [1.0; 4]);
    let segments = ours::read_saved(&text, colours, &mut positions, &mut channels, &mut codes)
        .map_err(|(number, line)| format!("with {number}, line {line}"))?;
    positions.truncate(3 * segments);
    channels.truncate(8 * segments);
    codes.truncate(2 * segments);
    Ok(Ramp { kind: Kind::GimpSaved, positions, channels, codes })
}

/// A text to be read, with room for all that may be.
fn whole(text: Vec<u8>) -> texts::Input {
    texts::Input { text, foreground: [0.0; 4], background: [1.0; 4], room: MOST_SEGMENTS }
}

fn sorted(folder: &Path) -> Vec<PathBuf> {
    let mut files = Vec::new();
    find(folder, &mut files);
    files.sort();
    files
}

fn find(folder: &Path, files: &mut Vec<PathBuf>) {
    for entry in std::fs::read_dir(folder).into_iter().flatten().flatten() {
        let path = entry.path();
        if path.is_dir() {
            find(&path, files);
        } else if path.extension().is_some_and(|e| e == "ggr") {
            files.push(path);
        }
    }
}

fn compare([tally, saved, colours, flat]: [&mut Tally; 4], case: u64, text: &[u8]) {
    let input = whole(text.to_vec());
    texts::read(tally, case, &input);
    saved.inputs(1);
    let Some(ramp) = ramp(&input) else {
        saved.differs(case, || "refused".to_string());
        return;
    };
    saved.answered(1);
    let Ok((g, _, _)) = oracle::read(text, input.foreground, input.background) else { return };
    let g: oracle::Boxed = Box::new(g);
    let points: Vec<f32> = (0..POINTS).map(|i| i as f32 / (POINTS - 1) as f32).collect();
    let want: Vec<f32> = points.iter().flat_map(|t| oracle::at(&g, *t)).collect();
    let mut got = vec![0.0; 4 * POINTS];
    let refusal = ours::paint(&ramp, &points, &mut got);
    colours.inputs(POINTS as u64);
    colours.answered(POINTS as u64);
    let own = sine::has_sine(&ramp) || curves::has_curve(&ramp);
    let (most, class) = match (curves::has_curve(&ramp), hues::has_hue(&ramp)) {
        (false, false) => (sine::MOST_GAP, sine::CLASS),
        (false, true) => (hues::MOST_GAP, hues::CLASS),
        (true, false) => (sine::MOST_GAP, curves::CLASS),
        (true, true) => (hues::MOST_GAP, curves::CLASS_BY_HUE),
    };
    let near = got.iter().zip(&want).all(|(a, b)| (a - b).abs() <= most);
    if refusal != 0 || !(all_same(&got, &want) || own && near) {
        colours.differs(case, || format!("painted with {refusal}"));
    }
    if own {
        // its list is of its own colours
        colours.listed(class);
        return;
    }
    for threshold in [0.001, 0.007] {
        lists::flattened(flat, case, &ramp, threshold, (MOST_POINTS, 4 * MOST_POINTS));
    }
}

/// The segments as the library reads them, of the kind that carries them.
fn ramp(input: &texts::Input) -> Option<Ramp> {
    let mut ramp = Ramp {
        kind: Kind::Gimp,
        positions: vec![0.0; 3 * MOST_SEGMENTS],
        channels: vec![0.0; 8 * MOST_SEGMENTS],
        codes: vec![0; 2 * MOST_SEGMENTS],
    };
    let colours = (input.foreground, input.background);
    let n = ours::read_saved(&input.text, colours, &mut ramp.positions, &mut ramp.channels, &mut ramp.codes).ok()?;
    ramp.positions.truncate(3 * n);
    ramp.channels.truncate(8 * n);
    ramp.codes.truncate(2 * n);
    if curves::has_curve(&ramp) {
        ramp.kind = Kind::GimpSaved;
    }
    Some(ramp)
}
