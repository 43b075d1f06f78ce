//! GMT colour tables: slices of two values with a colour each, RGB from 0 to 255, with slashes or spaces, or a name of those
//! that GMT's own tables use.

use super::{lines, stumble, File, Row, Source};
use crate::fault::Answer;
use crate::number;
use guineaplume::slices::Kind;

const EXPECTED: &str = "expected 'z r g b z r g b' or 'z r/g/b z r/g/b'";

/// X11's, of which green is the full one and gray is 190.
const NAMES: [(&str, [u8; 3]); 18] = [
    ("black", [0, 0, 0]),
    ("white", [255, 255, 255]),
    ("red", [255, 0, 0]),
    ("green", [0, 255, 0]),
    ("blue", [0, 0, 255]),
    ("cyan", [0, 255, 255]),
    ("magenta", [255, 0, 255]),
    ("yellow", [255, 255, 0]),
    ("gray", [190, 190, 190]),
    ("bisque2", [238, 213, 183]),
    ("burlywood", [222, 184, 135]),
    ("darkorange1", [255, 127, 0]),
    ("darkorange3", [205, 102, 0]),
    ("ivory2", [238, 238, 224]),
    ("mediumaquamarine", [102, 205, 170]),
    ("mediumseagreen", [60, 179, 113]),
    ("saddlebrown", [139, 69, 19]),
    ("snow", [255, 250, 250]),
];

struct Slice {
    line: usize,
    ends: [(f32, [f32; 4]); 2],
}

pub fn read(file: &File) -> Answer<Source> {
    let mut rows: Vec<Row> = Vec::new();
    for (line, said) in lines(file.text.strip_prefix(super::MARK).unwrap_or(file.text)) {
        // what comes after ; is a label
        let said = said.split(';').next().unwrap_or_default();
        if let Some(comment) = said.strip_prefix('#') {
            model(file, line, comment)?;
            continue;
        }
        let fields: Vec<&str> = said.split_whitespace().collect();
        if fields.is_empty() || ["B", "F", "N"].contains(&fields[0]) {
            continue;
        }
        add(file, &mut rows, slice(file, line, &fields)?)?;
    }
    if rows.is_empty() {
        return file.unread(0, format!("{EXPECTED}; the table has no slice"));
    }
    file.scaled(&mut rows, true);
    let ramp = file.checked(Kind::Linear, &rows)?;
    Ok(file.gives(ramp))
}

/// A line `# COLOR_MODEL = ..` says which numbers the colours are.
fn model(file: &File, line: usize, comment: &str) -> Answer<()> {
    let (key, value) = comment.split_once('=').unwrap_or_default();
    let value = value.trim().trim_start_matches('+');
    if key.trim() == "COLOR_MODEL" && !value.eq_ignore_ascii_case("rgb") {
        return file.unread(line, format!("expected colours of the model RGB; found {}", stumble::quoted(value)));
    }
    Ok(())
}

fn slice(file: &File, line: usize, fields: &[&str]) -> Answer<Slice> {
    // a last field L, U or B says which end is labelled
    let fields = match fields.split_last() {
        Some((&("L" | "U" | "B"), before)) => before,
        _ => fields,
    };
    let halves = match fields.len() {
        8 => [owned(&fields[..4]), owned(&fields[4..])],
        4 => [slashed(&fields[..2]), slashed(&fields[2..])],
        found => return file.unread(line, format!("{EXPECTED}; {}", odd(found, fields))),
    };
    let mut ends = [(0.0, [0.0; 4]); 2];
    for (end, half) in ends.iter_mut().zip(&halves) {
        *end = end_of(file, line, half)?;
    }
    Ok(Slice { line, ends })
}

fn odd(found: usize, fields: &[&str]) -> String {
    match fields.iter().find(|field| number::read(field).is_none() && !field.contains('/')) {
        Some(field) => format!("found {}", stumble::quoted(field)),
        None if found == 5 => {
            "found 5 numbers: a stop of the tool's text has 'stop' before it, and CSV has a header".into()
        }
        None => format!("found {found} fields"),
    }
}

fn owned(half: &[&str]) -> Vec<String> {
    half.iter().map(|field| field.to_string()).collect()
}

/// A value and its colour in one field.
fn slashed(pair: &[&str]) -> Vec<String> {
    let channels: Vec<String> = match named(pair[1]) {
        Some(color) => color.iter().map(u8::to_string).collect(),
        None => pair[1].split('/').map(String::from).collect(),
    };
    std::iter::once(pair[0].into()).chain(channels).collect()
}

/// A colour by its name; gray0 to gray100 are hundredths.
fn named(name: &str) -> Option<[u8; 3]> {
    let hundredths = name.strip_prefix("gray").and_then(|number| number.parse::<u32>().ok());
    if let Some(hundredths) = hundredths.filter(|number| *number <= 100) {
        // so X11 rounds: gray50 is 127, gray10 is 26
        return Some([(f64::from(hundredths) * 2.55 + 0.5) as u8; 3]);
    }
    NAMES.iter().find(|(one, _)| *one == name).map(|(_, color)| *color)
}

fn end_of(file: &File, line: usize, half: &[String]) -> Answer<(f32, [f32; 4])> {
    let mut numbers = [0.0; 4];
    if half.len() != 4 {
        let found = half[1..].join("/");
        let names = if found.contains(char::is_alphabetic) { ", and no such name of a colour is known" } else { "" };
        return file.unread(line, format!("{EXPECTED}; found {}{names}", stumble::quoted(&found)));
    }
    for (number, field) in numbers.iter_mut().zip(half) {
        match number::read(field) {
            Some(read) => *number = read,
            None => return file.unread(line, format!("{EXPECTED}; {}", stumble::of_number(field))),
        }
    }
    let [value, r, g, b] = numbers;
    match [r, g, b].iter().find(|channel| !(0.0..=255.0).contains(*channel)) {
        Some(channel) => {
            file.unread(line, format!("expected channels from 0 to 255; found {}", number::short(*channel)))
        }
        None => Ok((value, [r, g, b, 255.0])),
    }
}

/// A slice starts where the one before it ends. Where it starts in another colour, the value comes twice.
fn add(file: &File, rows: &mut Vec<Row>, slice: Slice) -> Answer<()> {
    let [(from, first), (to, last)] = slice.ends;
    let line = slice.line;
    match rows.last() {
        Some(before) if before.position != from => {
            let (end, from) = (number::short(before.position), number::short(from));
            return file
                .unread(line, format!("expected a slice from {end} on, where the one before it ends; found {from}"));
        }
        Some(before) if before.channels == first => {}
        _ => rows.push(Row { line, position: from, channels: first }),
    }
    rows.push(Row { line, position: to, channels: last });
    Ok(())
}
