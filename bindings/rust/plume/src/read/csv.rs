//! CSV with a header: a position, and red, green, blue, perhaps alpha, or one column of #rrggbb. Parted by commas,
//! semicolons or tabs, as the header is.

use super::{lines, stumble, File, Row, Source};
use crate::color;
use crate::fault::Answer;
use crate::number;
use guineaplume::slices::Kind;

const EXPECTED: &str = "expected a header that names a position and r, g, b, perhaps a, or a color";
const POSITIONS: [&str; 9] = ["position", "pos", "t", "x", "z", "value", "depth", "elevation", "offset"];
const HEXES: [&str; 5] = ["color", "colour", "hex", "rgb", "rgba"];
/// The fourth form says that the channel is a byte.
const CHANNELS: [[&str; 4]; 4] = [
    ["r", "red", "r255", "red255"],
    ["g", "green", "g255", "green255"],
    ["b", "blue", "b255", "blue255"],
    ["a", "alpha", "a255", "alpha255"],
];

/// Which column has what.
struct Header {
    parted: char,
    columns: usize,
    position: usize,
    color: Columns,
}

enum Columns {
    Hex(usize),
    Channels { rgb: [usize; 3], alpha: Option<usize>, are_bytes: bool },
}

pub fn read(file: &File) -> Answer<Source> {
    // programs for tables put a mark first and end lines with CR LF: both are usual here
    let mut all = lines(file.text.strip_prefix(super::MARK).unwrap_or(file.text));
    let (line, said) = all.next().unwrap_or((1, String::new()));
    let header = header(file, line, &said)?;
    let mut rows = Vec::new();
    for (line, said) in all {
        if said.trim().is_empty() {
            continue;
        }
        if said.starts_with('#') && !matches!(header.color, Columns::Hex(0)) {
            return file.unread(line, format!("comments are not read: found {}", stumble::quoted(&said)));
        }
        rows.push(row(file, line, &said, &header)?);
    }
    let (is_hex, says_bytes) = match header.color {
        Columns::Hex(_) => (true, false),
        Columns::Channels { are_bytes, .. } => (false, are_bytes),
    };
    let notes = if is_hex { Vec::new() } else { file.scaled(&mut rows, says_bytes) };
    let ramp = file.checked(Kind::Linear, &rows)?;
    Ok(Source { notes, ..file.gives(ramp) })
}

fn header(file: &File, line: usize, said: &str) -> Answer<Header> {
    let count = |c: &char| said.matches(*c).count();
    let parted = ['\t', ';', ','].into_iter().max_by_key(count).unwrap_or(',');
    let names: Vec<String> = said.split(parted).map(|name| bare(name).to_lowercase()).collect();
    let find = |known: &[&str]| names.iter().position(|name| known.contains(&name.as_str()));
    let channel = |i: usize| find(&CHANNELS[i]);
    let color = match (find(&HEXES), channel(0), channel(1), channel(2)) {
        (Some(hex), ..) => Columns::Hex(hex),
        (None, Some(r), Some(g), Some(b)) => {
            let are_bytes = [r, g, b].iter().all(|column| names[*column].ends_with("255"));
            Columns::Channels { rgb: [r, g, b], alpha: channel(3), are_bytes }
        }
        _ => return file.unread(line, format!("{EXPECTED}; found {}", stumble::quoted(said))),
    };
    match find(&POSITIONS) {
        Some(position) => Ok(Header { parted, columns: names.len(), position, color }),
        None => file.unread(line, format!("{EXPECTED}; found no position in {}", stumble::quoted(said))),
    }
}

fn row(file: &File, line: usize, said: &str, header: &Header) -> Answer<Row> {
    let fields: Vec<&str> = said.split(header.parted).map(bare).collect();
    if fields.len() != header.columns {
        let comma = if header.parted == ',' && fields.len() > header.columns {
            ": a number has a point, not a comma"
        } else {
            ""
        };
        let words = format!("expected {} fields, as in the header; found {}{comma}", header.columns, fields.len());
        return file.unread(line, words);
    }
    let at = |column: usize| match number::read(fields[column]) {
        Some(read) => Ok(read),
        None => file.unread(line, format!("expected a number; {}", stumble::of_number(fields[column]))),
    };
    let channels = match &header.color {
        Columns::Hex(column) => match color::of_hex(fields[*column]) {
            Some(color) => color.to_array(),
            None => {
                let found = stumble::quoted(fields[*column]);
                return file.unread(line, format!("expected '#rrggbb' or '#rrggbbaa'; found {found}"));
            }
        },
        Columns::Channels { rgb: [r, g, b], alpha, are_bytes } => {
            let opaque = if *are_bytes || file.bytes { 255.0 } else { 1.0 };
            [at(*r)?, at(*g)?, at(*b)?, alpha.map_or(Ok(opaque), at)?]
        }
    };
    Ok(Row { line, position: at(header.position)?, channels })
}

/// Without spaces and quotes around it.
fn bare(field: &str) -> &str {
    let field = field.trim();
    field.strip_prefix('"').and_then(|inner| inner.strip_suffix('"')).unwrap_or(field)
}
