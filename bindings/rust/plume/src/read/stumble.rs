//! What people stumble over, each in its own words.

use super::{File, MARK};
use crate::fault::Fault;
use crate::number;

/// What a line should have been.
pub struct Expected<'a> {
    pub words: &'a str,
    /// Its first field.
    pub first: &'a str,
    /// How many numbers come after it.
    pub numbers: usize,
}

/// A line of the tool's text that is not read.
pub fn of_line(file: &File, line: usize, said: &str, expected: &Expected) -> Fault {
    let hint = hint(file, line, said, expected);
    Fault::unread(file.file, line, format!("expected {}; {hint}", expected.words))
}

fn hint(file: &File, line: usize, said: &str, expected: &Expected) -> String {
    let fields: Vec<&str> = said.split('\t').collect();
    let numbers = &fields[1..];
    let found = numbers.iter().find(|field| number::read(field).is_none());
    if line == 1 && file.text.starts_with(MARK) {
        return "a byte-order mark stands before it: save the file as UTF-8 without one".into();
    }
    if said.trim_start().starts_with(['#', ';', '%']) || said.starts_with("//") {
        return format!("comments are not read: found {}", quoted(said));
    }
    if said.trim().is_empty() {
        return "found an empty line".into();
    }
    if said.ends_with('\r') {
        return "found a carriage return at its end with no line feed after it: end every line alike".into();
    }
    if fields.len() == 1 && said.split_whitespace().count() > 1 {
        return format!("found spaces where tabs belong: {}", quoted(said));
    }
    if fields[0] != expected.first {
        return format!("found {}", quoted(said));
    }
    if expected.numbers == 5 && numbers.len() == 4 && found.is_none() {
        return "found 4: the alpha is missing, 1 where nothing shines through".into();
    }
    match found {
        Some(field) => of_number(field),
        None => format!("found {}", numbers.len()),
    }
}

/// Why a field is not a number.
pub fn of_number(field: &str) -> String {
    let shown = quoted(field);
    let inner = field.trim();
    match inner {
        "" => "found an empty field".into(),
        _ if number::read(&inner.replacen(',', ".", 1)).is_some() && inner.contains(',') => {
            format!("a number has a point, not a comma: found {shown}")
        }
        _ if inner != field && number::read(inner).is_some() => format!("found spaces around a number: {shown}"),
        _ if inner.ends_with('%') => format!("a channel runs from 0 to 1, without a percent sign: found {shown}"),
        _ if inner.bytes().filter(u8::is_ascii_digit).count() > 18 => {
            format!("a number has at most 18 digits: found {shown}")
        }
        _ if inner.contains(['e', 'E']) && inner.parse::<f32>().is_ok() => {
            format!("a number has no exponent: found {shown}")
        }
        _ => format!("found {shown}"),
    }
}

/// A file that is none of those that are read.
pub fn unknown(file: &File) -> Fault {
    let expected = "expected a GIMP gradient, the tool's text (its first line is 'kind'), a GMT colour table, \
                    or CSV with a header";
    if file.text.is_empty() {
        return Fault::unread(file.file, 0, format!("{expected}; the file is empty"));
    }
    if file.text.starts_with(b"\xff\xfe") || file.text.starts_with(b"\xfe\xff") {
        return Fault::unread(file.file, 0, format!("{expected}; this is UTF-16: save it as UTF-8"));
    }
    let first = String::from_utf8_lossy(file.text);
    let first = first.lines().next().unwrap_or_default();
    Fault::unread(file.file, 1, format!("{expected}; found {}", quoted(first)))
}

/// What was found, cut where it is long, with tabs shown.
pub fn quoted(found: &str) -> String {
    let shown: String = found.chars().take(40).flat_map(shown).collect();
    let more = if found.chars().count() > 40 { ".." } else { "" };
    format!("'{shown}{more}'")
}

fn shown(c: char) -> Vec<char> {
    match c {
        '\t' => vec!['\\', 't'],
        '\r' => vec!['\\', 'r'],
        c if c.is_control() || c == '\u{fffd}' => vec!['?'],
        c => vec![c],
    }
}
