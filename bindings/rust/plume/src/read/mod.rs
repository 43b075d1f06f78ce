//! Files in: what they are is told by their first bytes.

mod cpt;
mod csv;
mod gimp;
mod hues;
mod printed;
mod stumble;
mod text;

use crate::fault::{Answer, Fault};
use crate::number;
use crate::ramp::Ramp;
use guineaplume::slices::Kind;
use guineaplume::{Color, Edit, Refusal};
use std::io::Read;
use std::path::Path;

/// What a file gave.
#[derive(Debug)]
pub struct Source {
    /// As messages name it.
    pub file: String,
    /// Its name without folder and ending, for what is written of it.
    pub name: String,
    pub ramp: Ramp,
    /// The threshold that the file asks for.
    pub threshold: Option<f32>,
    /// The edit that the file asks for, and its line.
    pub edit: Option<(Edit, usize)>,
    /// The file itself, where it is the tool's text.
    pub text: Option<Vec<u8>>,
    /// What is to be said of it although it was read.
    pub notes: Vec<String>,
}

/// A stop as it stands in a file.
struct Row {
    line: usize,
    position: f32,
    channels: [f32; 4],
}

/// Reads a file, `-` for standard input. `bytes`: channels run to 255.
pub fn read(named: &str, bytes: bool) -> Answer<Source> {
    let (file, name) = names(named);
    let text = load(named, &file)?;
    let file = File { file: &file, text: &text, bytes };
    let given = match sort_of(&text) {
        Sort::Gimp => gimp::read(&file)?,
        Sort::Text => text::read(&file)?,
        Sort::Printed => printed::read(&file)?,
        Sort::Cpt => cpt::read(&file)?,
        Sort::Csv => csv::read(&file)?,
        Sort::Unknown => return Err(stumble::unknown(&file)),
    };
    Ok(Source { name, file: file.file.into(), ..given })
}

/// What the readers are given.
pub struct File<'a> {
    file: &'a str,
    text: &'a [u8],
    bytes: bool,
}

impl File<'_> {
    fn unread<T>(&self, line: usize, words: impl Into<String>) -> Answer<T> {
        Err(Fault::unread(self.file, line, words))
    }

    /// A ramp and nothing else.
    fn gives(&self, ramp: Ramp) -> Source {
        let (file, name) = (String::new(), String::new());
        Source { file, name, ramp, threshold: None, edit: None, text: None, notes: Vec::new() }
    }

    /// Checks stops, and names the line of the first that is refused.
    fn checked(&self, kind: Kind, rows: &[Row]) -> Answer<Ramp> {
        let stops: Vec<(f32, Color)> = rows.iter().map(|row| (row.position, row.channels.into())).collect();
        Ramp::of_stops(kind, &stops).map_err(|refusal| self.refused(rows, refusal))
    }

    fn refused(&self, rows: &[Row], refusal: Refusal) -> Fault {
        let (line, more) = match refusal {
            Refusal::Falling => {
                let falls = |pair: &&[Row]| pair[1].position < pair[0].position;
                let pair = rows.windows(2).find(falls).expect("one falls");
                let (was, is) = (number::short(pair[0].position), number::short(pair[1].position));
                (pair[1].line, format!("; {is} comes after {was}"))
            }
            Refusal::Misshapen => (0, format!("; the file has {}, and 2 to 2,048 are allowed", rows.len())),
            _ => (0, String::new()),
        };
        Fault::refused_since(self.file, line, refusal, &more)
    }

    /// Takes channels of 0..255 to 0..1 where that is said, and says it where it may have been meant.
    fn scaled(&self, rows: &mut [Row], says_bytes: bool) -> Vec<String> {
        if !says_bytes && !self.bytes {
            return rows.iter().find_map(|row| self.too_bright(row)).into_iter().collect();
        }
        // alpha is often left at 1 where the colours run to 255
        let has_byte_alpha = rows.iter().any(|row| row.channels[3] > 1.0);
        for row in rows.iter_mut() {
            for (i, channel) in row.channels.iter_mut().enumerate() {
                if i < 3 || has_byte_alpha {
                    *channel = number::channel(*channel);
                }
            }
        }
        let has_alpha = rows.iter().any(|row| row.channels[3] > 0.0);
        let note = format!("{}: no alpha is above 1, so alpha is taken as 0..1, the colours as 0..255", self.file);
        if self.bytes && !says_bytes && has_alpha && !has_byte_alpha {
            vec![note]
        } else {
            Vec::new()
        }
    }

    fn too_bright(&self, row: &Row) -> Option<String> {
        let bright = row.channels.iter().find(|channel| **channel > 1.001)?;
        let (file, line, found) = (self.file, row.line, number::short(*bright));
        Some(format!("{file}:{line}: a channel is {found}, and counts as 1: if channels run to 255, say --bytes"))
    }
}

#[derive(Debug, PartialEq)]
enum Sort {
    Gimp,
    Text,
    Printed,
    Cpt,
    Csv,
    Unknown,
}

const MARK: &[u8] = b"\xef\xbb\xbf";

fn sort_of(text: &[u8]) -> Sort {
    let text = text.strip_prefix(MARK).unwrap_or(text);
    if text.starts_with(b"GIMP") {
        return Sort::Gimp;
    }
    let said = |line: &&[u8]| !line.iter().all(u8::is_ascii_whitespace) && !line.starts_with(b"#");
    let first = text.split(|byte| *byte == b'\n').find(said).unwrap_or_default();
    let first = String::from_utf8_lossy(first).to_lowercase();
    let word = first.split(|c: char| c.is_whitespace() || c == ',' || c == ';').next().unwrap_or_default();
    let is_parted = first.contains([',', ';', '\t']);
    match word {
        "stops" if first.contains("evaluations") => Sort::Printed,
        "kind" | "threshold" | "edit" => Sort::Text,
        "stop" if first.contains(char::is_numeric) => Sort::Text,
        "b" | "f" | "n" if first.trim().len() > 1 && !first.contains(',') => Sort::Cpt,
        _ if word.starts_with(|c: char| c.is_ascii_digit() || "+-.".contains(c)) && !first.contains([',', ';']) => {
            Sort::Cpt
        }
        _ if is_parted => Sort::Csv,
        _ => Sort::Unknown,
    }
}

/// How messages name a file, and what is written of it is called.
fn names(named: &str) -> (String, String) {
    if named == "-" {
        return ("standard input".into(), "ramp".into());
    }
    let stem = Path::new(named).file_stem().unwrap_or_default().to_string_lossy();
    let name: String = stem.chars().filter(|c| !c.is_control()).collect();
    let name = name.trim();
    (named.into(), if name.is_empty() { "ramp".into() } else { name.into() })
}

fn load(named: &str, file: &str) -> Answer<Vec<u8>> {
    // no ramp is longer; a file of another sort should not fill the memory
    const MOST: u64 = 4 << 20;
    let mut text = Vec::new();
    let read = if named == "-" {
        std::io::stdin().lock().take(MOST + 1).read_to_end(&mut text)
    } else {
        std::fs::File::open(named).and_then(|opened| opened.take(MOST + 1).read_to_end(&mut text))
    };
    match read {
        Err(error) => Err(Fault::disk(file, &error)),
        Ok(length) if length as u64 > MOST => Err(Fault::unread(file, 0, "longer than 4 MiB: this is no ramp")),
        Ok(_) => Ok(text),
    }
}

/// The lines of a text, counted from 1, as the tool takes them: they end at LF, and a CR just before it goes too.
fn lines(text: &[u8]) -> impl Iterator<Item = (usize, String)> + '_ {
    let whole = text.strip_suffix(b"\n");
    let parts = whole.unwrap_or(text).split(|byte| *byte == b'\n').enumerate();
    let last = text.iter().filter(|byte| **byte == b'\n').count() + usize::from(whole.is_none());
    parts.map(move |(i, line)| {
        let has_end = i + 1 < last || whole.is_some();
        let line = if has_end { line.strip_suffix(b"\r").unwrap_or(line) } else { line };
        (i + 1, String::from_utf8_lossy(line).into_owned())
    })
}
