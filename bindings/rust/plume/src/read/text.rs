//! The tool's text: `kind`, perhaps `threshold`, `stop` after `stop`, perhaps `edit`, with tabs between.

use super::stumble::{self, Expected};
use super::{lines, File, Row, Source};
use crate::fault::Answer;
use crate::number;
use crate::ramp::KINDS;
use guineaplume::slices::Kind;
use guineaplume::Edit;

const STOP: Expected = Expected { words: "'stop' and 5 numbers parted by tabs", first: "stop", numbers: 5 };
const EDIT: Expected =
    Expected { words: "'edit', the stop's number and 4 numbers parted by tabs", first: "edit", numbers: 5 };
const THRESHOLD: Expected = Expected { words: "'threshold', a tab and a number", first: "threshold", numbers: 1 };

pub fn read(file: &File) -> Answer<Source> {
    let (mut kind, mut threshold, mut edit, mut rows) = (None, None, None, Vec::new());
    for (line, said) in lines(file.text) {
        let first = said.split('\t').next().unwrap_or_default();
        match first {
            _ if kind.is_none() => kind = Some(kind_of(file, line, &said)?),
            _ if edit.is_some() => return file.unread(line, "expected nothing after 'edit'"),
            "threshold" if rows.is_empty() && threshold.is_none() => {
                threshold = Some(numbers::<1>(file, line, &said, &THRESHOLD)?[0]);
            }
            "edit" if !rows.is_empty() => edit = Some((edit_of(file, line, &said)?, line)),
            _ => {
                let [position, channels @ ..] = numbers::<5>(file, line, &said, &STOP)?;
                rows.push(Row { line, position, channels });
            }
        }
    }
    let kind = match kind {
        Some(kind) => kind,
        None => return file.unread(1, "the file is empty; expected 'kind', a tab and its name"),
    };
    let notes = file.scaled(&mut rows, false);
    let ramp = file.checked(kind, &rows)?;
    let text = (!file.bytes).then(|| file.text.to_vec());
    Ok(Source { threshold, edit, text, notes, ..file.gives(ramp) })
}

fn kind_of(file: &File, line: usize, said: &str) -> Answer<Kind> {
    let named = said.strip_prefix("kind\t");
    if let Some((_, kind)) = KINDS.iter().find(|(name, _)| Some(*name) == named) {
        return Ok(*kind);
    }
    let names: Vec<&str> = KINDS.iter().map(|(name, _)| *name).collect();
    let words = format!("'kind', a tab and one of {}", names.join(", "));
    Err(stumble::of_line(file, line, said, &Expected { words: &words, first: "kind", numbers: 0 }))
}

fn numbers<const N: usize>(file: &File, line: usize, said: &str, expected: &Expected) -> Answer<[f32; N]> {
    let mut fields = said.split('\t');
    let is_first = fields.next() == Some(expected.first);
    let read: Option<Vec<f32>> = fields.map(number::read).collect();
    match read.map(<[f32; N]>::try_from) {
        Some(Ok(read)) if is_first => Ok(read),
        _ => Err(stumble::of_line(file, line, said, expected)),
    }
}

fn edit_of(file: &File, line: usize, said: &str) -> Answer<Edit> {
    let wrong = || stumble::of_line(file, line, said, &EDIT);
    let index = said.split('\t').nth(1).unwrap_or_default();
    let is_index = (1..=18).contains(&index.len()) && index.bytes().all(|byte| byte.is_ascii_digit());
    let [_, channels @ ..] = numbers::<5>(file, line, said, &EDIT)?;
    if !is_index {
        return Err(wrong());
    }
    let stop = index.parse().map_err(|_| wrong())?;
    let mut rows = [Row { line, position: 0.0, channels }];
    file.scaled(&mut rows, false);
    Ok(Edit::Color { stop, color: rows[0].channels.into() })
}
