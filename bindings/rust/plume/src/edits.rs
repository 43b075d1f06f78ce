//! Edits as words: `color 3 #1a2b3c`, `move 3 0.42`, `add 0.42 #1a2b3c`, `remove 3`, one after the other.

use crate::color;
use crate::fault::{Answer, Fault};
use crate::number;
use crate::ramp::Ramp;
use guineaplume::{Color, Edit};
use std::fmt;

/// One edit, before it is known among which stops it falls.
#[derive(Clone, Copy, Debug, PartialEq)]
pub enum Word {
    Color(usize, Color),
    Move(usize, f32),
    Add(f32, Color),
    Remove(usize),
}

pub fn read(words: &[String]) -> Answer<Vec<Word>> {
    let mut edits = Vec::new();
    let mut rest = words.iter().map(String::as_str);
    while let Some(word) = rest.next() {
        let mut next = |what: &str| rest.next().ok_or_else(|| missing(word, what));
        edits.push(match word {
            "color" | "colour" => Word::Color(stop(next("a stop's number")?)?, color_of(next("a color")?)?),
            "move" => Word::Move(stop(next("a stop's number")?)?, position(next("a position")?)?),
            "add" => Word::Add(position(next("a position")?)?, color_of(next("a color")?)?),
            "remove" => Word::Remove(stop(next("a stop's number")?)?),
            _ => return Err(Fault::usage(format!("expected an edit: color, move, add or remove; found '{word}'"))),
        });
    }
    Ok(edits)
}

fn missing(word: &str, what: &str) -> Fault {
    Fault::usage(format!("the edit '{word}' lacks {what}: color 3 #1a2b3c, move 3 0.42, add 0.42 #1a2b3c, remove 3"))
}

fn stop(text: &str) -> Answer<usize> {
    text.parse().map_err(|_| Fault::usage(format!("expected the number of a stop, counted from 0; found '{text}'")))
}

fn position(text: &str) -> Answer<f32> {
    number::read(text).ok_or_else(|| Fault::usage(format!("expected a position; found '{text}'")))
}

fn color_of(text: &str) -> Answer<Color> {
    color::of_hex(text)
        .ok_or_else(|| Fault::usage(format!("expected a color as '#rrggbb' or '#rrggbbaa'; found '{text}'")))
}

/// As it was written.
impl fmt::Display for Word {
    fn fmt(&self, f: &mut fmt::Formatter<'_>) -> fmt::Result {
        match *self {
            Word::Color(stop, color) => write!(f, "color {stop} {}", color::hex(color)),
            Word::Move(stop, position) => write!(f, "move {stop} {position}"),
            Word::Add(position, color) => write!(f, "add {position} {}", color::hex(color)),
            Word::Remove(stop) => write!(f, "remove {stop}"),
        }
    }
}

impl Word {
    /// The edit of this ramp; a stop more comes after those that stand before it or where it stands.
    pub fn of(self, ramp: &Ramp) -> Edit {
        match self {
            Word::Color(stop, color) => Edit::Color { stop, color },
            Word::Move(stop, position) => Edit::Move { stop, position },
            Word::Remove(stop) => Edit::Remove { stop },
            Word::Add(position, color) => {
                let stop = ramp.positions().partition_point(|p| *p <= position);
                Edit::Add { stop, position, color }
            }
        }
    }
}
