//! The command line.

use crate::fault::{Answer, Fault};
use crate::number;
use crate::sheet::Way;
use crate::write::{Format, FORMATS};

/// The threshold of document 01 where none is named.
const THRESHOLD: f32 = 0.007;
/// The hold where none is named.
const HOLD: f32 = 0.001;
/// How far apart depths shall be to be told apart, where nothing is named.
const STEP: f32 = 0.02;

/// What was asked for.
#[derive(Debug, Default)]
pub struct Options {
    /// Files, and the words of edits.
    pub words: Vec<String>,
    threshold: Option<f32>,
    hold: Option<f32>,
    is_published: bool,
    to: Option<Format>,
    pub out: Option<String>,
    pub domain: Option<(f32, f32)>,
    pub bytes: bool,
    step: Option<f32>,
    pub depths: Option<Vec<f32>>,
    /// Edits that a picture shows.
    pub edits: Vec<String>,
}

impl Options {
    /// Reads the words after a command, which takes these options.
    pub fn read(command: &str, takes: &[&str], words: &[String]) -> Answer<Options> {
        let mut options = Options::default();
        let mut rest = words.iter().map(String::as_str);
        while let Some(word) = rest.next() {
            if !is_option(word) {
                options.words.push(word.into());
                continue;
            }
            let name = long(word);
            if !takes.contains(&name) {
                return Err(Fault::usage(format!("{command} takes no {word}; see plume help {command}")));
            }
            let mut next = || rest.next().ok_or_else(|| Fault::usage(format!("{word} lacks what comes after it")));
            options.take(name, &mut next)?;
        }
        if options.is_published && options.hold.is_some() {
            return Err(Fault::usage("--published lists have no hold: leave --hold out"));
        }
        Ok(options)
    }

    fn take<'a>(&mut self, name: &str, next: &mut dyn FnMut() -> Answer<&'a str>) -> Answer<()> {
        match name {
            "--threshold" => self.threshold = Some(number_of(name, next()?)?),
            "--hold" => self.hold = Some(number_of(name, next()?)?),
            "--step" => self.step = Some(number_of(name, next()?)?),
            "--published" => self.is_published = true,
            "--bytes" => self.bytes = true,
            "--to" => self.to = Some(format_of(next()?)?),
            "--out" => self.out = Some(next()?.into()),
            "--edit" => self.edits.extend(next()?.split_whitespace().map(String::from)),
            "--domain" => {
                let (min, max) = (number_of(name, next()?)?, number_of(name, next()?)?);
                if min >= max {
                    return Err(Fault::usage("--domain wants the lesser number first, and two that differ"));
                }
                self.domain = Some((min, max));
            }
            _ => self.depths = Some(next()?.split(',').map(|depth| number_of(name, depth)).collect::<Answer<_>>()?),
        }
        Ok(())
    }

    /// What is asked for, before a file's own, before the default.
    pub fn threshold(&self, of_file: Option<f32>) -> f32 {
        self.threshold.or(of_file).unwrap_or(THRESHOLD)
    }

    pub fn names_threshold(&self) -> bool {
        self.threshold.is_some()
    }

    pub fn way(&self) -> Way {
        if self.is_published {
            Way::Published
        } else {
            Way::Within(self.hold.unwrap_or(HOLD))
        }
    }

    pub fn step(&self) -> f32 {
        self.step.unwrap_or(STEP)
    }

    /// The format that is named, else the one of the output's ending, else the tool's text.
    pub fn format(&self) -> Format {
        self.to.or_else(|| Format::of_file(self.out.as_deref()?)).unwrap_or(Format::Text)
    }
}

/// `-` is standard input, and a minus before a digit a number.
fn is_option(word: &str) -> bool {
    let after = word.strip_prefix('-').and_then(|rest| rest.chars().next());
    after.map_or(false, |c| !c.is_ascii_digit() && c != '.')
}

fn long(word: &str) -> &str {
    match word {
        "-t" => "--threshold",
        "-o" => "--out",
        _ => word,
    }
}

fn number_of(name: &str, text: &str) -> Answer<f32> {
    number::read(text).ok_or_else(|| Fault::usage(format!("{name} wants a number; found '{text}'")))
}

fn format_of(name: &str) -> Answer<Format> {
    let names = FORMATS.map(|(name, ..)| name).join(", ");
    Format::of_name(name).ok_or_else(|| Fault::usage(format!("--to wants one of {names}; found '{name}'")))
}
