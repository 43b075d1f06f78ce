//! What stands on the command line after the name of the command.

use std::ops::Range;

#[derive(Clone)]
pub struct Options {
    /// How many inputs.
    pub size: u64,
    pub seed: u64,
    /// The one case to run again.
    pub case: Option<u64>,
    /// A folder, or the name of a table.
    pub name: Option<String>,
}

impl Options {
    /// `full` is the size where none is given.
    pub fn read(words: &[String], full: u64) -> Result<Options, String> {
        let mut options = Options { size: full, seed: 1, case: None, name: None };
        let mut rest = words.iter();
        while let Some(word) = rest.next() {
            match word.as_str() {
                "--seed" => options.seed = number(rest.next())?,
                "--case" => options.case = Some(number(rest.next())?),
                _ if word.starts_with(|c: char| c.is_ascii_digit()) => options.size = number(Some(word))?,
                _ => options.name = Some(word.clone()),
            }
        }
        Ok(options)
    }

    /// The cases to run: all of them, or the one that is asked for.
    pub fn cases(&self) -> Range<u64> {
        match self.case {
            Some(case) => case..case + 1,
            None => 0..self.size,
        }
    }
}

fn number(word: Option<&String>) -> Result<u64, String> {
    let word = word.ok_or("a number is missing")?;
    word.replace('_', "").parse().map_err(|_| format!("not a number: {word}"))
}
