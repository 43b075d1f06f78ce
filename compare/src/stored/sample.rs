//! The stored answers that the program `replay` runs: all of them the Rust's, or document 01's refusals, but for the lists that
//! keep their word, which `sample_within` works out. `sample_sheets` has the sheets.
//! A word is eight hexadecimal digits and a line end; README.md has the records.

use crate::harness::options::Options;
use crate::stored::words::Words;
use crate::stored::{sample_colours, sample_edits, sample_lists, sample_made, sample_sheets, sample_within};
use std::path::Path;

/// Writes the program's standard input and what it must print.
pub fn run(options: &Options, folder: &Path) -> std::io::Result<()> {
    let mut words = Words::default();
    sample_colours::run(options, &mut words);
    sample_lists::lists(options, &mut words);
    sample_lists::thinned(options, &mut words);
    sample_edits::run(options, &mut words);
    sample_made::gimp(options, &mut words);
    sample_made::built(options, &mut words);
    sample_within::run(options, &mut words);
    sample_sheets::run(options, &mut words);
    words.store(folder)
}
