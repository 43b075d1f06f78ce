//! The stored answers of the program replay.

pub mod drawn;
pub mod sample;
pub mod sample_colours;
pub mod sample_edits;
pub mod sample_lists;
pub mod sample_made;
pub mod sample_sheets;
pub mod sample_within;
pub mod words;
