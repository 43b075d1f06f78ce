//! GIMP files read and written.

pub mod counts;
pub mod files;
pub mod gimp_texts;
pub mod numerals;
pub mod saved;
pub mod saved_rule;
pub mod saved_texts;
pub mod texts;
pub mod torn;
pub mod written;
