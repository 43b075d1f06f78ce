//! Refreshes, edits, sheets.

pub mod edits;
pub mod refresh;
pub mod sheeting;
pub mod sheets;
pub mod typing;
