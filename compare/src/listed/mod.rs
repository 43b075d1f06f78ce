//! Samples, records, lists, one stop at a time.

pub mod list_limits;
pub mod lists;
pub mod many;
pub mod marks;
pub mod promised;
pub mod sine_lists;
pub mod steps;
