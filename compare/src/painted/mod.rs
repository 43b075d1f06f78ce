//! The colour at a point, and painting many.

pub mod colours;
pub mod curves;
pub mod hues;
pub mod sharp;
pub mod shown;
pub mod sine;
pub mod views;
