//! Times and instructions.

pub mod bench;
pub mod count;
pub mod ordinary;
pub mod tables;
