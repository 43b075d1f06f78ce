//! Verdicts, depths, lists that keep their word.

pub mod apart;
pub mod judge;
pub mod lists_apart;
pub mod lists_within;
pub mod merged;
pub mod own_lists;
pub mod sorts;
pub mod weighing;
pub mod within;
pub mod word;
