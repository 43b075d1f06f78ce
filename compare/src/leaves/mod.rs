//! Roots, and numbers as text.

pub mod long_tokens;
pub mod roots;
pub mod tokens;
