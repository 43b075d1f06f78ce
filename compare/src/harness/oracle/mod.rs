//! The published crate, as assembled: what it keeps private is reached through its door.

mod gradients;
mod lists;
mod texts;

pub use colorgrad::door::{powf, sqrtf};
pub use gradients::*;
pub use lists::*;
pub use texts::*;

pub type Boxed = Box<dyn colorgrad::Gradient>;
