//! Colour ramps that cannot be quietly wrong.
//!
//! The plain-RGB part of colorgrad 0.9.0, and a refresh that redoes only what an edit touches. Every answer comes from a
//! library that is proved: each call ends with the answer that its definition gives or with a numbered [`Refusal`], and a
//! refreshed record equals one made afresh. This crate gives that library Rust's types; it has no dependency.
//!
//! ```
//! use guineaplume::{Color, Edit, Gradient, LinearGradient, ListSort, Refusal, Sheet, DEFAULT_THRESHOLD};
//!
//! let sea = [Color::new(0.03, 0.05, 0.17, 1.0), Color::new(0.08, 0.32, 0.57, 1.0), Color::new(0.85, 0.94, 0.97, 1.0)];
//! let ramp = LinearGradient::new(&[0.0, 0.5, 1.0], &sea)?;
//! assert_eq!(ramp.at(0.5), sea[1]);
//!
//! // its stops for the press, then an edit, and only the part that it touches is done again
//! let mut sheet = Sheet::open(ramp, DEFAULT_THRESHOLD, ListSort::Within(0.001))?;
//! assert_eq!(sheet.list()?.len(), 3);
//! let back = sheet.edit(Edit::Color { stop: 1, color: Color::new(0.1, 0.38, 0.6, 1.0) })?;
//! assert_eq!(sheet.list()?.colors()[1], sheet.ramp().at(0.5));
//! sheet.edit(back)?;
//! assert_eq!(sheet.ramp().at(0.5), sea[1]);
//! # Ok::<(), Refusal>(())
//! ```
//!
//! A [`Sheet`] is the way to edit: its ramp, its record and its list stay of one ramp. A [`Record`] by itself is its owner's
//! affair. It remembers its threshold and the ends of its ramp, and a ramp on another domain is refused; another ramp on the
//! same domain is taken, and its list is then wrong.
//!
//! `linearize` can leave a thin band out. Where every stop of the ramp must be seen, [`Gradient::flatten_within`] makes a list
//! that keeps its word.
//!
//! A list of stops from elsewhere is held against a ramp by [`Gradient::judge`], which answers a [`Verdict`]; and
//! [`Gradient::apart`] says which depths became one in it, in plain words.
//!
//! The module [`slices`] has the same calls on slices of the caller's, with nothing allocated.
//!
//! # From colorgrad
//!
//! Names are colorgrad's where it has them, and so are colours and lists, bit for bit; the repository lists where they are
//! not (`docs/DIFFERENCES.md`). A ramp is made of its positions and colours, not by a builder, and these are taken as they are;
//! what cannot be used is an `Err` with its reason, where colorgrad panics or mends.
//!
//! | colorgrad 0.9.0 | here |
//! |---|---|
//! | `GradientBuilder::new().colors(..).domain(..).build::<LinearGradient>()` | [`LinearGradient::new`]`(&positions, &colors)`, and so for [`SmoothstepGradient`], [`BasisGradient`], [`CatmullRomGradient`]; plain RGB alone |
//! | `GradientBuilder::css`, `html_colors`, `preset::*` | not carried; a colour is read of `#rrggbb` by [`str::parse`] |
//! | `LinearGradient::from_rgba_data(stops)`, an `Option` | [`LinearGradient::from_rgba_data`], a `Result` |
//! | `GimpGradient::new(reader, &foreground, &background)` | [`GimpGradient::new`]`(text, &foreground, &background)`; an error has its number and its line |
//! | `at`, `repeat_at`, `reflect_at`, `domain`, `colors(n)` | the same; [`Gradient::colors_at`] asks for many points at once |
//! | `sharp(n, smoothness)` | [`Gradient::sharp`], a `Result`: at most 256 bands |
//! | `inverse()` | [`Gradient::inverse`]: a view that has colours and cannot be flattened |
//! | `linearize(threshold)`, a `LinearGradient` | [`Gradient::linearize`], a `Result` of a [`List`], which is a `Gradient` and counts its evaluations |
//! | `boxed()`, `Box<dyn Gradient>`, its `Clone` | the same; `&G` is a `Gradient` too |
//! | `impl Gradient for` a type of your own | not open: a ramp is stops or segments, which the library proves things of |
//! | `Color::new`, `from_rgba8`, `to_rgba8`, `to_css_hex`, `to_array`, `clamp` | the same names; a byte is the nearest |
//! | `Color::from_html`, `from_hsva`, `to_oklaba` and other colour spaces | not carried |
//!
//! # Features
//!
//! `std`, on by default, gives errors [`std::error::Error`]; without it `alloc` gives all the rest. With neither there are
//! [`slices`], [`Color`], [`Edit`], [`Refusal`], [`Verdict`] and [`Stops`], and nothing allocates. The library itself never
//! does.

#![no_std]
// the pages are made with all features
#![cfg_attr(not(feature = "std"), allow(rustdoc::broken_intra_doc_links))]
#![deny(missing_docs)]
#![deny(unsafe_op_in_unsafe_fn)]

#[cfg(feature = "alloc")]
extern crate alloc;
#[cfg(feature = "std")]
extern crate std;

#[cfg(feature = "alloc")]
mod apart;
mod color;
mod edit;
mod ffi;
#[cfg(feature = "alloc")]
mod gradient;
#[cfg(feature = "alloc")]
mod kinds;
#[cfg(feature = "alloc")]
mod list;
#[cfg(feature = "alloc")]
mod ordinary;
#[cfg(all(test, feature = "std"))]
mod reached;
#[cfg(feature = "alloc")]
mod record;
#[cfg(feature = "alloc")]
mod refresh;
mod refusal;
#[cfg(feature = "alloc")]
mod sealed;
#[cfg(feature = "alloc")]
mod sheet;
mod sheets;
pub mod slices;
mod steps;
mod verdict;
#[cfg(feature = "alloc")]
mod views;

#[cfg(feature = "alloc")]
pub use apart::{Apart, Depth};
pub use color::{Color, CssHex, ParseColorError};
pub use edit::Edit;
#[cfg(feature = "alloc")]
pub use gradient::Gradient;
#[cfg(feature = "alloc")]
pub use kinds::{BasisGradient, CatmullRomGradient, GimpGradient, LinearGradient, SharpGradient, SmoothstepGradient};
#[cfg(feature = "alloc")]
pub use list::List;
#[cfg(feature = "alloc")]
pub use ordinary::Ordinary;
#[cfg(feature = "alloc")]
pub use record::Record;
#[cfg(feature = "alloc")]
pub use refresh::Refresh;
pub use refusal::{ParseGgrError, Refusal};
#[cfg(feature = "alloc")]
pub use sheet::Sheet;
pub use sheets::ListSort;
pub use slices::DEFAULT_THRESHOLD;
pub use steps::{Handed, ListPlace, Stops};
pub use verdict::Verdict;
#[cfg(feature = "alloc")]
pub use views::{GradientColors, InverseGradient};

/// The module [`slices`] under its name of 0.1.0.
#[deprecated(since = "0.2.0", note = "use `slices`")]
pub mod lent {
    pub use crate::slices::*;
}

/// What the tool `flatten` prints for an input.
///
/// ```
/// let printed = guineaplume::desk(b"kind\tlinear\nstop\t0\t0\t0\t0\t1\nstop\t1\t1\t1\t1\t1\n");
/// assert!(printed.starts_with(b"stops\t2\tevaluations\t215\n"));
/// assert_eq!(guineaplume::desk(b"kind\tround\n"), b"unread\t1\n");
/// ```
#[cfg(feature = "alloc")]
#[must_use]
pub fn desk(input: &[u8]) -> alloc::vec::Vec<u8> {
    let mut output = alloc::vec![0; slices::MOST_PRINTED];
    let printed = slices::desk(input, &mut output);
    output.truncate(printed);
    output
}
