//! Edits of a ramp of stops.

#[cfg(feature = "alloc")]
use alloc::vec::Vec;

#[cfg(feature = "alloc")]
use crate::slices::Ramp;
use crate::Color;

/// One edit of a ramp's stops, which are counted from 0.
///
/// A colour can be changed of linear, smoothstep, basis and Catmull-Rom ramps, of any stop. A stop is moved, added or removed
/// of linear and smoothstep ramps; the first and the last stay.
#[derive(Clone, Copy, PartialEq, Debug)]
#[non_exhaustive]
pub enum Edit {
    /// A stop gets another colour.
    Color {
        /// Which stop.
        stop: usize,
        /// What it becomes.
        color: Color,
    },
    /// A stop moves between its neighbours, or onto one of them.
    Move {
        /// Which stop, from 1 to the last but one.
        stop: usize,
        /// Where to.
        position: f32,
    },
    /// A stop more.
    Add {
        /// The index that it gets, from 1 to that of the last stop as it was.
        stop: usize,
        /// Where it stands.
        position: f32,
        /// Its colour.
        color: Color,
    },
    /// A stop less.
    Remove {
        /// Which stop, from 1 to the last but one.
        stop: usize,
    },
}

impl Edit {
    /// The code of its sort and its parts; what a sort does not have is 0.
    pub(crate) fn parts(self) -> (u32, usize, f32, Color) {
        match self {
            Edit::Color { stop, color } => (0, stop, 0.0, color),
            Edit::Move { stop, position } => (1, stop, position, Color::default()),
            Edit::Add { stop, position, color } => (2, stop, position, color),
            Edit::Remove { stop } => (3, stop, 0.0, Color::default()),
        }
    }

    /// The edit that takes this one back, of the ramp as it is before it. None where it has no such stop.
    #[cfg(feature = "alloc")]
    pub(crate) fn undone(self, ramp: Ramp<'_>) -> Option<Edit> {
        let position = |stop: usize| ramp.positions.get(stop).copied();
        let color = |stop: usize| ramp.channels.chunks_exact(4).nth(stop).map(|c| Color::new(c[0], c[1], c[2], c[3]));
        Some(match self {
            Edit::Color { stop, .. } => Edit::Color { stop, color: color(stop)? },
            Edit::Move { stop, .. } => Edit::Move { stop, position: position(stop)? },
            Edit::Add { stop, .. } => Edit::Remove { stop },
            Edit::Remove { stop } => Edit::Add { stop, position: position(stop)?, color: color(stop)? },
        })
    }

    /// Makes an edit that was not refused.
    #[cfg(feature = "alloc")]
    pub(crate) fn make(self, positions: &mut Vec<f32>, channels: &mut Vec<f32>) {
        match self {
            Edit::Color { stop, color } => channels[4 * stop..4 * stop + 4].copy_from_slice(&color.to_array()),
            Edit::Move { stop, position } => positions[stop] = position,
            Edit::Add { stop, position, color } => {
                positions.insert(stop, position);
                channels.splice(4 * stop..4 * stop, color.to_array());
            }
            Edit::Remove { stop } => {
                positions.remove(stop);
                channels.drain(4 * stop..4 * stop + 4);
            }
        }
    }
}
