//! Which depths became one in a list of stops.

use alloc::vec::Vec;
use core::fmt;

use crate::slices;

/// What became of the depths that were asked about, one after the other.
///
/// [`Gradient::judge`](crate::Gradient::judge) looks at the points of a sampling, and says yes to a list that lost a whole band
/// between two of them. This looks at depths: are those that a reader must tell apart still two? As text it has a line for all
/// of them and one for each.
///
/// ```
/// use guineaplume::{Color, Gradient, LinearGradient, Refusal};
///
/// // a thin red band, which thinning passes over
/// let (gray, red) = (|x: f32| Color::new(x, x, x, 1.0), Color::new(1.0, 0.0, 0.0, 1.0));
/// let positions = [0.0, 0.389, 0.3891, 0.4026, 0.4027, 1.0];
/// let ramp = LinearGradient::new(&positions, &[gray(0.0), gray(0.389), red, red, gray(0.4027), gray(1.0)])?;
/// let list = ramp.linearize(0.007)?;
/// assert!(ramp.judge(0.007, list.positions(), list.colors())?.is_yes());
///
/// let apart = ramp.apart(0.007, 0.02, &positions, list.positions(), list.colors())?;
/// assert_eq!((apart.moved(), apart.merged(), apart.first_merged()), (2, 2, Some(2)));
/// assert_eq!(
///     apart.to_string(),
///     "6 depths: 2 moved, 2 merged with the one before\n\
///      0: as in the ramp\n\
///      0.389: as in the ramp\n\
///      0.3891: moved; merged with 0.389\n\
///      0.4026: moved; the ramp itself does not tell it from 0.3891\n\
///      0.4027: merged with 0.4026\n\
///      1: as in the ramp"
/// );
///
/// let kept = ramp.flatten_within(0.007, 0.001)?.1;
/// assert!(kept.apart(&ramp, 0.007, 0.02, &positions)?.is_kept());
/// # Ok::<(), Refusal>(())
/// ```
#[derive(Clone, PartialEq, Debug)]
pub struct Apart {
    depths: Vec<Depth>,
    told: slices::Apart,
}

/// What became of one depth.
#[derive(Clone, Copy, PartialEq, Debug)]
pub struct Depth {
    /// Where it is.
    pub position: f32,
    /// The list's colour differs from the ramp's by more than the threshold, or the difference is not a number.
    pub moved: bool,
    /// The ramp's colours here and at the depth before do not differ by more than the step: news of the ramp, and no fault of
    /// the list.
    pub close: bool,
    /// The ramp's colours here and at the depth before differ by more than the step, and the list's do not.
    pub merged: bool,
}

impl Depth {
    fn new(position: f32, fault: u8) -> Depth {
        let has = |bit: u8| fault & bit != 0;
        Depth { position, moved: has(slices::MOVED), close: has(slices::CLOSE), merged: has(slices::MERGED) }
    }

    /// Whether the list shows it as the ramp does: neither moved nor merged.
    #[must_use]
    pub fn is_kept(&self) -> bool {
        !self.moved && !self.merged
    }

    /// In words, beside the depth before.
    fn say(self, before: f32, f: &mut fmt::Formatter<'_>) -> fmt::Result {
        if !(self.moved || self.close || self.merged) {
            return f.write_str("as in the ramp");
        }
        let mut between = "";
        let mut after = || core::mem::replace(&mut between, "; ");
        if self.moved {
            write!(f, "{}moved", after())?;
        }
        if self.close {
            write!(f, "{}the ramp itself does not tell it from {before}", after())?;
        }
        if self.merged {
            write!(f, "{}merged with {before}", after())?;
        }
        Ok(())
    }
}

impl Apart {
    /// Of what the library told, and a byte for each depth.
    pub(crate) fn told(told: slices::Apart, depths: &[f32], faults: &[u8]) -> Apart {
        let depths = depths.iter().zip(faults).map(|(position, fault)| Depth::new(*position, *fault)).collect();
        Apart { depths, told }
    }

    /// What became of each depth, in the order asked.
    #[must_use]
    pub fn depths(&self) -> &[Depth] {
        &self.depths
    }

    /// How many moved.
    #[must_use]
    pub fn moved(&self) -> usize {
        self.told.moved
    }

    /// How many the ramp itself does not tell from the depth before.
    #[must_use]
    pub fn close(&self) -> usize {
        self.told.close
    }

    /// How many the list does not tell from the depth before, where the ramp does.
    #[must_use]
    pub fn merged(&self) -> usize {
        self.told.merged
    }

    /// The first merged one, counted from 0.
    #[must_use]
    pub fn first_merged(&self) -> Option<usize> {
        self.told.first_merged
    }

    /// Whether no depth moved and none is merged.
    #[must_use]
    pub fn is_kept(&self) -> bool {
        self.moved() == 0 && self.merged() == 0
    }
}

/// A line for all, and one for each depth.
impl fmt::Display for Apart {
    fn fmt(&self, f: &mut fmt::Formatter<'_>) -> fmt::Result {
        let slices::Apart { moved, merged, .. } = self.told;
        write!(f, "{} depths: {moved} moved, {merged} merged with the one before", self.depths.len())?;
        let mut before = f32::NAN;
        for depth in &self.depths {
            write!(f, "\n{}: ", depth.position)?;
            depth.say(before, f)?;
            before = depth.position;
        }
        Ok(())
    }
}
