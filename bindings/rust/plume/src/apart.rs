//! Which depths are off in a list, and which became one.

use crate::color::distance;
use crate::fault::{Answer, Fault};
use crate::ramp::{Ramp, Stops};
use guineaplume::slices::{self, Kind};
use guineaplume::Color;

/// What is said of the depths, one after the other.
#[derive(Clone, Debug, PartialEq)]
pub struct Apart {
    pub depths: Vec<Depth>,
    pub threshold: f32,
    pub step: f32,
}

#[derive(Clone, Copy, Debug, PartialEq)]
pub struct Depth {
    pub position: f32,
    /// How far the list's colour is from the ramp's, for people.
    pub distance: f32,
    /// The list's colour is farther from the ramp's than the threshold.
    pub is_moved: bool,
    /// The ramp itself does not tell it from the depth before.
    pub is_close: bool,
    /// The ramp does, and the list does not.
    pub is_merged: bool,
}

impl Apart {
    pub fn moved(&self) -> impl Iterator<Item = &Depth> {
        self.depths.iter().filter(|depth| depth.is_moved)
    }

    /// Each pair that became one.
    pub fn merged(&self) -> impl Iterator<Item = (&Depth, &Depth)> {
        self.depths.windows(2).map(|pair| (&pair[0], &pair[1])).filter(|(_, depth)| depth.is_merged)
    }

    pub fn has_merged(&self) -> bool {
        self.merged().next().is_some()
    }

    pub fn farthest(&self) -> Option<&Depth> {
        self.depths.iter().max_by(|x, y| x.distance.total_cmp(&y.distance))
    }
}

/// Asks the library at the depths: the ramp's own positions where none are named.
pub fn apart(
    file: &str,
    ramp: &Ramp,
    list: &Stops,
    threshold: f32,
    step: f32,
    depths: Option<&[f32]>,
) -> Answer<Apart> {
    let own = ramp.depths();
    let depths = depths.unwrap_or(&own);
    let (positions, colors): (Vec<f32>, Vec<Color>) = list.iter().copied().unzip();
    let told = ramp
        .gradient()
        .apart(threshold, step, depths, &positions, &colors)
        .map_err(|refusal| Fault::refused(file, refusal))?;
    let shown = ramp.gradient().colors_at(depths).into_iter().zip(mixed(list, depths));
    let depths = told.depths().iter().zip(shown).map(|(depth, (ramp, list))| Depth {
        position: depth.position,
        distance: distance(ramp, list),
        is_moved: depth.moved,
        is_close: depth.close,
        is_merged: depth.merged,
    });
    Ok(Apart { depths: depths.collect(), threshold: slices::threshold(threshold), step })
}

/// The colours of a list, for people: a list may have more stops than a ramp, so it is asked pair by pair.
pub fn mixed(list: &Stops, ts: &[f32]) -> Vec<Color> {
    let at = |t: f32| {
        // as the linear rule does: the left one of equal positions
        let right = list.partition_point(|(position, _)| *position < t).clamp(1, list.len() - 1);
        let pair = Ramp::of_stops(Kind::Linear, &list[right - 1..=right]);
        pair.map_or(list[right].1, |pair| pair.gradient().at(t))
    };
    ts.iter().copied().map(at).collect()
}
