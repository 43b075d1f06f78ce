//! A list handed out one stop at a time.

use core::iter::FusedIterator;

use crate::slices::{answer, with_ramp, Ramp, Record};
use crate::{Color, Refusal};

/// Where a caller is in a list: all that is kept between two steps.
#[derive(Clone, Copy, PartialEq, Eq, Hash, Debug, Default)]
pub enum ListPlace {
    /// Before the first stop.
    #[default]
    Start,
    /// After the stop at a row of the record and an index in it.
    After {
        /// One of the 36 rows.
        row: u32,
        /// Below the row's count.
        index: u32,
    },
    /// Past the last stop, or past a refusal among the stops.
    Ended,
}

impl ListPlace {
    /// Its state, row and index; what a state does not use is 0.
    fn plain(self) -> (u32, u32, u32) {
        match self {
            ListPlace::Start => (0, 0, 0),
            ListPlace::After { row, index } => (1, row, index),
            ListPlace::Ended => (2, 0, 0),
        }
    }

    /// Of the numbers that were told, which are of 32 bits.
    fn told(state: usize, row: usize, index: usize) -> ListPlace {
        match state {
            0 => ListPlace::Start,
            #[allow(clippy::cast_possible_truncation)]
            1 => ListPlace::After { row: row as u32, index: index as u32 },
            _ => ListPlace::Ended,
        }
    }
}

/// What a step hands out.
#[derive(Clone, Copy, PartialEq, Debug)]
pub struct Handed {
    /// A stop, its position and its colour; none where nothing more comes; or the refusal.
    pub told: Result<Option<(f32, Color)>, Refusal>,
    /// How many colours the definition of this step asks for.
    pub evaluations: usize,
    /// Where to go on from.
    pub place: ListPlace,
}

impl Ramp<'_> {
    /// The next stop after a place. In what is told, refusals 1 to 5 and 20, a place outside the record among them (5), leave the place as it
    /// was; after 8 and 9 it is the end. There is no 7.
    #[must_use]
    pub fn next_stop(&self, threshold: f32, record: Record<'_>, place: ListPlace) -> Handed {
        let Record { rows, counts, marks } = record;
        let (state, row, index) = place.plain();
        let (mut told, mut stop) = ([0; 5], [0.0; 5]);
        let refusal =
            with_ramp!(next_stop, self, threshold, rows, counts, marks, state, row, index, &mut told, &mut stop);
        let [has_stop, evaluations, state, row, index] = told;
        let [position, r, g, b, a] = stop;
        let stop = (has_stop != 0).then_some((position, Color { r, g, b, a }));
        Handed { told: answer(refusal, stop), evaluations, place: ListPlace::told(state, row, index) }
    }
}

/// The stops of a list, one after the other; after a refusal, or the last, there is nothing more.
///
/// It borrows the ramp and the record, so that neither changes between two steps.
///
/// ```
/// use guineaplume::{Color, Gradient, Refusal, SmoothstepGradient};
///
/// let colors = [Color::new(0.0, 0.0, 0.0, 1.0), Color::new(1.0, 1.0, 1.0, 1.0)];
/// let ramp = SmoothstepGradient::new(&[0.0, 1.0], &colors)?;
/// let record = ramp.sample(0.007)?;
/// let list = ramp.thin(&record)?;
/// let stops: Vec<_> = ramp.stops_of(&record).collect::<Result<_, _>>()?;
/// assert!(list.stops().eq(stops));
/// # Ok::<(), Refusal>(())
/// ```
#[derive(Clone, Debug)]
pub struct Stops<'a> {
    ramp: Ramp<'a>,
    threshold: f32,
    record: Record<'a>,
    place: ListPlace,
    evaluations: usize,
}

impl<'a> Stops<'a> {
    /// The stops of a lent record, from its first.
    #[must_use]
    pub fn new(ramp: Ramp<'a>, threshold: f32, record: Record<'a>) -> Stops<'a> {
        Stops { ramp, threshold, record, place: ListPlace::Start, evaluations: 0 }
    }

    /// How many colours the steps so far have asked for: with the last stop, as many as the whole list.
    #[must_use]
    pub fn evaluations(&self) -> usize {
        self.evaluations
    }

    /// Where the next step goes on from.
    #[must_use]
    pub fn place(&self) -> ListPlace {
        self.place
    }
}

impl Iterator for Stops<'_> {
    type Item = Result<(f32, Color), Refusal>;

    fn next(&mut self) -> Option<Self::Item> {
        if self.place == ListPlace::Ended {
            return None;
        }
        let handed = self.ramp.next_stop(self.threshold, self.record, self.place);
        self.evaluations += handed.evaluations;
        // a refusal of the record would be told again at each step, so the iterator ends with it
        self.place = if handed.told.is_err() { ListPlace::Ended } else { handed.place };
        handed.told.transpose()
    }
}

impl FusedIterator for Stops<'_> {}
