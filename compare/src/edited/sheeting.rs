//! Times of a sheet's edit beside the loose calls that do the same work: an edit with its list, and making the edit in the ramp.

use crate::edited::edits::changed;
use crate::edited::refresh::REFRESHED;
use crate::edited::typing::striped;
use crate::harness::oracle::Record;
use crate::harness::ours::{self, Sheet, Sorted};
use crate::harness::ramps::{Kind, Ramp, MOST_STOPS};
use crate::harness::random::Random;
use crate::judged::within::Asked;
use crate::listed::lists::MOST_POINTS;
use crate::timed::bench::{row, timed, used};
use guineaplume::{Edit, Gradient, LinearGradient, ListSort, Refresh};

const REPETITIONS: usize = 21;
const THRESHOLD: f32 = 0.007;
const HOLD: f32 = 0.001;
const GRAY: [f32; 4] = [0.5, 0.5, 0.5, 1.0];

/// A colour of each kind, a stop moved, and one that comes and goes; few stops and many; lists of both sorts.
pub fn table(_: &mut Random) {
    for n in [4, 64, MOST_STOPS - 1] {
        by_crate(&striped(Kind::Linear, n));
    }
    for hold in [None, Some(HOLD)] {
        for kind in REFRESHED {
            coloured(&striped(kind, 64), hold);
        }
        for n in [4, 512, MOST_STOPS - 1] {
            coloured(&striped(Kind::Linear, n), hold);
        }
        for n in [4, 64, MOST_STOPS - 1] {
            come_and_gone(&striped(Kind::Linear, n), hold);
        }
    }
}

fn name(what: &str, ramp: &Ramp, hold: Option<f32>) -> String {
    let list = if hold.is_some() { "list within" } else { "thinned list" };
    format!("sheet: {what}, {}, {} stops, {list}", ramp.kind.name(), ramp.positions.len())
}

fn opened(ramp: &Ramp, hold: Option<f32>) -> Sheet {
    let (mut room, stops) = (ramp.clone(), ramp.positions.len());
    room.positions.resize(MOST_STOPS, 0.0);
    room.channels.resize(4 * MOST_STOPS, 0.0);
    let (places, colours) = (vec![0.0; MOST_POINTS], vec![0.0; 4 * MOST_POINTS]);
    let mut sheet = Sheet { ramp: room, stops, threshold: THRESHOLD, hold, record: Record::empty(), places, colours };
    assert_eq!(ours::sheet_open(&mut sheet).0, 0, "a ramp that is taken");
    sheet
}

/// The loose calls, with all that they are lent.
struct Loose {
    record: Record,
    places: Vec<f32>,
    colours: Vec<f32>,
    hold: Option<f32>,
}

impl Loose {
    fn new(ramp: &Ramp, hold: Option<f32>) -> Loose {
        let mut record = Record::empty();
        ours::sample(ramp, THRESHOLD, &mut record).expect("a ramp that is taken");
        Loose { record, places: vec![0.0; MOST_POINTS], colours: vec![0.0; 4 * MOST_POINTS], hold }
    }

    /// An edit of a ramp, and the list of the ramp with the edit made, which is at hand.
    fn edit(&mut self, ramp: &Ramp, after: &Ramp, edit: &Sorted) -> ours::Listed {
        let Loose { record, places, colours, hold } = self;
        match hold {
            None => ours::edit_list(ramp, edit, THRESHOLD, record, places, colours),
            Some(hold) => {
                used(ours::edit(ramp, edit, THRESHOLD, record));
                ours::thin_within(after, Asked { threshold: THRESHOLD, hold: *hold }, record, places, colours)
            }
        }
    }
}

/// One stop in the middle gets mid grey, again and again: each time the same cells are redone.
fn coloured(ramp: &Ramp, hold: Option<f32>) {
    let edit = Sorted { sort: 0, stop: ramp.positions.len() / 2, position: 0.0, colour: GRAY };
    let after = changed(ramp, &edit);
    let (mut sheet, mut loose) = (opened(ramp, hold), Loose::new(ramp, hold));
    let (ours, other) =
        timed(REPETITIONS, || used(ours::sheet_edit(&mut sheet, &edit)), || used(loose.edit(&after, &after, &edit)));
    row(&name("a colour", ramp, hold), "edit_list, or edit and thin_within", ours, other);
}

/// The Rust crate's sheet, beside its loose calls.
fn by_crate(ramp: &Ramp) {
    let mut alone = LinearGradient::from_rgba_data(ramp.stops()).expect("a ramp that passes the check");
    let edit = Edit::Color { stop: ramp.positions.len() / 2, color: GRAY.into() };
    let mut record = alone.sample(THRESHOLD).expect("a ramp that is taken");
    let opened = guineaplume::Sheet::open(alone.clone(), THRESHOLD, ListSort::Thinned);
    let mut sheet = opened.expect("a ramp that is taken");
    let (ours, other) = timed(REPETITIONS, || used(sheet.edit(edit)), || used(alone.edit_list(edit, &mut record)));
    row(&name("in Rust, a colour", ramp, None), "Refresh::edit_list", ours, other);
}

/// A stop is added and removed again, in turn: of the loose calls the two ramps are at hand.
fn come_and_gone(ramp: &Ramp, hold: Option<f32>) {
    let stop = ramp.positions.len() / 2;
    let position = (ramp.positions[stop - 1] + ramp.positions[stop]) / 2.0;
    let (add, remove) =
        (Sorted { sort: 2, stop, position, colour: GRAY }, Sorted { sort: 3, stop, position, colour: GRAY });
    let more = changed(ramp, &add);
    let (mut sheet, mut loose) = (opened(ramp, hold), Loose::new(ramp, hold));
    let (ours, other) = timed(
        REPETITIONS,
        || {
            used(ours::sheet_edit(&mut sheet, &add));
            used(ours::sheet_edit(&mut sheet, &remove));
        },
        || {
            used(loose.edit(ramp, &more, &add));
            used(loose.edit(&more, ramp, &remove));
        },
    );
    row(&name("a stop added and removed", ramp, hold), "edit_list, or edit and thin_within", ours, other);
}
