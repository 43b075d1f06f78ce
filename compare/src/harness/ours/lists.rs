//! Records, and lists of them: whole, or one stop at a time.

use crate::harness::ffi;
use crate::harness::oracle::Record;
use crate::harness::ours::{answer, listed, Listed, UNTOLD};
use crate::harness::ramps::Ramp;
use crate::judged::within::Asked;

/// The evaluations.
pub fn sample(ramp: &Ramp, threshold: f32, record: &mut Record) -> Result<usize, u32> {
    let Record { rows, counts, marks } = record;
    let mut told = [UNTOLD];
    let refusal = over!(ramp, sample(threshold, rows, counts, marks, &mut told));
    answer(refusal, told[0])
}

pub fn thin(ramp: &Ramp, threshold: f32, record: &Record, places: &mut [f32], colours: &mut [f32]) -> Listed {
    let Record { rows, counts, marks } = record;
    let mut told = [UNTOLD; 2];
    let refusal = over!(ramp, thin(threshold, rows, counts, marks, places, colours, &mut told));
    listed(refusal, told)
}

pub fn flatten(ramp: &Ramp, threshold: f32, record: &mut Record, places: &mut [f32], colours: &mut [f32]) -> Listed {
    let Record { rows, counts, marks } = record;
    let mut told = [UNTOLD; 2];
    let refusal = over!(ramp, flatten(threshold, rows, counts, marks, places, colours, &mut told));
    listed(refusal, told)
}

/// The hold in force.
pub fn hold(asked: Asked) -> f32 {
    ffi::hold(asked.hold, asked.threshold)
}

pub fn thin_within(ramp: &Ramp, asked: Asked, record: &Record, places: &mut [f32], colours: &mut [f32]) -> Listed {
    let Record { rows, counts, marks } = record;
    let Asked { threshold, hold } = asked;
    let mut told = [UNTOLD; 2];
    let refusal = over!(ramp, thin_within(threshold, hold, rows, counts, marks, places, colours, &mut told));
    listed(refusal, told)
}

pub fn flatten_within(
    ramp: &Ramp,
    asked: Asked,
    record: &mut Record,
    places: &mut [f32],
    colours: &mut [f32],
) -> Listed {
    let Record { rows, counts, marks } = record;
    let Asked { threshold, hold } = asked;
    let mut told = [UNTOLD; 2];
    let refusal = over!(ramp, flatten_within(threshold, hold, rows, counts, marks, places, colours, &mut told));
    listed(refusal, told)
}

/// Where a caller is in a list, as the library has it: 0 the start, 1 after a stop, 2 the end.
#[derive(Clone, Copy, PartialEq, Debug)]
pub struct PlainPlace {
    pub state: u32,
    pub row: u32,
    pub index: u32,
}

/// A stop, or none where nothing more comes; or the refusal.
pub type Told = Result<Option<(f32, [f32; 4])>, u32>;

/// What a step tells, its evaluations, and the place to go on from.
pub type Handed = (Told, usize, PlainPlace);

pub fn next_stop(ramp: &Ramp, threshold: f32, record: &Record, place: PlainPlace) -> Handed {
    let Record { rows, counts, marks } = record;
    let PlainPlace { state, row, index } = place;
    let (mut told, mut stop) = ([UNTOLD; 5], [f32::NAN; 5]);
    let refusal = over!(ramp, next_stop(threshold, rows, counts, marks, state, row, index, &mut told, &mut stop));
    let [has_stop, evaluations, on @ ..] = told;
    let [state, row, index] = on.map(|word| u32::try_from(word).expect("a place is of words"));
    let [position, r, g, b, a] = stop;
    let handed = match has_stop {
        0 => None,
        1 => Some((position, [r, g, b, a])),
        other => panic!("no such answer: {other}"),
    };
    (answer(refusal, handed), evaluations, PlainPlace { state, row, index })
}
