//! One stop at a time: joined, the stops are the whole list's; what a refusal leaves of the place.

#![cfg(feature = "std")]

use guineaplume::slices::{Kind, Ramp, Record, StopsMut, MOST_POINTS};
use guineaplume::{Color, Gradient, LinearGradient, ListPlace, Refusal, SmoothstepGradient, Stops};

const BLACK: Color = Color::new(0.0, 0.0, 0.0, 1.0);
const WHITE: Color = Color::new(1.0, 1.0, 1.0, 1.0);

/// A ramp, and the parts of its record to be spoilt.
fn sampled() -> (LinearGradient, Vec<f32>, Vec<u8>, Vec<u32>) {
    let ramp = LinearGradient::new(&[0.0, 0.5, 1.0], &[BLACK, WHITE, BLACK]).unwrap();
    let record = ramp.sample(0.007).unwrap();
    let (rows, counts, marks) = (record.rows().to_vec(), record.counts().to_vec(), record.marks().to_vec());
    (ramp, rows, counts, marks)
}

#[test]
fn joined_they_are_the_list() {
    let ramp = SmoothstepGradient::new(&[0.0, 0.3, 1.0], &[BLACK, WHITE, BLACK]).unwrap();
    let record = ramp.sample(0.001).unwrap();
    let list = ramp.thin(&record).unwrap();
    let mut stops = ramp.stops_of(&record);
    for stop in list.stops() {
        assert_eq!(stops.next(), Some(Ok(stop)));
    }
    assert_eq!(stops.evaluations(), list.evaluations());
    assert_eq!(stops.place(), ListPlace::Ended);
    assert_eq!(stops.next(), None);
    assert_eq!(stops.next(), None);
    assert_eq!(stops.evaluations(), list.evaluations());
}

#[test]
fn stops_before_a_falling_one() {
    let (ramp, mut rows, counts, marks) = sampled();
    // the first point lies past all others, so the next one kept falls below it
    rows[0] = 2.0;
    let record = Record { rows: &rows, counts: &counts, marks: &marks };
    let mut stops = Stops::new(ramp.as_slices(), 0.007, record);
    assert_eq!(stops.next(), Some(Ok((2.0, ramp.at(2.0)))));
    assert_eq!(stops.next(), Some(Err(Refusal::ListFalling)));
    assert_eq!(stops.next(), None);
    assert_eq!(stops.next(), None);

    let (mut positions, mut channels) = (vec![7.0; MOST_POINTS], vec![7.0; 4 * MOST_POINTS]);
    let out = StopsMut { positions: &mut positions, channels: &mut channels };
    assert_eq!(ramp.as_slices().thin(0.007, record, out), Err(Refusal::ListFalling));
}

#[test]
fn a_first_stop_that_is_not_finite() {
    let (ramp, mut rows, counts, marks) = sampled();
    rows[0] = f32::NAN;
    let record = Record { rows: &rows, counts: &counts, marks: &marks };
    let handed = ramp.as_slices().next_stop(0.007, record, ListPlace::Start);
    assert_eq!((handed.told, handed.evaluations, handed.place), (Err(Refusal::ListNotFinite), 0, ListPlace::Ended));
    let again = ramp.as_slices().next_stop(0.007, record, handed.place);
    assert_eq!((again.told, again.evaluations, again.place), (Ok(None), 0, ListPlace::Ended));
}

#[test]
fn a_refusal_of_the_record_leaves_the_place() {
    let (ramp, rows, counts, marks) = sampled();
    let record = Record { rows: &rows, counts: &counts, marks: &marks };
    let inside = ListPlace::After { row: 3, index: 0 };
    let told = |ramp: Ramp<'_>, threshold, record, place| {
        let handed = ramp.next_stop(threshold, record, place);
        assert_eq!((handed.evaluations, handed.place), (0, place));
        handed.told
    };
    for place in [ListPlace::Start, inside, ListPlace::Ended] {
        assert_eq!(told(ramp.as_slices(), 0.01, record, place), Err(Refusal::OtherThreshold));
        let short = Record { rows: &rows[1..], ..record };
        assert_eq!(told(ramp.as_slices(), 0.007, short, place), Err(Refusal::BadRecord));
        let alone = Ramp { kind: Kind::Linear, positions: &[0.0], channels: &[0.0; 4], codes: &[] };
        assert_eq!(told(alone, 0.007, record, place), Err(Refusal::Misshapen));
    }
    // a place outside is 5, also where the threshold is another: 20 comes after 5
    let count = u32::from(counts[3]);
    for outside in [ListPlace::After { row: 36, index: 0 }, ListPlace::After { row: 3, index: count }] {
        assert_eq!(told(ramp.as_slices(), 0.007, record, outside), Err(Refusal::BadRecord));
        assert_eq!(told(ramp.as_slices(), 0.01, record, outside), Err(Refusal::BadRecord));
    }
    assert!(matches!(ramp.as_slices().next_stop(0.007, record, inside).told, Ok(Some(_))));
    assert_eq!(told(ramp.as_slices(), 0.007, record, ListPlace::Ended), Ok(None));
}

#[test]
fn the_iterator_ends_with_a_refusal() {
    let (ramp, rows, counts, marks) = sampled();
    let record = Record { rows: &rows, counts: &counts, marks: &marks };
    let mut stops = Stops::new(ramp.as_slices(), 0.01, record);
    assert_eq!(stops.next(), Some(Err(Refusal::OtherThreshold)));
    assert_eq!(stops.next(), None);
}
