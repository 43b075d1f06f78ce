//! Stops moved, added and removed: the ramp and its record change together or not at all.

#![cfg(feature = "std")]

use guineaplume::{BasisGradient, Color, Edit, Gradient, LinearGradient, Record, Refresh, Refusal, SmoothstepGradient};

fn gray(x: f32) -> Color {
    Color::new(x, x, x, 1.0)
}

/// The edit is made, and the record is the one made afresh.
fn made<G: Refresh>(ramp: &mut G, record: &mut Record, edit: Edit) {
    let list = ramp.edit_list(edit, record).expect("an edit");
    let (fresh, whole) = ramp.flatten(record.threshold()).expect("a list");
    assert_eq!(*record, fresh);
    assert!(list.stops().eq(whole.stops()));
}

fn refused<G: Refresh + Clone + PartialEq + std::fmt::Debug>(ramp: &G, record: &Record, edit: Edit, refusal: Refusal) {
    let (mut same, mut kept) = (ramp.clone(), record.clone());
    assert_eq!(same.edit(edit, &mut kept), Err(refusal));
    assert_eq!((&same, &kept), (ramp, record));
}

fn all_sorts<G: Refresh>(mut ramp: G) {
    let mut record = ramp.sample(0.007).expect("a record");
    let ramp = &mut ramp;
    made(ramp, &mut record, Edit::Move { stop: 1, position: 0.1 });
    made(ramp, &mut record, Edit::Move { stop: 1, position: 0.0 });
    made(ramp, &mut record, Edit::Add { stop: 2, position: 0.3, color: gray(0.4) });
    made(ramp, &mut record, Edit::Add { stop: 2, position: 0.3, color: gray(0.9) });
    made(ramp, &mut record, Edit::Color { stop: 0, color: gray(0.6) });
    for stops in (2..6).rev() {
        assert_eq!(ramp.as_slices().positions.len(), stops);
        if stops > 2 {
            made(ramp, &mut record, Edit::Remove { stop: 1 });
        }
    }
    assert_eq!(ramp.as_slices().positions, [0.0, 1.0]);
}

#[test]
fn edits_of_every_sort() {
    let (positions, colors) = ([0.0, 0.5, 1.0], [0.0, 0.8, 0.2].map(gray));
    all_sorts(LinearGradient::new(&positions, &colors).expect("a ramp"));
    all_sorts(SmoothstepGradient::new(&positions, &colors).expect("a ramp"));
}

#[test]
fn refusals_in_their_order() {
    let ramp = LinearGradient::new(&[0.0, 0.5, 1.0], &[0.0, 0.8, 0.2].map(gray)).expect("a ramp");
    let record = ramp.sample(0.007).expect("a record");
    for stop in [0, 2, usize::MAX] {
        refused(&ramp, &record, Edit::Remove { stop }, Refusal::BadEdit);
        refused(&ramp, &record, Edit::Move { stop, position: 0.5 }, Refusal::BadEdit);
    }
    for stop in [0, 3, usize::MAX] {
        refused(&ramp, &record, Edit::Add { stop, position: 0.5, color: gray(0.1) }, Refusal::BadEdit);
    }
    refused(&ramp, &record, Edit::Move { stop: 1, position: f32::NAN }, Refusal::BadEdit);
    refused(&ramp, &record, Edit::Add { stop: 1, position: 0.1, color: gray(f32::INFINITY) }, Refusal::BadEdit);
    refused(&ramp, &record, Edit::Move { stop: 1, position: -0.1 }, Refusal::Falling);
    refused(&ramp, &record, Edit::Move { stop: 1, position: 1.1 }, Refusal::Falling);
    refused(&ramp, &record, Edit::Add { stop: 1, position: 0.6, color: gray(0.1) }, Refusal::Falling);
    let curved = BasisGradient::new(&[0.0, 0.5, 1.0], &[0.0, 0.8, 0.2].map(gray)).expect("a ramp");
    let record = curved.sample(0.007).expect("a record");
    refused(&curved, &record, Edit::Move { stop: 1, position: 0.4 }, Refusal::BadEdit);
}

#[test]
fn the_most_stops() {
    let positions: Vec<f32> = (0..2047).map(|i| i as f32).collect();
    let colors: Vec<Color> = (0..2047).map(|i| gray((i % 2) as f32)).collect();
    let mut ramp = LinearGradient::new(&positions, &colors).expect("a ramp");
    let mut record = ramp.sample(0.007).expect("a record");
    made(&mut ramp, &mut record, Edit::Add { stop: 7, position: 6.5, color: gray(0.5) });
    // 1 is told before 3, and 6 before 1
    refused(&ramp, &record, Edit::Add { stop: 7, position: 99.0, color: gray(0.5) }, Refusal::Misshapen);
    refused(&ramp, &record, Edit::Add { stop: 0, position: 99.0, color: gray(0.5) }, Refusal::BadEdit);
}
