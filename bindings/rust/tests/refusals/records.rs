//! Records that are none or another ramp's, and edits of them that cannot be made.

use guineaplume::slices::{self, Kind, CELLS, MARKS, ROWS};
use guineaplume::{Color, Gradient, LinearGradient, Refresh, Refusal};

use crate::desk::{gray, Desk, RUBBISH};
use crate::{BLACK, WHITE};

#[test]
fn bad_record() {
    let mut desk = Desk::roomy();
    desk.counts[35] = 129;
    assert_eq!(desk.thin(gray()), Err(Refusal::BadRecord));
    desk.counts[35] = 0;
    assert_eq!(desk.refresh(gray(), 0, WHITE), Err(Refusal::BadRecord));
    desk.counts.pop();
    assert_eq!(desk.flatten(gray()), Err(Refusal::BadRecord));
    assert!(desk.outputs_are(RUBBISH));
    let mut desk = Desk::roomy();
    desk.marks.pop();
    assert_eq!(desk.flatten(gray()), Err(Refusal::BadRecord));
    assert_eq!(desk.thin(gray()), Err(Refusal::BadRecord));
    let of = |count, marks| guineaplume::Record::from_parts(vec![0.0; ROWS], vec![count; CELLS], vec![0; marks]);
    assert_eq!(of(0, MARKS), Err(Refusal::BadRecord));
    assert_eq!(of(128, MARKS + 1), Err(Refusal::BadRecord));
    assert!(of(128, MARKS).is_ok());
}

/// A record from elsewhere may have any words; one whose first is no threshold in force is refused by every call.
#[test]
fn words_from_elsewhere() {
    let mut ramp = LinearGradient::new(&[0.0, 1.0], &[BLACK, WHITE]).expect("a ramp");
    let record = ramp.sample(0.007).expect("its record");
    let with = |first: u32| {
        let mut marks = record.marks().to_vec();
        marks[0] = first;
        guineaplume::Record::from_parts(record.rows().to_vec(), record.counts().to_vec(), marks).expect("a record")
    };
    for first in [0.0f32, -0.0, 0.0009, 0.04, 1.0, f32::INFINITY, f32::NAN] {
        let mut record = with(first.to_bits());
        assert_eq!(ramp.thin(&record), Err(Refusal::OtherThreshold));
        assert_eq!(ramp.stops_of(&record).next(), Some(Err(Refusal::OtherThreshold)));
        assert_eq!(ramp.refresh(0, WHITE, &mut record), Err(Refusal::OtherThreshold));
    }
    assert!(ramp.thin(&with(0.007f32.to_bits())).is_ok());
}

/// Nothing but the words ties a record to its ramp.
#[test]
fn the_record_of_another_ramp() {
    let one = LinearGradient::new(&[0.0, 0.5, 1.0], &[BLACK, WHITE, BLACK]).expect("a ramp");
    let other = LinearGradient::new(&[0.0, 1.0], &[BLACK, WHITE]).expect("a ramp");
    let record = other.sample(0.007).expect("its record");
    let (wrong, right) = (one.thin(&record).expect("a list"), one.linearize(0.007).expect("a list"));
    assert_ne!((wrong.positions(), wrong.evaluations()), (right.positions(), right.evaluations()));
}

/// 20 after 5 and before 6, for each word by itself.
#[test]
fn other_threshold() {
    for word in 0..MARKS {
        let mut desk = Desk::roomy();
        desk.marks[word] ^= 1;
        let marks = desk.marks.clone();
        assert_eq!(desk.thin(gray()), Err(Refusal::OtherThreshold));
        assert_eq!(desk.refresh(gray(), 2, WHITE), Err(Refusal::OtherThreshold));
        assert!(desk.record_is_rubbish() && desk.outputs_are(RUBBISH) && desk.marks == marks, "20 changes nothing");
        desk.counts[0] = 0;
        assert_eq!(desk.thin(gray()), Err(Refusal::BadRecord));
        assert_eq!(desk.refresh(gray(), 2, WHITE), Err(Refusal::BadRecord));
    }
    // thresholds that are one in force
    let owned = LinearGradient::new(&[0.0, 1.0], &[BLACK, WHITE]).expect("a ramp");
    assert_eq!(owned.sample(5.0), owned.sample(0.035));
    assert_eq!(owned.sample(f32::NAN), owned.sample(0.007));
    // ends that differ in the sign of zero alone
    let minus = LinearGradient::new(&[-0.0, 1.0], &[BLACK, WHITE]).expect("a ramp");
    let record = owned.sample(0.007).expect("its record");
    assert_eq!(minus.thin(&record), Err(Refusal::OtherThreshold));
    assert_eq!(record.threshold(), 0.007);
}

#[test]
fn bad_edit() {
    let mut desk = Desk::roomy();
    assert_eq!(desk.refresh(gray(), 2, WHITE), Err(Refusal::BadEdit));
    assert_eq!(desk.refresh(gray(), usize::MAX, WHITE), Err(Refusal::BadEdit));
    assert_eq!(desk.refresh(gray(), 0, Color { g: f32::NAN, ..BLACK }), Err(Refusal::BadEdit));
    assert_eq!(desk.refresh(slices::Ramp { kind: Kind::Sharp, ..gray() }, 0, WHITE), Err(Refusal::BadEdit));
    assert!(desk.record_is_rubbish());
    let mut owned = LinearGradient::new(&[0.0, 1.0], &[BLACK, WHITE]).expect("a ramp");
    let (before, mut record) = (owned.clone(), owned.sample(0.007).expect("its record"));
    assert_eq!(owned.refresh(2, WHITE, &mut record), Err(Refusal::BadEdit));
    assert_eq!(owned, before);
}
