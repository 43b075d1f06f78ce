//! Ramps that are no ramps, or cannot be flattened or built, and slices that are empty.

use guineaplume::slices::{self, Kind, SegmentsMut, StopsMut};
use guineaplume::{Color, GimpGradient, Gradient, LinearGradient, Refusal, SharpGradient};

use crate::desk::{gray, ramp, Desk, GRAY, RUBBISH};
use crate::{blamed, BLACK, WHITE};

#[test]
fn misshapen() {
    assert_eq!(LinearGradient::new(&[0.0], &[BLACK]), Err(Refusal::Misshapen));
    assert_eq!(LinearGradient::new(&[0.0; 2049], &[BLACK; 2049]), Err(Refusal::Misshapen));
    assert_eq!(LinearGradient::new(&[0.0, 1.0], &[BLACK]), Err(Refusal::Misshapen));
    assert_eq!(SharpGradient::new(&[0.0; 3], &[BLACK; 3]), Err(Refusal::Misshapen));
    assert_eq!(slices::Ramp { codes: &[0], ..gray() }.check(), Err(Refusal::Misshapen));
    let mut desk = Desk::roomy();
    assert_eq!(desk.flatten(ramp(Kind::Basis, &[0.0, 1.0], &GRAY[..7])), Err(Refusal::Misshapen));
    assert!(desk.record_is_rubbish() && desk.outputs_are(RUBBISH));
}

#[test]
fn not_finite_and_falling() {
    assert_eq!(LinearGradient::new(&[0.0, f32::NAN], &[BLACK; 2]), Err(Refusal::NotFinite));
    assert_eq!(LinearGradient::new(&[1.0, 0.0], &[BLACK; 2]), Err(Refusal::Falling));
    let hot = Color { r: f32::INFINITY, ..BLACK };
    assert_eq!(LinearGradient::new(&[1.0, 0.0], &[BLACK, hot]), Err(Refusal::NotFinite));
    assert_eq!(SharpGradient::build(&[hot], (0.0, 1.0), 0.0), Err(Refusal::NotFinite));
    let text = b"GIMP Gradient\nName: x\n1\n0 0.5 1 0 0 0 1 1 1 1 1 0 0\n";
    assert_eq!(GimpGradient::new(text, &hot, &WHITE).map_err(blamed), Err((Refusal::NotFinite, 0)));
    let mut out = [RUBBISH; 8];
    assert_eq!(ramp(Kind::Linear, &[1.0, 0.0], &GRAY).paint(&[0.5], &mut out), Err(Refusal::Falling));
    assert_eq!(out, [RUBBISH; 8]);
}

#[test]
fn far_domain() {
    let far = LinearGradient::new(&[-3e38, 3e38], &[BLACK, WHITE]).expect("it has colours");
    assert_eq!(far.linearize(0.007), Err(Refusal::FarDomain));
    assert_eq!(far.sample(0.007), Err(Refusal::FarDomain));
}

#[test]
fn not_built() {
    assert_eq!(SharpGradient::build(&[], (0.0, 1.0), 0.5), Err(Refusal::NotBuilt));
    assert_eq!(SharpGradient::build(&[WHITE; 257], (0.0, 1.0), 0.5), Err(Refusal::NotBuilt));
    assert_eq!(SharpGradient::build(&[WHITE], (1.0, 0.0), 0.5), Err(Refusal::NotBuilt));
    assert_eq!(SharpGradient::build(&[WHITE], (0.0, f32::NAN), 0.5), Err(Refusal::NotBuilt));
    let (mut positions, mut channels) = ([RUBBISH; 3], [RUBBISH; 16]);
    let out = StopsMut { positions: &mut positions, channels: &mut channels };
    assert_eq!(slices::sharp(&GRAY, (0.0, 1.0), 0.5, out), Err(Refusal::Misshapen));
    assert_eq!((positions, channels), ([RUBBISH; 3], [RUBBISH; 16]));
}

#[test]
fn empty_slices() {
    let nothing = ramp(Kind::Gimp, &[], &[]);
    let refused = Err(Refusal::Misshapen);
    assert_eq!(nothing.check(), refused);
    assert_eq!(nothing.paint(&[], &mut []), refused);
    assert_eq!(nothing.at(0.5).map(|_| ()), refused);
    assert_eq!(nothing.domain().map(|_| ()), refused);
    let mut desk = Desk { rows: vec![], counts: vec![], marks: vec![], positions: vec![], channels: vec![] };
    assert_eq!(desk.flatten(nothing).map(|_| ()), refused);
    assert_eq!(desk.thin(nothing).map(|_| ()), refused);
    assert_eq!(desk.refresh(nothing, 0, BLACK).map(|_| ()), refused);
    assert_eq!(desk.flatten(gray()), Err(Refusal::BadRecord));
    assert_eq!(gray().paint(&[], &mut []), Ok(()));
    assert_eq!((slices::token(b""), slices::desk(b"", &mut [])), (None, 9));
    let out = SegmentsMut { positions: &mut [], channels: &mut [], codes: &mut [] };
    assert_eq!(slices::read(b"", BLACK, WHITE, out).map_err(blamed), Err((Refusal::NoSegment, 4)));
}
