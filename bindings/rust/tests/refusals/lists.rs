//! Lists that have no room, or faulty stops.

use guineaplume::slices::{self, Kind, CELLS};
use guineaplume::Refusal;

use crate::desk::{gray, ramp, Desk, RUBBISH};

#[test]
fn no_room() {
    for (positions, channels) in [(0, 0), (1, 8), (2, 7), (2, 4)] {
        let mut desk = Desk::new(positions, channels);
        assert_eq!(desk.flatten(gray()), Err(Refusal::NoRoom));
        assert!(desk.outputs_are(0.0) && desk.counts == [1; CELLS], "the record is filled, the outputs are zero");
        desk.positions.fill(RUBBISH);
        assert_eq!(desk.thin(gray()), Err(Refusal::NoRoom));
        assert!(desk.outputs_are(0.0));
    }
    let mut desk = Desk::new(3, 9);
    assert_eq!(desk.flatten(gray()), Ok(slices::Listed { stops: 2, evaluations: 215 }));
    assert_eq!((desk.positions[2], desk.channels[8]), (RUBBISH, RUBBISH));
    let mut out = [RUBBISH; 7];
    assert_eq!(gray().paint(&[0.0, 1.0], &mut out), Err(Refusal::NoRoom));
    assert_eq!(out, [0.0; 7]);
}

#[test]
fn list_not_finite_and_falling() {
    let mut desk = Desk::roomy();
    let wild = [-3e38, 0.0, 0.0, 1.0, 3e38, 0.0, 0.0, 1.0, -3e38, 0.0, 0.0, 1.0];
    assert_eq!(desk.flatten(ramp(Kind::Linear, &[0.0, 0.5, 1.0], &wild)), Err(Refusal::ListNotFinite));
    assert!(desk.outputs_are(0.0));
    let mut desk = Desk::roomy();
    desk.flatten(gray()).expect("a list");
    desk.rows[0] = 2.0;
    assert_eq!(desk.thin(gray()), Err(Refusal::ListFalling));
    assert!(desk.outputs_are(0.0));
}
