//! What is said of lists made elsewhere: each verdict, in its order, and that its message is the header's.

#![cfg(feature = "std")]

use guineaplume::slices::{Kind, Ramp, CELLS, MOST_POINTS};
use guineaplume::{Color, Gradient, LinearGradient, Refusal, SmoothstepGradient, Verdict};

const GRAY: [f32; 8] = [0.0, 0.0, 0.0, 1.0, 1.0, 1.0, 1.0, 1.0];

fn gray(x: f32) -> Color {
    Color::new(x, x, x, 1.0)
}

fn lent(positions: &[f32]) -> Ramp<'_> {
    Ramp { kind: Kind::Linear, positions, channels: &GRAY, codes: &[] }
}

/// Of black to white on 0..1, at the default threshold.
fn judged(positions: &[f32], channels: &[f32]) -> Result<Verdict, Refusal> {
    lent(&[0.0, 1.0]).judge(f32::NAN, positions, channels)
}

#[test]
fn a_list_of_the_ramps_own_stops_is_a_yes() {
    assert_eq!(judged(&[0.0, 1.0], &GRAY), Ok(Verdict::Yes));
    assert!(judged(&[0.0, 1.0], &GRAY).unwrap().is_yes());
    // as many stops as may be, most of them in one place
    let mut positions = vec![1.0; MOST_POINTS];
    let mut channels = vec![1.0; 4 * MOST_POINTS];
    positions[0] = 0.0;
    channels[..4].copy_from_slice(&GRAY[..4]);
    assert_eq!(judged(&positions, &channels), Ok(Verdict::Yes));
}

#[test]
fn a_wrong_length_comes_first() {
    let many = vec![f32::NAN; MOST_POINTS + 1];
    for (positions, channels) in [(0, 0), (1, 4), (2, 7), (2, 9), (3, 8)] {
        assert_eq!(judged(&many[..positions], &many[..channels]), Ok(Verdict::WrongLength));
    }
    let channels = vec![0.0; 4 * many.len()];
    assert_eq!(judged(&many, &channels), Ok(Verdict::WrongLength));
}

#[test]
fn then_the_first_bad_stop_then_the_ends() {
    let with = |i: usize, x: f32| {
        let mut channels = GRAY;
        channels[i] = x;
        channels
    };
    assert_eq!(judged(&[f32::NAN, 1.0], &GRAY), Ok(Verdict::BadStop { stop: 0 }));
    assert_eq!(judged(&[2.0, f32::INFINITY], &GRAY), Ok(Verdict::BadStop { stop: 1 }));
    assert_eq!(judged(&[2.0, 1.0], &GRAY), Ok(Verdict::BadStop { stop: 1 }));
    assert_eq!(judged(&[2.0, 3.0], &with(7, f32::NAN)), Ok(Verdict::BadStop { stop: 1 }));
    assert_eq!(judged(&[2.0, 3.0], &with(3, f32::NEG_INFINITY)), Ok(Verdict::BadStop { stop: 0 }));
    assert_eq!(judged(&[0.5, 0.75], &GRAY), Ok(Verdict::WrongFirst));
    assert_eq!(judged(&[0.0, 0.75], &GRAY), Ok(Verdict::WrongLast));
}

#[test]
fn ends_are_compared_by_value() {
    assert_eq!(judged(&[-0.0, 1.0], &GRAY), Ok(Verdict::Yes));
    assert_eq!(lent(&[-0.0, 1.0]).judge(0.007, &[0.0, 1.0], &GRAY), Ok(Verdict::Yes));
}

#[test]
fn then_the_first_point_that_is_too_far() {
    // one colour all along: too far from the second row on
    let flat = [GRAY[..4].to_vec(), GRAY[..4].to_vec()].concat();
    let t = 1.0 / 36.0;
    assert_eq!(judged(&[0.0, 1.0], &flat), Ok(Verdict::TooFar { row: 1, index: 0, t }));
    // max alone: the last place twice, with a colour of its own
    let torn = [GRAY.to_vec(), vec![0.5, 0.5, 0.5, 1.0]].concat();
    assert_eq!(judged(&[0.0, 1.0, 1.0], &torn), Ok(Verdict::TooFar { row: CELLS, index: 0, t: 1.0 }));
    // colours are compared as they show: what is above 1 is 1
    let bright = [0.0, 0.0, 0.0, 1.0, 1.0, 1.0, 1.0, 7.0];
    assert_eq!(judged(&[0.0, 1.0], &bright), Ok(Verdict::Yes));
    // a mix that is not a number is too far
    let huge = [-3.0e38, 0.0, 0.0, 1.0, 3.0e38, 1.0, 1.0, 1.0];
    assert!(matches!(judged(&[0.0, 1.0], &huge), Ok(Verdict::TooFar { row: 1, .. })));
}

#[test]
fn the_ramp_is_refused_before_the_list_is_looked_at() {
    let refused = |positions: &[f32]| lent(positions).judge(0.007, &[], &[]);
    assert_eq!(refused(&[0.0]), Err(Refusal::Misshapen));
    assert_eq!(refused(&[0.0, f32::NAN]), Err(Refusal::NotFinite));
    assert_eq!(refused(&[1.0, 0.0]), Err(Refusal::Falling));
    assert_eq!(refused(&[0.0, 2.0e38]), Err(Refusal::FarDomain));
}

#[test]
fn our_own_lists_may_be_turned_down() {
    let smooth = SmoothstepGradient::new(&[0.0, 1.0], &[gray(0.0), gray(1.0)]).unwrap();
    let list = smooth.linearize(0.007).unwrap();
    assert!(matches!(smooth.judge(0.007, list.positions(), list.colors()), Ok(Verdict::TooFar { .. })));
}

/// The README's example, examples/lost-band.tsv: neither the list nor the judge sees the red band.
#[test]
fn a_band_narrower_than_half_a_cell_can_be_lost() {
    let red = Color::new(1.0, 0.0, 0.0, 1.0);
    let colors = [gray(0.0), gray(0.389), red, red, gray(0.4027), gray(1.0)];
    let ramp = LinearGradient::new(&[0.0, 0.389, 0.3891, 0.4026, 0.4027, 1.0], &colors).unwrap();
    for threshold in [0.001, 0.007, 0.035] {
        let list = ramp.linearize(threshold).unwrap();
        assert_eq!(list.positions(), [0.0, 1.0]);
        assert_eq!(ramp.judge(threshold, list.positions(), list.colors()), Ok(Verdict::Yes));
        // at the ramp's own stops it is seen
        let shown = LinearGradient::new(list.positions(), list.colors()).unwrap();
        assert_eq!(ramp.at(0.3891), red);
        assert_eq!(shown.at(0.3891), gray(0.3891));
    }
}

#[test]
fn a_verdict_says_where_in_the_headers_words() {
    let header = include_str!("../../../include/colorgrad.h");
    let told = |verdict: Verdict| verdict.to_string();
    for verdict in [Verdict::Yes, Verdict::WrongLength, Verdict::WrongFirst, Verdict::WrongLast] {
        assert!(header.contains(&format!("\"{verdict}\"")), "{verdict}");
    }
    assert_eq!(
        told(Verdict::BadStop { stop: 3 }),
        "stop 3 of the list is not finite, or its position is below that of the stop before it"
    );
    let far = Verdict::TooFar { row: 2, index: 5, t: 0.0625 };
    assert_eq!(told(far), "the list's colour is too far from the ramp's at 0.0625 (point 5 of row 2)");
    let end = Verdict::TooFar { row: CELLS, index: 0, t: 1.0 };
    assert_eq!(told(end), "the list's colour is too far from the ramp's at 1 (the end of the ramp)");
}
