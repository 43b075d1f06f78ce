//! GIMP segments that are curved: ramps of kind 6 carry them, those of kind 5 do not.

use guineaplume::slices::{Kind, Ramp};
use guineaplume::{Color, Refusal};

const BLACK_TO_WHITE: [f32; 8] = [0.0, 0.0, 0.0, 1.0, 1.0, 1.0, 1.0, 1.0];
const CURVED: [u8; 2] = [1, 0];

fn segment<'a>(kind: Kind, positions: &'a [f32; 3], codes: &'a [u8; 2]) -> Ramp<'a> {
    Ramp { kind, positions, channels: &BLACK_TO_WHITE, codes }
}

fn gray(value: f32) -> Result<Color, Refusal> {
    Ok(Color::new(value, value, value, 1.0))
}

#[test]
fn one_kind_carries_them() {
    let positions = [0.0, 0.25, 1.0];
    assert_eq!(segment(Kind::GimpSaved, &positions, &CURVED).check(), Ok(()));
    assert_eq!(segment(Kind::Gimp, &positions, &CURVED).check(), Err(Refusal::Misshapen));
    assert_eq!(segment(Kind::Gimp, &positions, &CURVED).at(0.5), Err(Refusal::Misshapen));
    for outside in [[0.25, 0.0, 1.0], [0.0, 1.0, 0.5]] {
        assert_eq!(segment(Kind::GimpSaved, &outside, &CURVED).check(), Err(Refusal::Misshapen));
    }
}

#[test]
fn half_is_done_at_the_middle() {
    for middle in [0.001, 0.25, 0.5, 0.9] {
        let positions = [0.0, middle, 1.0];
        let ramp = segment(Kind::GimpSaved, &positions, &CURVED);
        assert_eq!((ramp.at(0.0), ramp.at(middle), ramp.at(1.0)), (gray(0.0), gray(0.5), gray(1.0)));
        let mut painted = [0.0; 12];
        assert_eq!(ramp.paint(&[0.0, middle, 1.0], &mut painted), Ok(()));
        assert_eq!(painted, [0.0, 0.0, 0.0, 1.0, 0.5, 0.5, 0.5, 1.0, 1.0, 1.0, 1.0, 1.0]);
    }
}

#[test]
fn a_middle_at_an_end_leaves_no_curve() {
    for (middle, shown) in [(0.0, 1.0), (1.0, 0.0)] {
        let positions = [0.0, middle, 1.0];
        for colouring in [0, 1, 2] {
            let codes = [1, colouring];
            let ramp = segment(Kind::GimpSaved, &positions, &codes);
            for t in [0.0, 0.3, 1.0] {
                assert_eq!(ramp.at(t), gray(shown));
            }
        }
    }
}

#[test]
fn by_hue_the_same_factor_turns_the_hue() {
    let red = [1.0, 0.0, 0.0, 1.0, 1.0, 0.0, 0.0, 1.0];
    for colouring in [1, 2] {
        let ramp = Ramp { kind: Kind::GimpSaved, positions: &[0.0, 0.25, 1.0], channels: &red, codes: &[1, colouring] };
        assert_eq!(ramp.at(0.25), Ok(Color::new(0.0, 1.0, 1.0, 1.0)));
    }
}

#[test]
fn what_the_other_kind_carries_is_the_same() {
    let positions = [0.0, 0.25, 1.0];
    for blending in [0, 2, 3, 4, 5] {
        for colouring in [0, 1, 2] {
            let codes = [blending, colouring];
            for t in [-1.0, 0.0, 0.2, 0.25, 0.7, 1.0, f32::NAN] {
                let [five, six] = [Kind::Gimp, Kind::GimpSaved].map(|kind| segment(kind, &positions, &codes).at(t));
                assert_eq!(five, six);
            }
        }
    }
}
