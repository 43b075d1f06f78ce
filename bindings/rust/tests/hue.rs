//! GIMP segments coloured by hue.

#![cfg(feature = "std")]

use guineaplume::{Color, GimpGradient, Gradient, ParseGgrError, Refusal};

const BLACK: Color = Color::new(0.0, 0.0, 0.0, 1.0);

fn read(segments: &str) -> Result<GimpGradient, ParseGgrError> {
    let text = format!("GIMP Gradient\nName: hue\n{}\n{segments}\n", segments.lines().count());
    GimpGradient::new(text.as_bytes(), &BLACK, &BLACK)
}

#[test]
fn equal_hues_go_the_full_turn() {
    let up = read("0 .5 1 1 0 0 1 1 0 0 1 0 1").expect("hues that rise");
    let down = read("0 .5 1 1 0 0 1 1 0 0 1 0 2").expect("hues that fall");
    assert_eq!(up.at(0.25), Color::new(0.5, 1.0, 0.0, 1.0));
    assert_eq!(down.at(0.25), Color::new(0.5, 0.0, 1.0, 1.0));
    for t in [0.0, 0.5, 1.0] {
        assert_eq!(up.at(t), down.at(t));
    }
    assert_eq!(up.at(0.5), Color::new(0.0, 1.0, 1.0, 1.0));
}

#[test]
fn the_two_ways_part() {
    // from red to green: through yellow, or through blue
    let up = read("0 .5 1 1 0 0 1 0 1 0 1 0 1").expect("hues that rise");
    let down = read("0 .5 1 1 0 0 1 0 1 0 1 0 2").expect("hues that fall");
    assert_eq!(up.at(0.5), Color::new(1.0, 1.0, 0.0, 1.0));
    assert_eq!(down.at(0.5), Color::new(0.0, 0.0, 1.0, 1.0));
}

#[test]
fn a_step_shows_its_ends_clamped() {
    let ramp = read("0 .5 1 .5 .5 .5 1 2 0 0 1 5 1").expect("a step");
    assert_eq!(ramp.at(0.25), Color::new(0.5, 0.5, 0.5, 1.0));
    assert_eq!(ramp.at(0.75), Color::new(1.0, 0.0, 0.0, 1.0));
}

#[test]
fn a_curved_segment_with_its_middle_outside_is_refused() {
    let refused = read("0 .5 1 1 0 0 1 0 1 0 1 0 1\n1 .5 1 1 0 0 1 0 1 0 1 1 1").unwrap_err();
    assert_eq!((refused.refusal, refused.line), (Refusal::NotCarried, 5));
}
