//! A ramp's colours as colorgrad's users ask for them: repeated, reflected, evenly spaced, in bands, from the other end; by
//! reference, in a box, and of a list. `compare/run views` holds the same answers to the published Rust's.

#![cfg(feature = "std")]

use guineaplume::slices::MOST_STOPS;
use guineaplume::{Color, GimpGradient, Gradient, LinearGradient, List, Refusal, SharpGradient, SmoothstepGradient};

fn gray(x: f32) -> Color {
    Color::new(x, x, x, 1.0)
}

fn ramp() -> LinearGradient {
    LinearGradient::new(&[0.0, 0.5, 1.0], &[gray(0.0), gray(0.25), gray(1.0)]).expect("a ramp")
}

/// Soft steps between colours that jump about: a list of more stops than a ramp may have.
fn long_list() -> (SmoothstepGradient, List) {
    let positions: Vec<f32> = (0..400).map(|i| i as f32 / 399.0).collect();
    let colors: Vec<Color> = (0..400).map(|i| gray((i * i % 97) as f32 / 96.0)).collect();
    let ramp = SmoothstepGradient::new(&positions, &colors).expect("a ramp");
    let list = ramp.linearize(0.001).expect("a list");
    assert!(list.len() > MOST_STOPS, "{} stops", list.len());
    (ramp, list)
}

/// By reference, in a box, in a box of a reference.
fn asked(ramp: impl Gradient) -> (Color, (f32, f32), Vec<Color>) {
    (ramp.at(0.75), ramp.domain(), ramp.colors_at(&[0.25, 2.0]))
}

#[test]
fn references_and_boxes_are_gradients() {
    let ramp = ramp();
    let boxed = (&ramp).boxed();
    let copy = boxed.clone();
    let first = asked(&ramp);
    assert_eq!(
        [asked(&boxed), asked(copy), asked(&&ramp), asked(Box::new(ramp.clone()))],
        [(); 4].map(|()| first.clone())
    );
    assert_eq!(ramp.linearize(0.007), Gradient::linearize(&boxed, 0.007));
}

#[test]
fn ramps_of_many_types_stand_together() {
    let text = b"GIMP Gradient\nName: x\n1\n0 0.5 1 0 0 0 1 1 1 1 1 0 0\n";
    let gimp = GimpGradient::new(text, &gray(0.0), &gray(1.0)).expect("a text");
    let all: Vec<Box<dyn Gradient>> = vec![ramp().boxed(), gimp.boxed(), ramp().sharp(3, 0.0).expect("bands").boxed()];
    let all = all.clone();
    let middles: Vec<f32> = all.iter().map(|one| one.at(0.5).r).collect();
    assert_eq!(middles, [0.25, 0.5, 0.25]);
}

#[test]
fn colors_come_from_both_ends() {
    let ramp = ramp();
    let mut colors = ramp.colors(5);
    assert_eq!((colors.len(), colors.next(), colors.next_back()), (5, Some(gray(0.0)), Some(gray(1.0))));
    assert_eq!((colors.len(), colors.nth(1)), (3, Some(gray(0.25))));
    assert_eq!((colors.next(), colors.next(), colors.next_back()), (Some(gray(0.625)), None, None));
    assert_eq!((ramp.colors(0).count(), ramp.colors(1).collect::<Vec<_>>()), (0, vec![gray(0.0)]));
}

#[test]
fn what_is_outside_is_repeated_or_reflected() {
    let ramp = ramp();
    for (t, repeated, reflected) in [(1.25, 0.25, 0.75), (-0.25, 0.75, 0.25), (2.5, 0.5, 0.5), (1.0, 0.0, 1.0)] {
        assert_eq!((ramp.repeat_at(t), ramp.reflect_at(t)), (ramp.at(repeated), ramp.at(reflected)), "{t}");
    }
    for t in [f32::NAN, f32::INFINITY, f32::MIN, f32::MAX] {
        // an answer, whatever is asked
        let _ = (ramp.repeat_at(t), ramp.reflect_at(t), ramp.inverse().at(t));
    }
    // a domain of one point: 0 / 0 is no number
    let point = LinearGradient::new(&[2.0, 2.0], &[gray(0.5), gray(1.0)]).expect("a ramp");
    assert_eq!(point.repeat_at(2.0), gray(0.0));
}

#[test]
fn bands_are_colours_of_the_ramp() {
    let ramp = ramp();
    let three = SharpGradient::build(&[gray(0.0), gray(0.25), gray(1.0)], (0.0, 1.0), 0.3);
    assert_eq!(ramp.sharp(3, 0.3), three);
    let two = SharpGradient::build(&[gray(0.0); 2], (0.0, 1.0), 0.0);
    assert_eq!((ramp.sharp(0, 0.0), ramp.sharp(1, 0.0)), (two.clone(), two));
    assert!(ramp.sharp(256, 1.0).is_ok());
    assert_eq!(ramp.sharp(257, 1.0), Err(Refusal::NotBuilt));
}

#[test]
fn the_other_end_comes_first() {
    let ramp = LinearGradient::new(&[2.0, 4.0], &[gray(0.0), gray(1.0)]).expect("a ramp");
    let inverse = ramp.inverse();
    assert_eq!((inverse.domain(), inverse.at(2.5), inverse.at(9.0)), ((2.0, 4.0), gray(0.75), gray(0.0)));
    assert_eq!(inverse.colors_at(&[2.0, 3.5]), [gray(1.0), gray(0.25)]);
    assert_eq!((inverse.repeat_at(4.5), inverse.reflect_at(4.5)), (gray(0.75), gray(0.25)));
    assert!(inverse.colors(3).eq([gray(1.0), gray(0.5), gray(0.0)]));
    assert_eq!(inverse.sharp(2, 0.0), SharpGradient::build(&[gray(1.0), gray(0.0)], (2.0, 4.0), 0.0));
}

#[test]
fn a_list_is_a_gradient() {
    let list = ramp().linearize(0.007).expect("a list");
    let again = list.gradient().expect("few stops");
    let ts: Vec<f32> = (0..=100).map(|i| i as f32 / 100.0).collect();
    assert_eq!((list.domain(), list.colors_at(&ts)), (again.domain(), again.colors_at(&ts)));
    assert_eq!(list.linearize(0.007), again.linearize(0.007));
}

#[test]
fn a_list_of_more_stops_than_a_ramp_has_colours_too() {
    let (ramp, list) = long_list();
    assert_eq!(list.gradient(), Err(Refusal::Misshapen));
    assert_eq!(list.linearize(0.007), Err(Refusal::Misshapen));
    assert_eq!(list.domain(), ramp.domain());
    for (position, color) in list.stops() {
        // a stop is mixed with weight 1, which rounds
        let gap = (list.at(position).r - color.r).abs();
        assert!(gap <= f32::EPSILON, "{position}");
    }
    // between two stops, at them and beside them: as a ramp of the two and what comes after them says
    for (i, pair) in list.positions().windows(3).enumerate() {
        let part = LinearGradient::new(pair, &list.colors()[i..i + 3]).expect("three stops");
        for t in [(pair[0] + pair[1]) / 2.0, pair[1], f32::from_bits(pair[1].to_bits() - 1)] {
            assert_eq!((list.at(t), list.colors_at(&[t])[0]), (part.at(t), part.at(t)), "{t}");
        }
    }
    let (first, last) = (list.colors()[0], list.colors()[list.len() - 1]);
    for (t, color) in [(-1.0, first), (0.0, first), (1.0, last), (7.0, last), (f32::NAN, gray(0.0))] {
        assert_eq!(list.at(t), color, "{t}");
    }
}
