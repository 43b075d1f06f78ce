//! Ramps of which it is promised that flattening them is never refused.

#![cfg(feature = "std")]

use guineaplume::{Color, Gradient, LinearGradient, Ordinary, Refusal, SmoothstepGradient};

fn reds(reds: &[f32]) -> Vec<Color> {
    reds.iter().map(|r| Color::new(*r, 0.5, 0.0, 1.0)).collect()
}

#[test]
fn zero_of_either_sign() -> Result<(), Refusal> {
    for start in [0.0, -0.0] {
        let ramp = LinearGradient::new(&[start, 0.3, 0.3, 1.0], &reds(&[-0.0, 1.0, 0.2, 0.9]))?;
        let ordinary = Ordinary::of(&ramp).expect("an ordinary ramp");
        for threshold in [0.001, 0.007, 1.0, f32::NAN] {
            let (record, list) = ordinary.flatten(threshold);
            assert_eq!(Ok((record, list.clone())), ramp.flatten(threshold));
            assert_eq!(ordinary.linearize(threshold), list);
            assert!((2..=guineaplume::slices::MOST_POINTS).contains(&list.len()));
            assert!(list.positions().windows(2).all(|p| p[0] <= p[1]));
            assert!(list.colors().iter().flat_map(|c| c.to_array()).all(|c| (0.0..=1.0).contains(&c)));
        }
    }
    Ok(())
}

#[test]
fn not_ordinary() -> Result<(), Refusal> {
    let above = f32::from_bits(1.0f32.to_bits() + 1);
    let below = f32::from_bits(1.0f32.to_bits() - 1);
    for (positions, ends) in [([0.0, above], [0.0, 1.0]), ([0.0, below], [0.0, 1.0]), ([-1e-45, 1.0], [0.0, 1.0])] {
        assert!(Ordinary::of(&LinearGradient::new(&positions, &reds(&ends))?).is_none());
    }
    for channels in [[0.0, above], [-1e-45, 1.0]] {
        assert!(Ordinary::of(&LinearGradient::new(&[0.0, 1.0], &reds(&channels))?).is_none());
    }
    Ok(())
}

/// The bounds up to which nothing is refused, and the next f32 after each.
#[test]
fn one_more_overflows() -> Result<(), Refusal> {
    let linear =
        |bits: u32| LinearGradient::new(&[0.0, 0.5, 1.0], &reds(&[-1.0, 1.0, -1.0].map(|s| s * f32::from_bits(bits))));
    assert!(linear(0x7eff_ffff)?.linearize(0.007).is_ok());
    assert_eq!(linear(0x7f00_0000)?.linearize(0.007), Err(Refusal::ListNotFinite));

    let places = [0.0, f32::from_bits(0.5f32.to_bits() - 1), 1.0];
    let smooth =
        |bits: u32| SmoothstepGradient::new(&places, &reds(&[-1.0, -1.0, 1.0].map(|s| s * f32::from_bits(bits))));
    assert!(smooth(0x7e2a_aaaa)?.linearize(0.007).is_ok());
    assert_eq!(smooth(0x7e2a_aaab)?.linearize(0.007), Err(Refusal::ListNotFinite));
    Ok(())
}
