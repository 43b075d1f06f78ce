//! Which depths became one: the accident that this is for, the examples of the rule, and what each refusal leaves.

#![cfg(feature = "std")]

use guineaplume::slices::{self, Kind, Ramp, CLOSE, MERGED, MOST_POINTS, MOVED};
use guineaplume::{Apart, Color, Edit, Gradient, LinearGradient, List, Refresh, Refusal, Verdict};

const THRESHOLDS: [f32; 3] = [0.001, 0.007, 0.035];
const STEP: f32 = 0.02;
const RUBBISH: u8 = 77;
const GRAY: [f32; 8] = [0.0, 0.0, 0.0, 1.0, 1.0, 1.0, 1.0, 1.0];

fn gray(x: f32) -> Color {
    Color::new(x, x, x, 1.0)
}

/// The stops of an example of the tool.
fn example(text: &str) -> LinearGradient {
    let stops = text.lines().filter_map(|line| line.strip_prefix("stop\t"));
    let numbers = |line: &str| line.split('\t').map(|word| word.parse().expect("a number")).collect::<Vec<f32>>();
    let (positions, colors): (Vec<f32>, Vec<Color>) =
        stops.map(numbers).map(|n| (n[0], Color::new(n[1], n[2], n[3], n[4]))).unzip();
    LinearGradient::new(&positions, &colors).expect("a ramp")
}

/// At the ramp's own positions.
fn own(ramp: &LinearGradient, threshold: f32, list: &List) -> Apart {
    list.apart(ramp, threshold, STEP, ramp.positions()).expect("a list of the ramp")
}

fn counts(apart: &Apart) -> (usize, usize, usize) {
    (apart.moved(), apart.close(), apart.merged())
}

/// Where depths are merged: each with the one before.
fn merged(apart: &Apart) -> Vec<(f32, f32)> {
    let pairs = apart.depths().windows(2).filter(|pair| pair[1].merged);
    pairs.map(|pair| (pair[0].position, pair[1].position)).collect()
}

#[test]
fn a_lost_band_that_the_judge_says_yes_to() {
    let ramp = example(include_str!("../../../examples/lost-band.tsv"));
    for threshold in THRESHOLDS {
        let list = ramp.linearize(threshold).unwrap();
        assert_eq!(ramp.judge(threshold, list.positions(), list.colors()), Ok(Verdict::Yes));
        let apart = own(&ramp, threshold, &list);
        assert_eq!(counts(&apart), (2, 1, 2));
        assert_eq!(merged(&apart), [(0.389, 0.3891), (0.4026, 0.4027)]);
        assert_eq!(apart.first_merged(), Some(2));
    }
}

#[test]
fn depths_that_moved_and_stayed_apart() {
    let ramp = example(include_str!("../../../examples/depths.tsv"));
    let list = ramp.linearize(0.007).unwrap();
    assert!(matches!(ramp.judge(0.007, list.positions(), list.colors()), Ok(Verdict::TooFar { .. })));
    let apart = own(&ramp, 0.007, &list);
    assert_eq!((apart.moved(), apart.merged(), apart.first_merged()), (6, 0, None));
    assert!(!apart.is_kept());
}

/// The ramp of examples/c/apart.c.
fn sea(second: Color) -> LinearGradient {
    let tints = [(0.86, 0.94, 0.97), (0.82, 0.92, 0.96), (0.75, 0.88, 0.94), (0.45, 0.7, 0.84), (0.2, 0.45, 0.66)];
    let mut colors: Vec<Color> = tints.iter().map(|(r, g, b)| Color::new(*r, *g, *b, 1.0)).collect();
    colors.insert(1, second);
    colors.push(Color::new(0.03, 0.05, 0.17, 1.0));
    LinearGradient::new(&[0.0, 50.0, 100.0, 200.0, 1000.0, 2000.0, 4000.0], &colors).expect("a ramp")
}

/// Sampled, one tint changed behind its back, and the stale record thinned.
#[test]
fn the_accident() -> Result<(), Refusal> {
    let (pale, darker) = (Color::new(0.84, 0.93, 0.965, 1.0), Color::new(0.74, 0.88, 0.93, 1.0));
    let (mut ramp, changed) = (sea(pale), sea(darker));
    let mut record = ramp.sample(0.007)?;
    let told = own(&changed, 0.007, &changed.thin(&record)?);
    assert_eq!(merged(&told), [(0.0, 50.0), (50.0, 100.0)]);
    assert_eq!(
        told.to_string(),
        "7 depths: 2 moved, 2 merged with the one before\n\
         0: as in the ramp\n\
         50: moved; merged with 0\n\
         100: merged with 50\n\
         200: as in the ramp\n\
         1000: moved\n\
         2000: as in the ramp\n\
         4000: as in the ramp"
    );
    assert!(own(&changed, 0.007, &changed.thin_within(&record, 0.001)?).is_kept());
    ramp.edit(Edit::Color { stop: 1, color: darker }, &mut record)?;
    assert_eq!(own(&changed, 0.007, &changed.thin(&record)?).merged(), 0);
    Ok(())
}

/// Of a list that keeps its word nothing has moved, with the hold as the threshold.
#[test]
fn lists_that_keep_their_word_keep_their_depths() -> Result<(), Refusal> {
    for text in [include_str!("../../../examples/depths.tsv"), include_str!("../../../examples/lost-band.tsv")] {
        let ramp = example(text);
        for threshold in THRESHOLDS {
            let (_, list) = ramp.flatten_within(threshold, 0.001)?;
            assert!(own(&ramp, 0.001, &list).is_kept());
        }
    }
    Ok(())
}

fn of_grays(positions: &[f32]) -> Ramp<'_> {
    Ramp { kind: Kind::Linear, positions, channels: &GRAY, codes: &[] }
}

/// Of black to white on 0..1, with a byte more than depths.
fn asked(step: f32, depths: &[f32], positions: &[f32], channels: &[f32]) -> (Result<slices::Apart, Refusal>, Vec<u8>) {
    let mut faults = vec![RUBBISH; depths.len() + 1];
    (of_grays(&[0.0, 1.0]).apart(0.007, step, depths, positions, channels, &mut faults), faults)
}

#[test]
fn a_byte_for_each_depth_and_what_lies_past_them_stays() {
    // the list is black up to a half
    let (positions, channels) = ([0.0, 0.5, 1.0], [&GRAY[..4], &GRAY[..4], &GRAY[4..]].concat());
    let (told, faults) = asked(STEP, &[0.0, 0.25, 0.25, 0.5, 1.0], &positions, &channels);
    assert_eq!(told, Ok(slices::Apart { moved: 3, close: 1, merged: 2, first_merged: Some(1) }));
    assert_eq!(faults, [0, MOVED | MERGED, MOVED | CLOSE, MOVED | MERGED, 0, RUBBISH]);
    // one depth has none before it
    assert_eq!(asked(STEP, &[0.25], &positions, &channels).1, [MOVED, RUBBISH]);
}

#[test]
fn two_depths_are_apart_above_the_step_alone() {
    let own = |step: f32, depths: &[f32]| asked(step, depths, &[0.0, 1.0], &GRAY).1;
    let between = slices::root(3.0 * 0.25 * 0.25) / 2.0;
    assert_eq!(own(between, &[0.25, 0.5]), [0, CLOSE, RUBBISH]);
    assert_eq!(own(f32::from_bits(between.to_bits() - 1), &[0.25, 0.5]), [0, 0, RUBBISH]);
    assert_eq!(own(0.0, &[0.25, 0.25, 0.5]), [0, CLOSE, 0, RUBBISH]);
    assert_eq!(own(-0.0, &[0.25, 0.5]), [0, 0, RUBBISH]);
    assert_eq!(own(f32::MAX, &[0.0, 1.0]), [0, CLOSE, RUBBISH]);
}

#[test]
fn a_difference_that_is_not_a_number_is_a_fault() {
    // 0 times infinity, in the list, just past its first stop
    let huge = [-3.0e38, 0.0, 0.0, 1.0, 3.0e38, 1.0, 1.0, 1.0];
    let (wide, mut faults) = ([0.0, 1.0e38], [RUBBISH; 2]);
    let told = of_grays(&wide).apart(0.007, STEP, &[1.0e-45, 0.5e38], &wide, &huge, &mut faults);
    assert_eq!(told, Ok(slices::Apart { moved: 2, close: 0, merged: 1, first_merged: Some(1) }));
    assert_eq!(faults, [MOVED, MOVED | MERGED]);
    // and in the ramp
    let ramp = Ramp { kind: Kind::CatmullRom, positions: &[0.0, 0.5, 1.0], channels: &[3.0e38; 12], codes: &[] };
    let told = ramp.apart(0.007, STEP, &[0.25, 0.3], &[0.0, 1.0], &GRAY, &mut faults);
    assert!(ramp.at(0.25).unwrap().r.is_nan());
    assert_eq!(told, Ok(slices::Apart { moved: 2, close: 1, merged: 0, first_merged: None }));
    assert_eq!(faults, [MOVED, MOVED | CLOSE]);
}

#[test]
fn refusals_in_their_order_change_nothing() {
    let nan = f32::NAN;
    let many = vec![0.5; MOST_POINTS + 1];
    let lists: [(&[f32], usize); 6] =
        [(&[], 0), (&[0.0], 4), (&[0.0, 1.0], 7), (&[0.0, nan], 8), (&[0.5, 1.0], 8), (&many, 4 * many.len())];
    for (positions, channels) in lists {
        let (told, faults) = asked(nan, &[], positions, &vec![0.5; channels]);
        assert_eq!((told, faults), (Err(Refusal::BadList), vec![RUBBISH]), "{positions:?}");
    }
    let depths: [&[f32]; 6] =
        [&[], &[nan], &[0.0, f32::INFINITY], &[-0.001], &[0.5, f32::from_bits(0x3f80_0001)], &[0.5, 0.25]];
    for depths in depths {
        let (told, faults) = asked(nan, depths, &[-0.0, 1.0], &GRAY);
        assert_eq!((told, faults), (Err(Refusal::BadDepths), vec![RUBBISH; depths.len() + 1]), "{depths:?}");
    }
    for step in [nan, f32::INFINITY, f32::NEG_INFINITY, -1.0e-45] {
        let (told, faults) = asked(step, &[-0.0, 1.0], &[0.0, 1.0], &GRAY);
        assert_eq!((told, faults), (Err(Refusal::BadStep), vec![RUBBISH; 3]), "{step}");
    }
}

#[test]
fn the_ramp_is_refused_first_and_room_last() {
    let refused = |positions: &[f32]| of_grays(positions).apart(0.007, f32::NAN, &[], &[], &[], &mut []).unwrap_err();
    assert_eq!(refused(&[0.0]), Refusal::Misshapen);
    assert_eq!(refused(&[0.0, f32::NAN]), Refusal::NotFinite);
    assert_eq!(refused(&[1.0, 0.0]), Refusal::Falling);
    assert_eq!(refused(&[0.0, 2.0e38]), Refusal::FarDomain);
    let mut faults = [RUBBISH; 2];
    let told = of_grays(&[0.0, 1.0]).apart(0.007, STEP, &[0.0, 0.5, 1.0], &[0.0, 1.0], &GRAY, &mut faults);
    assert_eq!((told, faults), (Err(Refusal::NoRoom), [0; 2]));
}

#[test]
fn one_depth_reads_in_plain_words() {
    let ramp = LinearGradient::new(&[0.0, 1.0], &[gray(0.0), gray(1.0)]).unwrap();
    let apart = ramp.apart(0.007, STEP, &[0.5, 0.501], &[0.0, 1.0], &[gray(0.0), gray(1.0)]).unwrap();
    let words = "2 depths: 0 moved, 0 merged with the one before\n\
                 0.5: as in the ramp\n\
                 0.501: the ramp itself does not tell it from 0.5";
    assert_eq!((apart.to_string().as_str(), apart.is_kept(), apart.depths()[1].is_kept()), (words, true, true));
}
