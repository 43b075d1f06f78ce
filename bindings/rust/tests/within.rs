//! Lists that keep their word: the prints of the rule, the ramp's own positions held, and what each refusal leaves.

#![cfg(feature = "std")]

use guineaplume::slices::{self, Kind, Record, RecordMut, StopsMut, CELLS, MARKS, MOST_POINTS, MOST_WEIGHED, ROWS};
use guineaplume::{Color, Edit, Gradient, LinearGradient, Refresh, Refusal, SmoothstepGradient, Verdict};

const THRESHOLDS: [f32; 3] = [0.001, 0.007, 0.035];
const RUBBISH: f32 = 7.0;

fn gray(x: f32) -> Color {
    Color::new(x, x, x, 1.0)
}

fn grays(positions: &[f32], shades: &[f32]) -> LinearGradient {
    let colors: Vec<Color> = shades.iter().map(|x| gray(*x)).collect();
    LinearGradient::new(positions, &colors).expect("a ramp")
}

/// The stops of an example of the tool.
fn example(text: &str) -> LinearGradient {
    let stops = text.lines().filter_map(|line| line.strip_prefix("stop\t"));
    let numbers = |line: &str| line.split('\t').map(|word| word.parse().expect("a number")).collect::<Vec<f32>>();
    let (positions, colors): (Vec<f32>, Vec<Color>) =
        stops.map(numbers).map(|n| (n[0], Color::new(n[1], n[2], n[3], n[4]))).unzip();
    LinearGradient::new(&positions, &colors).expect("a ramp")
}

fn depths() -> LinearGradient {
    example(include_str!("../../../examples/depths.tsv"))
}

/// Half the root of the summed squares.
/// The f32 next to one that is not negative, above it or below.
fn beside(x: f32, by: i32) -> f32 {
    match x.to_bits() {
        0 => by as f32 * f32::from_bits(1),
        bits => f32::from_bits((bits as i32 + by) as u32),
    }
}

fn apart(x: Color, y: Color) -> f32 {
    let squares: f32 = x.to_array().iter().zip(y.to_array()).map(|(a, b)| (a - b) * (a - b)).sum();
    squares.sqrt() / 2.0
}

#[test]
fn black_to_white() -> Result<(), Refusal> {
    let (record, list) = grays(&[0.0, 1.0], &[0.0, 1.0]).flatten_within(0.007, 0.001)?;
    assert_eq!((list.positions(), list.evaluations(), record.evaluations()), (&[0.0, 1.0][..], 147, 147));
    Ok(())
}

#[test]
fn no_band_is_lost() -> Result<(), Refusal> {
    let ramp = example(include_str!("../../../examples/lost-band.tsv"));
    for threshold in THRESHOLDS {
        for hold in [0.001, threshold, f32::NAN] {
            let list = ramp.flatten_within(threshold, hold)?.1;
            assert!(list.stops().eq(ramp.stops()), "{threshold} {hold}");
        }
    }
    Ok(())
}

#[test]
fn depths_keep_their_stops() -> Result<(), Refusal> {
    let ramp = depths();
    for (threshold, stops) in THRESHOLDS.into_iter().zip([12, 9, 5]) {
        assert!(ramp.flatten_within(threshold, f32::NAN)?.1.stops().eq(ramp.stops()));
        assert_eq!(ramp.flatten_within(threshold, threshold)?.1.len(), stops);
    }
    Ok(())
}

#[test]
fn a_hard_edge_is_two_stops() -> Result<(), Refusal> {
    let ramp = grays(&[0.0, 0.5, 0.5, 1.0], &[0.0, 0.2, 0.8, 1.0]);
    let list = ramp.flatten_within(0.007, 0.001)?.1;
    assert_eq!(list.positions(), [0.0, 0.5, f32::from_bits(0x3f00_0001), 1.0]);
    assert_eq!(list.colors()[1], gray(0.2));
    assert!(apart(list.colors()[2], gray(0.8)) < 0.001);
    Ok(())
}

/// At its own positions and beside them, of a record that is another ramp's.
#[test]
fn own_positions_are_held() -> Result<(), Refusal> {
    let stale = grays(&[0.0, 1.0], &[0.0, 1.0]);
    for threshold in THRESHOLDS {
        for (ramp, record) in [(depths(), stale.sample(threshold)?), (depths(), depths().sample(threshold)?)] {
            for hold in [0.001, threshold] {
                let shown = ramp.thin_within(&record, hold)?.gradient()?;
                let own = ramp.positions().iter().flat_map(|p| [*p, beside(*p, -1), beside(*p, 1)]);
                assert!(own.clone().all(|t| apart(shown.at(t), ramp.at(t)) <= hold * 1.00001));
            }
        }
    }
    Ok(())
}

/// A list made afresh is judged yes, and one of a refreshed record is the fresh one.
#[test]
fn judged_and_refreshed() -> Result<(), Refusal> {
    let stops: Vec<(f32, Color)> = depths().stops().collect();
    let (positions, colors): (Vec<f32>, Vec<Color>) = stops.into_iter().unzip();
    let mut ramp = SmoothstepGradient::new(&positions, &colors)?;
    for threshold in THRESHOLDS {
        let (mut record, list) = ramp.flatten_within(threshold, 0.001)?;
        assert_eq!(ramp.judge(threshold, list.positions(), list.colors())?, Verdict::Yes);
        assert!(list.stops().eq(ramp.thin_within(&record, 0.001)?.stops()));
        ramp.edit(Edit::Color { stop: 6, color: gray(threshold) }, &mut record)?;
        let (fresh, after) = ramp.flatten_within(threshold, 0.001)?;
        assert_eq!(record, fresh);
        assert!(ramp.thin_within(&record, 0.001)?.stops().eq(after.stops()));
    }
    Ok(())
}

#[test]
fn holds_in_force() {
    for asked in [f32::NAN, f32::INFINITY, f32::NEG_INFINITY, 0.0, -1.0, 0.0009] {
        assert_eq!(slices::hold(asked, 0.007), 0.001);
    }
    assert_eq!(slices::hold(0.003, 0.007), 0.003);
    assert_eq!(slices::hold(0.01, 0.007), 0.007);
    assert_eq!(slices::hold(1.0, f32::NAN), 0.007);
    assert_eq!((slices::hold(1.0, 1.0), slices::hold(1.0, 0.0)), (0.035, 0.001));
}

/// A record and the room for a list, lent together.
struct Desk {
    rows: Vec<f32>,
    counts: Vec<u8>,
    marks: Vec<u32>,
    positions: Vec<f32>,
    channels: Vec<f32>,
}

impl Desk {
    fn new(stops: usize) -> Desk {
        Desk {
            rows: vec![RUBBISH; ROWS],
            counts: vec![9; CELLS],
            marks: vec![0; MARKS],
            positions: vec![RUBBISH; stops],
            channels: vec![RUBBISH; 4 * stops],
        }
    }

    fn flatten(&mut self, ramp: slices::Ramp<'_>) -> Result<slices::Listed, Refusal> {
        let record = RecordMut { rows: &mut self.rows, counts: &mut self.counts, marks: &mut self.marks };
        let out = StopsMut { positions: &mut self.positions, channels: &mut self.channels };
        ramp.flatten_within(0.007, 0.001, record, out)
    }

    fn thin(&mut self, ramp: slices::Ramp<'_>) -> Result<slices::Listed, Refusal> {
        let record = Record { rows: &self.rows, counts: &self.counts, marks: &self.marks };
        let out = StopsMut { positions: &mut self.positions, channels: &mut self.channels };
        ramp.thin_within(0.007, 0.001, record, out)
    }

    fn outputs_are(&self, x: f32) -> bool {
        self.positions.iter().chain(&self.channels).all(|y| *y == x)
    }
}

#[test]
fn refusals_that_change_nothing() {
    let ramp = grays(&[0.0, 1.0], &[0.0, 1.0]);
    let mut desk = Desk::new(MOST_POINTS);
    assert_eq!(desk.thin(ramp.as_slices()), Err(Refusal::OtherThreshold));
    desk.counts[35] = 129;
    assert_eq!(desk.thin(ramp.as_slices()), Err(Refusal::BadRecord));
    desk.counts.pop();
    assert_eq!(desk.flatten(ramp.as_slices()), Err(Refusal::BadRecord));
    assert_eq!(
        desk.flatten(slices::Ramp { kind: Kind::Sharp, codes: &[0], ..ramp.as_slices() }),
        Err(Refusal::Misshapen)
    );
    assert!(desk.outputs_are(RUBBISH) && desk.rows.iter().all(|x| *x == RUBBISH));
}

#[test]
fn refusals_that_leave_zeros() {
    let ramp = depths();
    let mut desk = Desk::new(11);
    assert_eq!(desk.flatten(ramp.as_slices()), Err(Refusal::NoRoom));
    assert!(desk.outputs_are(0.0) && desk.counts[0] == 1, "the record is filled, the outputs are zero");
    let wild = grays(&[0.0, 0.5, 1.0], &[-3e38, 3e38, -3e38]);
    let mut desk = Desk::new(12);
    assert_eq!(desk.flatten(wild.as_slices()), Err(Refusal::ListNotFinite));
    assert!(desk.outputs_are(0.0));
    // a hard edge from a huge colour to another: a + 1 * (b - a) is 0 and not b
    let huge = grays(&[0.0, 0.5, 0.5, 1.0], &[1e30, 1e30, 0.5, 0.5]);
    let mut desk = Desk::new(MOST_POINTS);
    assert_eq!(desk.flatten(huge.as_slices()), Err(Refusal::NotShown));
    assert!(desk.outputs_are(0.0) && desk.counts[0] == 1);
    assert_eq!(desk.thin(huge.as_slices()), Err(Refusal::NotShown));
    let tame = grays(&[0.0, 0.5, 0.5, 1.0], &[16_382.0, 16_382.0, 0.3, 0.3]);
    assert!(tame.flatten_within(0.007, 0.001).is_ok());
    assert!(matches!(desk.flatten(tame.as_slices()), Ok(made) if made.evaluations <= 13_716 + MOST_WEIGHED));
}

/// Many stops of wild colours, smoothly joined, need more stops than a judge takes; mixed linearly no more than they are.
#[test]
fn too_many_stops() {
    let n = 2048;
    let positions: Vec<f32> = (0..n).map(|i| i as f32 / (n - 1) as f32).collect();
    let colors: Vec<Color> = (0..n).map(|i| gray((i * 7919 % 1009) as f32 / 1009.0)).collect();
    let ramp = SmoothstepGradient::new(&positions, &colors).expect("a ramp");
    assert_eq!(ramp.flatten_within(0.001, 0.001), Err(Refusal::NoRoom));
    let linear = LinearGradient::new(&positions, &colors).expect("a ramp");
    assert!(matches!(linear.flatten_within(0.001, 0.001), Ok((_, list)) if list.len() <= n));
}
