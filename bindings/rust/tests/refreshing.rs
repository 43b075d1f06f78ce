//! A refreshed record and its list are those made afresh.

#![cfg(feature = "std")]

use guineaplume::slices::{Listed, RecordMut, StopsMut, MOST_POINTS};
use guineaplume::{
    BasisGradient, CatmullRomGradient, Color, Edit, Gradient, LinearGradient, List, Record, Refresh, SmoothstepGradient,
};

/// Numbers from 0 to 1, the same in every run.
struct Numbers(u64);

impl Numbers {
    fn next(&mut self) -> f32 {
        self.0 = self.0.wrapping_mul(6_364_136_223_846_793_005).wrapping_add(1_442_695_040_888_963_407);
        (self.0 >> 40) as f32 / (1 << 24) as f32
    }

    fn below(&mut self, n: usize) -> usize {
        (self.next() * n as f32) as usize % n
    }

    fn color(&mut self) -> Color {
        Color::new(self.next(), self.next(), self.next(), self.next())
    }

    /// Rising positions, some of them repeated, and as many colours.
    fn stops(&mut self) -> (Vec<f32>, Vec<Color>) {
        let n = 2 + self.below(30);
        let mut positions: Vec<f32> = (0..n).map(|_| (self.next() * 16.0).floor() / 8.0 - 1.0).collect();
        positions.sort_by(f32::total_cmp);
        (positions, (0..n).map(|_| self.color()).collect())
    }
}

/// The same edit by the one call on lent slices.
fn check_lent(ramp: &impl Gradient, record: &Record, edit: Edit) -> impl Fn(&Record, &List) {
    let (mut rows, mut counts, mut marks) = (record.rows().to_vec(), record.counts().to_vec(), record.marks().to_vec());
    let (mut positions, mut channels) = (vec![7.0; MOST_POINTS], vec![7.0; 4 * MOST_POINTS]);
    let lent = RecordMut { rows: &mut rows, counts: &mut counts, marks: &mut marks };
    let out = StopsMut { positions: &mut positions, channels: &mut channels };
    let made = ramp.as_slices().refresh_list(edit, record.threshold(), lent, out).expect("a list");
    move |record, list| {
        assert_eq!(made, Listed { stops: list.len(), evaluations: list.evaluations() });
        assert_eq!((&rows[..], &counts[..], &marks[..]), (record.rows(), record.counts(), record.marks()));
        assert_eq!(&positions[..made.stops], list.positions());
        assert!(positions[made.stops..].iter().chain(&channels[4 * made.stops..]).all(|x| *x == 7.0));
    }
}

fn edited<G: Refresh + Clone>(numbers: &mut Numbers, mut ramp: G, stops: usize) {
    let threshold = numbers.next() * 0.04;
    let (mut record, first) = ramp.flatten(threshold).expect("a list");
    assert_eq!(ramp.thin(&record).expect("a list").positions(), first.positions());
    for _ in 0..4 {
        let (stop, color) = (numbers.below(stops), numbers.color());
        let check = check_lent(&ramp, &record, Edit::Color { stop, color });
        let list = ramp.refresh_list(stop, color, &mut record).expect("a list");
        check(&record, &list);
        let (fresh, whole) = ramp.flatten(threshold).expect("a list");
        assert_eq!(record, fresh);
        assert_eq!((list.positions(), list.colors()), (whole.positions(), whole.colors()));
        assert!(list.evaluations() <= whole.evaluations());
    }
}

#[test]
fn refreshed_is_fresh() {
    let mut numbers = Numbers(1);
    for _ in 0..200 {
        let (positions, colors) = numbers.stops();
        edited(&mut numbers, LinearGradient::new(&positions, &colors).expect("a ramp"), positions.len());
        edited(&mut numbers, SmoothstepGradient::new(&positions, &colors).expect("a ramp"), positions.len());
        edited(&mut numbers, BasisGradient::new(&positions, &colors).expect("a ramp"), positions.len());
        edited(&mut numbers, CatmullRomGradient::new(&positions, &colors).expect("a ramp"), positions.len());
    }
}

#[test]
fn lists_are_ramps_again() {
    let colors = [Color::new(0.0, 0.5, 1.0, 1.0), Color::new(1.0, 0.0, 0.2, 1.0), Color::new(0.3, 0.3, 0.9, 0.5)];
    let ramp = SmoothstepGradient::new(&[-1.0, 0.0, 2.0], &colors).expect("a ramp");
    let again = ramp.linearize(0.01).expect("a list").gradient().expect("few enough stops");
    assert_eq!(again.domain(), ramp.domain());
    let ts: Vec<f32> = (0..=300).map(|i| i as f32 / 100.0 - 1.0).collect();
    for (a, b) in ramp.colors_at(&ts).iter().zip(again.colors_at(&ts)) {
        let far = a.to_array().iter().zip(b.to_array()).map(|(x, y)| (x - y).abs()).fold(0.0, f32::max);
        assert!(far < 0.05, "{a:?} {b:?}");
    }
    assert!(ts.iter().all(|t| ramp.at(*t) == ramp.colors_at(&[*t])[0]));
}

#[test]
fn every_kind_has_its_colours() {
    use guineaplume::SharpGradient;
    let (positions, colors) = ([0.0, 1.0], [Color::new(0.0, 0.0, 0.0, 1.0), Color::new(1.0, 1.0, 1.0, 1.0)]);
    let gray = |x: f32| Color::new(x, x, x, 1.0);
    assert_eq!(LinearGradient::new(&positions, &colors).expect("a ramp").at(0.25), gray(0.25));
    assert_eq!(SmoothstepGradient::new(&positions, &colors).expect("a ramp").at(0.25), gray(0.15625));
    assert_eq!(BasisGradient::new(&positions, &colors).expect("a ramp").at(0.5), gray(0.5));
    assert_eq!(CatmullRomGradient::new(&positions, &colors).expect("a ramp").at(0.25), gray(0.25));
    assert_eq!(SharpGradient::new(&positions, &colors).expect("a ramp").at(0.25), gray(0.0));
    let built = SharpGradient::build(&colors, (0.0, 1.0), 0.5).expect("a ramp");
    assert_eq!(built.stops().map(|(position, _)| position).collect::<Vec<_>>(), [0.0, 0.4375, 0.5625, 1.0]);
}
