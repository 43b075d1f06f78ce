//! A ramp of any kind, as a file gave it, and stops that are mixed linearly.

use guineaplume::slices::{self, Kind};
use guineaplume::{
    BasisGradient, CatmullRomGradient, Color, Edit, GimpGradient, Gradient, LinearGradient, List, Record, Refresh,
    Refusal, SharpGradient, SmoothstepGradient,
};

/// The kinds of stops by their names in files.
pub const KINDS: [(&str, Kind); 5] = [
    ("linear", Kind::Linear),
    ("smoothstep", Kind::Smoothstep),
    ("sharp", Kind::Sharp),
    ("basis", Kind::Basis),
    ("catmull-rom", Kind::CatmullRom),
];

pub fn name_of(kind: Kind) -> &'static str {
    KINDS.iter().find(|(_, one)| *one == kind).map_or("GIMP", |(name, _)| name)
}

/// Stops, each a position and a colour.
pub type Stops = Vec<(f32, Color)>;

/// A ramp that passed the library's check.
#[derive(Clone, Debug)]
pub enum Ramp {
    Linear(LinearGradient),
    Smoothstep(SmoothstepGradient),
    Sharp(SharpGradient),
    Basis(BasisGradient),
    CatmullRom(CatmullRomGradient),
    Gimp(GimpGradient),
}

impl Ramp {
    /// Of stops of a kind that has them. Refused with 1, 2, 3.
    pub fn of_stops(kind: Kind, stops: &[(f32, Color)]) -> Result<Ramp, Refusal> {
        let (positions, colors): (Vec<f32>, Vec<Color>) = stops.iter().copied().unzip();
        let (positions, colors) = (&positions[..], &colors[..]);
        match kind {
            Kind::Linear => LinearGradient::new(positions, colors).map(Ramp::Linear),
            Kind::Smoothstep => SmoothstepGradient::new(positions, colors).map(Ramp::Smoothstep),
            Kind::Sharp => SharpGradient::new(positions, colors).map(Ramp::Sharp),
            Kind::Basis => BasisGradient::new(positions, colors).map(Ramp::Basis),
            Kind::CatmullRom => CatmullRomGradient::new(positions, colors).map(Ramp::CatmullRom),
            _ => Err(Refusal::Misshapen),
        }
    }

    /// Of stops that are lent.
    pub fn of_slices(lent: slices::Ramp<'_>) -> Result<Ramp, Refusal> {
        Ramp::of_stops(lent.kind, &stops_in(lent))
    }

    pub fn boxed(self) -> Box<dyn Gradient> {
        match self {
            Ramp::Linear(ramp) => ramp.boxed(),
            Ramp::Smoothstep(ramp) => ramp.boxed(),
            Ramp::Sharp(ramp) => ramp.boxed(),
            Ramp::Basis(ramp) => ramp.boxed(),
            Ramp::CatmullRom(ramp) => ramp.boxed(),
            Ramp::Gimp(ramp) => ramp.boxed(),
        }
    }

    /// What every ramp can be asked.
    pub fn gradient(&self) -> &dyn Gradient {
        match self {
            Ramp::Linear(ramp) => ramp,
            Ramp::Smoothstep(ramp) => ramp,
            Ramp::Sharp(ramp) => ramp,
            Ramp::Basis(ramp) => ramp,
            Ramp::CatmullRom(ramp) => ramp,
            Ramp::Gimp(ramp) => ramp,
        }
    }

    /// Makes an edit in it and in its record; sharp ramps and GIMP's have none.
    pub fn edit(&mut self, edit: Edit, record: &mut Record) -> Result<usize, Refusal> {
        match self {
            Ramp::Linear(ramp) => ramp.edit(edit, record),
            Ramp::Smoothstep(ramp) => ramp.edit(edit, record),
            Ramp::Basis(ramp) => ramp.edit(edit, record),
            Ramp::CatmullRom(ramp) => ramp.edit(edit, record),
            Ramp::Sharp(_) | Ramp::Gimp(_) => Err(Refusal::BadEdit),
        }
    }

    pub fn kind(&self) -> Kind {
        self.gradient().as_slices().kind
    }

    /// The positions as they are lent: of stops one each, of GIMP segments three.
    pub fn positions(&self) -> &[f32] {
        self.gradient().as_slices().positions
    }

    /// How many stops or segments it has, in words.
    pub fn count(&self) -> String {
        match self {
            Ramp::Gimp(ramp) => plural(ramp.segments(), "segment"),
            _ => plural(self.positions().len(), "stop"),
        }
    }

    /// Its own positions; of GIMP segments their ends.
    pub fn depths(&self) -> Vec<f32> {
        let positions = self.positions();
        match self {
            Ramp::Gimp(_) => std::iter::once(positions[0]).chain(positions.chunks_exact(3).map(|p| p[2])).collect(),
            _ => positions.to_vec(),
        }
    }

    /// Its stops, of a kind that has them.
    pub fn stops(&self) -> Stops {
        stops_in(self.gradient().as_slices())
    }

    /// Its stops where it is mixed linearly: it is a list already. GIMP segments are so where each is plain, RGB, and has
    /// its middle half-way; where two do not meet in one colour, the position comes twice.
    pub fn as_list(&self) -> Option<Stops> {
        match self {
            Ramp::Linear(_) => Some(self.stops()),
            Ramp::Gimp(_) => self.joined(),
            _ => None,
        }
    }

    fn joined(&self) -> Option<Stops> {
        let lent = self.gradient().as_slices();
        let is_centred = |p: &[f32]| ((p[1] - p[0]) - (p[2] - p[1])).abs() <= 1e-6;
        if lent.codes.iter().any(|code| *code != 0) || !lent.positions.chunks_exact(3).all(is_centred) {
            return None;
        }
        let mut stops = Stops::new();
        for (segment, pair) in lent.positions.chunks_exact(3).zip(colors(lent.channels).chunks_exact(2)) {
            for stop in [(segment[0], pair[0]), (segment[2], pair[1])] {
                if stops.last() != Some(&stop) {
                    stops.push(stop);
                }
            }
        }
        Some(stops)
    }
}

fn stops_in(lent: slices::Ramp<'_>) -> Stops {
    lent.positions.iter().copied().zip(colors(lent.channels)).collect()
}

/// Four channels each.
fn colors(channels: &[f32]) -> Vec<Color> {
    channels.chunks_exact(4).map(|c| Color::new(c[0], c[1], c[2], c[3])).collect()
}

pub fn stops_of(list: &List) -> Stops {
    list.stops().collect()
}

/// '1 stop', '12 stops'.
pub fn plural(count: usize, what: &str) -> String {
    format!("{count} {what}{}", if count == 1 { "" } else { "s" })
}

/// Stops taken from their own domain to another, in double precision and rounded once. Two that stood apart stay apart, if
/// only by one f32: a hard edge stays one. Nothing, where all stand at one position.
pub fn stretched(stops: &[(f32, Color)], (min, max): (f32, f32)) -> Option<Stops> {
    let (first, last) = (f64::from(stops.first()?.0), f64::from(stops.last()?.0));
    if first == last {
        return None;
    }
    let place = |x: f32| {
        let share = (f64::from(x) - first) / (last - first);
        (f64::from(min) * (1.0 - share) + f64::from(max) * share) as f32
    };
    let mut taken: Stops = stops.iter().map(|(position, color)| (place(*position), *color)).collect();
    for i in 1..taken.len() {
        let stood_apart = stops[i - 1].0 < stops[i].0;
        let before = taken[i - 1].0;
        let least = if stood_apart { above(before).min(max) } else { before };
        taken[i].0 = taken[i].0.max(least);
    }
    Some(taken)
}

/// A list shows a hard edge by a stop at the next f32: with the position written twice the same colours are seen, and tables
/// have no slices of no width.
pub fn with_edges(stops: &[(f32, Color)]) -> Stops {
    let mut edges: Stops = stops.to_vec();
    for i in 1..stops.len() {
        if stops[i].0 == above(stops[i - 1].0) {
            edges[i].0 = edges[i - 1].0;
        }
    }
    edges
}

/// The next f32.
fn above(x: f32) -> f32 {
    match x.to_bits() {
        _ if x == 0.0 => f32::from_bits(1),
        bits if x > 0.0 => f32::from_bits(bits + 1),
        bits => f32::from_bits(bits - 1),
    }
}

#[cfg(test)]
mod tests {
    use super::*;

    #[test]
    fn stretching_keeps_ends_and_edges() {
        let black = Color::new(0.0, 0.0, 0.0, 1.0);
        let stops = [0.0, 0.389, above(0.389), 1.0].map(|x| (x, black));
        let taken: Vec<f32> = stretched(&stops, (-6000.0, 0.0)).unwrap().iter().map(|(x, _)| *x).collect();
        assert_eq!((taken[0], taken[3]), (-6000.0, 0.0));
        assert_eq!(taken[2], above(taken[1]));
        assert_eq!(stretched(&[(3.0, black), (3.0, black)], (0.0, 1.0)), None);
        // as many as a narrow domain has, and none falls
        let crowd: Stops = (0..9).map(|i| (f32::from_bits(1.0f32.to_bits() + i / 2), black)).collect();
        let taken = stretched(&crowd, (1e6, 1e6 + 0.125)).unwrap();
        assert!(taken.windows(2).all(|pair| pair[0].0 <= pair[1].0) && taken[8].0 == 1e6 + 0.125);
        let edges: Vec<f32> = with_edges(&stops).iter().map(|(x, _)| *x).collect();
        assert_eq!(edges, [0.0, 0.389, 0.389, 1.0]);
    }
}
