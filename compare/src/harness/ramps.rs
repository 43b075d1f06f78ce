//! Ramps as they are lent.

#[derive(Clone, Copy, PartialEq, Eq, Debug)]
pub enum Kind {
    Linear,
    Smoothstep,
    Sharp,
    Basis,
    CatmullRom,
    Gimp,
    GimpSaved,
}

/// Those whose colours are the Rust's bit for bit. `GimpSaved` is `Gimp` with curved segments, which `curves` and `waves` compare.
pub const KINDS: [Kind; 6] = [Kind::Linear, Kind::Smoothstep, Kind::Sharp, Kind::Basis, Kind::CatmullRom, Kind::Gimp];

pub const MOST_STOPS: usize = 2048;
pub const MOST_SEGMENTS: usize = 256;

impl Kind {
    pub fn code(self) -> u32 {
        self as u32
    }

    pub fn name(self) -> &'static str {
        match self {
            Kind::Linear => "linear",
            Kind::Smoothstep => "smoothstep",
            Kind::Sharp => "sharp",
            Kind::Basis => "basis",
            Kind::CatmullRom => "Catmull-Rom",
            Kind::Gimp => "GIMP",
            Kind::GimpSaved => "GIMP saved",
        }
    }

    /// Segments, not stops.
    pub fn is_gimp(self) -> bool {
        matches!(self, Kind::Gimp | Kind::GimpSaved)
    }
}

#[derive(Clone, Debug)]
pub struct Ramp {
    pub kind: Kind,
    pub positions: Vec<f32>,
    pub channels: Vec<f32>,
    pub codes: Vec<u8>,
}

impl Ramp {
    /// The refusal of the ramp, by hand from document 01; 0 if there is none.
    pub fn refusal(&self) -> u32 {
        if !self.is_whole() {
            return 1;
        }
        let (positions, channels) = if self.kind.is_gimp() { (3, 8) } else { (1, 4) };
        let mut before = f32::NEG_INFINITY;
        for (p, c) in self.positions.chunks(positions).zip(self.channels.chunks(channels)) {
            if p.iter().chain(c).any(|x| !x.is_finite()) {
                return 2;
            }
            if !self.kind.is_gimp() {
                if p[0] < before {
                    return 3;
                }
                before = p[0];
            }
        }
        0
    }

    fn is_whole(&self) -> bool {
        let n = self.positions.len();
        if self.kind.is_gimp() {
            let segments = n / 3;
            return (1..=MOST_SEGMENTS).contains(&segments)
                && (n, self.channels.len(), self.codes.len()) == (3 * segments, 8 * segments, 2 * segments)
                && self.codes.chunks(2).zip(self.positions.chunks(3)).all(|(c, p)| carried(self.kind, c, p));
        }
        (2..=MOST_STOPS).contains(&n)
            && self.channels.len() == 4 * n
            && self.codes.is_empty()
            && (self.kind != Kind::Sharp || n % 2 == 0)
    }

    /// Stops, of a GIMP ramp segments.
    pub fn items(&self) -> usize {
        if self.kind.is_gimp() {
            self.positions.len() / 3
        } else {
            self.positions.len()
        }
    }

    pub fn stops(&self) -> Vec<(f32, [f32; 4])> {
        let colour = |c: &[f32]| [c[0], c[1], c[2], c[3]];
        self.positions.iter().zip(self.channels.chunks(4)).map(|(p, c)| (*p, colour(c))).collect()
    }

    pub fn domain(&self) -> (f32, f32) {
        match self.kind {
            Kind::Gimp | Kind::GimpSaved => (0.0, 1.0),
            _ => (self.positions[0], self.positions[self.positions.len() - 1]),
        }
    }
}

/// A sinusoidal segment only where its middle is not outside its ends; a curved one so too, and of one kind alone.
fn carried(kind: Kind, codes: &[u8], p: &[f32]) -> bool {
    let asks = codes[0] == 2 || codes[0] == 1 && kind == Kind::GimpSaved;
    codes[1] <= 2 && (matches!(codes[0], 0 | 3 | 4 | 5) || asks && p[0] <= p[1] && p[1] <= p[2])
}
