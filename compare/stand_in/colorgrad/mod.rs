//! The module file that the published text leaves out, and a door to what it keeps private.
//! The published files are included as they are; what is added stands beside them.
#![allow(dead_code)]

mod inverse;
pub use inverse::InverseGradient;

mod basis;
pub use basis::BasisGradient;

mod catmull_rom;
pub use catmull_rom::CatmullRomGradient;

mod linear;
pub use linear::LinearGradient;

mod smoothstep;
pub use smoothstep::SmoothstepGradient;

mod sharp {
    include!("sharp.rs");

    impl SharpGradient {
        /// Lent stops, as `new` might have built them.
        pub(super) fn of_stops(stops: Vec<(f32, [f32; 4])>) -> Self {
            let (first, last) = (stops[0], stops[stops.len() - 1]);
            Self {
                stops: stops.into(),
                domain: (first.0, last.0),
                first_color: Color::from(first.1),
                last_color: Color::from(last.1),
            }
        }

        pub(super) fn stops(&self) -> &[(f32, [f32; 4])] {
            &self.stops
        }
    }
}
pub use sharp::SharpGradient;

mod gimp {
    include!("gimp.rs");

    impl GimpGradient {
        /// Left, middle, right; left colour, right colour; blending and colouring by their numbers in a file.
        pub(super) fn segments(&self) -> Vec<([f32; 3], [f32; 8], [u8; 2])> {
            self.segments.iter().map(GimpSegment::parts).collect()
        }
    }

    impl GimpSegment {
        fn parts(&self) -> ([f32; 3], [f32; 8], [u8; 2]) {
            let [a, b, c, d] = self.lcolor;
            let [e, f, g, h] = self.rcolor;
            let blending = match self.blending_type {
                BlendingType::Linear => 0,
                BlendingType::Curved => 1,
                BlendingType::Sinusoidal => 2,
                BlendingType::SphericalIncreasing => 3,
                BlendingType::SphericalDecreasing => 4,
                BlendingType::Step => 5,
            };
            let colouring = match self.coloring_type {
                ColoringType::Rgb => 0,
                ColoringType::HsvCcw => 1,
                ColoringType::HsvCw => 2,
            };
            ([self.lpos, self.mpos, self.rpos], [a, b, c, d, e, f, g, h], [blending, colouring])
        }
    }

    impl ParseGgrError {
        pub(super) fn parts(&self) -> (&'static str, usize) {
            (self.message, self.line)
        }
    }
}
pub use gimp::{GimpGradient, ParseGgrError};

mod linearize {
    include!("../linearize.rs");

    /// The positions of one cell after its left end.
    pub fn halves(g: &dyn Fn(f32) -> Color, t0: f32, t1: f32, threshold: f32) -> Vec<f32> {
        let mut out = Vec::new();
        subdivide(g, t0, t1, threshold, 0, &mut out);
        out
    }

    /// The positions that thinning keeps.
    pub fn kept(g: &dyn Fn(f32) -> Color, points: &[f32], threshold: f32) -> Vec<f32> {
        remove_unnecessary(g, points, threshold)
    }
}

/// What the published crate keeps to itself.
pub mod door {
    use crate::{BasisGradient, BlendMode, CatmullRomGradient, Color, LinearGradient};
    use crate::{GimpGradient, ParseGgrError, SharpGradient, SmoothstepGradient};

    pub type Stop = (f32, [f32; 4]);

    fn colours(stops: &[Stop]) -> Vec<Color> {
        stops.iter().map(|s| Color::from(s.1)).collect()
    }

    fn positions(stops: &[Stop]) -> Vec<f32> {
        stops.iter().map(|s| s.0).collect()
    }

    pub fn linear(stops: &[Stop]) -> LinearGradient {
        LinearGradient::new(&colours(stops), &positions(stops), BlendMode::Rgb)
    }

    pub fn smoothstep(stops: &[Stop]) -> SmoothstepGradient {
        SmoothstepGradient::new(&colours(stops), &positions(stops), BlendMode::Rgb)
    }

    pub fn basis(stops: &[Stop]) -> BasisGradient {
        BasisGradient::new(&colours(stops), positions(stops), BlendMode::Rgb)
    }

    pub fn catmull_rom(stops: &[Stop]) -> CatmullRomGradient {
        CatmullRomGradient::new(&colours(stops), positions(stops), BlendMode::Rgb)
    }

    pub fn sharp(stops: &[Stop]) -> SharpGradient {
        SharpGradient::of_stops(stops.to_vec())
    }

    pub fn sharp_built(colours: &[Color], domain: (f32, f32), softness: f32) -> SharpGradient {
        SharpGradient::new(colours, domain, softness)
    }

    pub fn sharp_stops(g: &SharpGradient) -> &[Stop] {
        g.stops()
    }

    pub type Segment = ([f32; 3], [f32; 8], [u8; 2]);

    pub fn gimp_segments(g: &GimpGradient) -> Vec<Segment> {
        g.segments()
    }

    pub fn gimp_error(e: &ParseGgrError) -> (&'static str, usize) {
        e.parts()
    }

    pub use super::linearize::{halves, kept};
    pub use libm::{powf, sqrtf};
}
