//! Ramps that own their stops, each kind a type of its own. A ramp was checked when it was made.

use alloc::string::String;
use alloc::vec;
use alloc::vec::Vec;

use crate::color::{flat, unflat};
use crate::sealed::is_gradient;
use crate::slices::{self, Kind, MOST_SEGMENTS};
use crate::{Color, ParseGgrError, Refusal};

/// Stops or segments that passed the check.
#[derive(Clone, PartialEq, Debug)]
pub struct Parts {
    pub(crate) positions: Vec<f32>,
    pub(crate) channels: Vec<f32>,
    pub(crate) codes: Vec<u8>,
}

impl Parts {
    fn as_slices(&self, kind: Kind) -> slices::Ramp<'_> {
        slices::Ramp { kind, positions: &self.positions, channels: &self.channels, codes: &self.codes }
    }

    /// Refusals 1, 2, 3.
    fn stops(kind: Kind, positions: &[f32], colors: &[Color]) -> Result<Parts, Refusal> {
        let parts = Parts { positions: positions.to_vec(), channels: flat(colors).to_vec(), codes: Vec::new() };
        parts.as_slices(kind).check()?;
        Ok(parts)
    }
}

/// A type for each kind of stops.
macro_rules! of_stops {
    ($(#[$about:meta])* $name:ident, $kind:expr) => {
        $(#[$about])*
        #[derive(Clone, PartialEq, Debug)]
        pub struct $name(pub(crate) Parts);

        impl $name {
            /// A ramp of positions and colours.
            ///
            /// # Errors
            /// 1 where there are not as many of the one as of the other, or not 2 to 2,048; 2 where a number is not finite;
            /// 3 where a position is below the one before.
            pub fn new(positions: &[f32], colors: &[Color]) -> Result<$name, Refusal> {
                Parts::stops($kind, positions, colors).map($name)
            }

            /// The position of each stop.
            #[must_use]
            pub fn positions(&self) -> &[f32] {
                &self.0.positions
            }

            /// Each stop with its colour.
            #[must_use]
            pub fn stops(&self) -> impl ExactSizeIterator<Item = (f32, Color)> + '_ {
                self.0.positions.iter().copied().zip(unflat(&self.0.channels))
            }
        }

        is_gradient!($name, ramp => ramp.0.as_slices($kind), edited in 0);
    };
}

of_stops!(
    /// Colours mixed linearly between stops.
    ///
    /// ```
    /// use guineaplume::{Color, Gradient, LinearGradient, Refusal};
    ///
    /// let ramp = LinearGradient::new(&[0.0, 1.0], &[Color::new(0., 0., 0., 1.), Color::new(1., 1., 1., 1.)])?;
    /// assert_eq!(ramp.at(0.25), Color::new(0.25, 0.25, 0.25, 1.0));
    /// assert_eq!(ramp.domain(), (0.0, 1.0));
    /// # Ok::<(), Refusal>(())
    /// ```
    LinearGradient,
    Kind::Linear
);

of_stops!(
    /// Colours mixed by a smooth step between stops.
    SmoothstepGradient,
    Kind::Smoothstep
);

of_stops!(
    /// Flat bands with soft edges: an even number of stops, of which each pair is one band.
    ///
    /// ```
    /// use guineaplume::{Color, Gradient, Refusal, SharpGradient};
    ///
    /// let colors = [Color::new(0., 0., 0., 1.), Color::new(1., 1., 1., 1.)];
    /// let ramp = SharpGradient::build(&colors, (0.0, 1.0), 0.5)?;
    /// assert_eq!(ramp.positions(), [0.0, 0.4375, 0.5625, 1.0]);
    /// assert_eq!(ramp.at(0.3), colors[0]);
    /// # Ok::<(), Refusal>(())
    /// ```
    SharpGradient,
    Kind::Sharp
);

of_stops!(
    /// A basis spline: its curve starts and ends at the outer stops' colours, and is drawn towards the others without
    /// running through them.
    BasisGradient,
    Kind::Basis
);

of_stops!(
    /// A Catmull-Rom spline through the colours of stops.
    CatmullRomGradient,
    Kind::CatmullRom
);

impl LinearGradient {
    /// A ramp of stops, each a position and its red, green, blue and alpha.
    ///
    /// # Errors
    /// As [`new`](LinearGradient::new).
    ///
    /// ```
    /// use guineaplume::{Gradient, LinearGradient, Refusal};
    ///
    /// let stops = vec![(0.0, [0.03, 0.19, 0.42, 1.0]), (1.0, [0.97, 0.98, 1.0, 1.0])];
    /// assert_eq!(LinearGradient::from_rgba_data(stops)?.at(1.0).to_rgba8(), [247, 250, 255, 255]);
    /// assert_eq!(LinearGradient::from_rgba_data([(0.0, [0.0; 4])]), Err(Refusal::Misshapen));
    /// # Ok::<(), Refusal>(())
    /// ```
    pub fn from_rgba_data(stops: impl Into<Vec<(f32, [f32; 4])>>) -> Result<LinearGradient, Refusal> {
        let (positions, colors): (Vec<f32>, Vec<Color>) =
            stops.into().into_iter().map(|(position, channels)| (position, Color::from(channels))).unzip();
        LinearGradient::new(&positions, &colors)
    }
}

impl SharpGradient {
    /// Bands of equal width on a domain. Softness 0 is hard edges; it is taken into 0 to 1, and is 0.1 where it is not
    /// finite.
    ///
    /// # Errors
    /// 17 where there is no colour, there are more than 256, or the domain cannot be parted so; 2 where a colour is not
    /// finite.
    pub fn build(colors: &[Color], domain: (f32, f32), softness: f32) -> Result<SharpGradient, Refusal> {
        let mut positions = vec![0.0; 2 * colors.len()];
        let mut channels = vec![0.0; 8 * colors.len()];
        let out = slices::StopsMut { positions: &mut positions, channels: &mut channels };
        slices::sharp(flat(colors), domain, softness, out)?;
        Ok(SharpGradient(Parts { positions, channels, codes: Vec::new() }))
    }
}

/// The segments of a GIMP gradient file (.ggr), as GIMP itself saves it too: long numbers, a name in any script, curved segments.
///
/// ```
/// use guineaplume::{Color, GimpGradient, Gradient, ParseGgrError, Refusal};
///
/// let text = b"GIMP Gradient\nName: Shelf\n1\n0 0.5 1 0 0 0 1 1 1 1 1 0 0\n";
/// let (black, white) = (Color::new(0., 0., 0., 1.), Color::new(1., 1., 1., 1.));
/// let ramp = GimpGradient::new(text, &black, &white)?;
/// assert_eq!(ramp.name(), "Shelf");
/// assert_eq!(ramp.at(0.25), Color::new(0.25, 0.25, 0.25, 1.0));
///
/// let short = GimpGradient::new(&text[..28], &black, &white).unwrap_err();
/// assert_eq!((short.refusal, short.line), (Refusal::FewLines, 3));
/// assert_eq!(short.to_string(), "the GIMP text has fewer segments than it counts (line 3)");
/// # Ok::<(), ParseGgrError>(())
/// ```
#[derive(Clone, PartialEq, Debug)]
pub struct GimpGradient {
    parts: Parts,
    kind: Kind,
    name: String,
}

impl GimpGradient {
    /// Reads a file's text. Foreground and background are what a segment may name in place of a colour of its own.
    ///
    /// # Errors
    /// 2 where one of these two is not finite; 10 to 16 and 18 with the line to blame.
    pub fn new(text: &[u8], foreground: &Color, background: &Color) -> Result<GimpGradient, ParseGgrError> {
        let mut positions = vec![0.0; 3 * MOST_SEGMENTS];
        let mut channels = vec![0.0; 8 * MOST_SEGMENTS];
        let mut codes = vec![0; 2 * MOST_SEGMENTS];
        let out = slices::SegmentsMut { positions: &mut positions, channels: &mut channels, codes: &mut codes };
        let segments = slices::read_saved(text, *foreground, *background, out)?;
        positions.truncate(3 * segments);
        channels.truncate(8 * segments);
        codes.truncate(2 * segments);
        let kind = segments_kind(&codes);
        Ok(GimpGradient { parts: Parts { positions, channels, codes }, kind, name: name_of(text) })
    }

    /// The name that the file gives itself.
    #[must_use]
    pub fn name(&self) -> &str {
        &self.name
    }

    /// How many segments it has.
    #[must_use]
    pub fn segments(&self) -> usize {
        self.parts.codes.len() / 2
    }
}

/// Segments of which one is curved are lent as [`Kind::GimpSaved`], others as [`Kind::Gimp`].
fn segments_kind(codes: &[u8]) -> Kind {
    const CURVED: u8 = 1;
    if codes.iter().step_by(2).any(|blending| *blending == CURVED) {
        return Kind::GimpSaved;
    }
    Kind::Gimp
}

/// The name of a text that was read is UTF-8, and no longer than it.
fn name_of(text: &[u8]) -> String {
    let mut name = vec![0; text.len()];
    let length = slices::name_saved(text, &mut name);
    String::from_utf8_lossy(&name[..length]).into_owned()
}

is_gradient!(GimpGradient, ramp => ramp.parts.as_slices(ramp.kind));
