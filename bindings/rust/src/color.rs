//! A colour.

use core::convert::TryFrom;
use core::fmt;
use core::str::FromStr;

/// Red, green, blue and alpha, each usually from 0 to 1; nothing is clamped.
///
/// ```
/// use guineaplume::{Color, ParseColorError};
///
/// let sea: Color = "#08529180".parse()?;
/// assert_eq!(sea, Color::from_rgba8(8, 82, 145, 128));
/// assert_eq!(sea.to_css_hex().to_string(), "#08529180");
/// assert_eq!(Color::from([0.5, 2.0, -1.0]).to_rgba8(), [128, 255, 0, 255]);
///
/// // what is printed is read back, bit for bit
/// assert_eq!(Color::new(0.1, 0.25, 1.5, 1.0).to_string(), "RGBA(0.1,0.25,1.5,1)");
/// assert_eq!("RGBA(0.1,0.25,1.5,1)".parse(), Ok(Color::new(0.1, 0.25, 1.5, 1.0)));
/// # Ok::<(), ParseColorError>(())
/// ```
#[derive(Clone, Copy, PartialEq, Debug, Default)]
#[repr(C)]
pub struct Color {
    /// Red.
    pub r: f32,
    /// Green.
    pub g: f32,
    /// Blue.
    pub b: f32,
    /// Alpha, 1 where nothing shines through.
    pub a: f32,
}

impl Color {
    /// A colour of its four channels.
    #[must_use]
    pub const fn new(r: f32, g: f32, b: f32, a: f32) -> Color {
        Color { r, g, b, a }
    }

    /// A colour of four bytes, each divided by 255.
    #[must_use]
    pub fn from_rgba8(r: u8, g: u8, b: u8, a: u8) -> Color {
        Color::from([r, g, b, a].map(|byte| f32::from(byte) / 255.0))
    }

    /// The four channels.
    #[must_use]
    pub const fn to_array(self) -> [f32; 4] {
        [self.r, self.g, self.b, self.a]
    }

    /// The four channels as bytes: clamped to 0..1, times 255, to the nearest whole number, ties to even. Not-a-number is 0.
    #[must_use]
    pub fn to_rgba8(self) -> [u8; 4] {
        self.to_array().map(byte)
    }

    /// The bytes as CSS writes them: `#rrggbb`, and `#rrggbbaa` where alpha is not 255.
    #[must_use]
    pub fn to_css_hex(self) -> CssHex {
        CssHex(self.to_rgba8())
    }

    /// Each channel below 0 is 0, each above 1 is 1, and any other stays, not-a-number too.
    #[must_use]
    pub fn clamp(self) -> Color {
        Color::from(self.to_array().map(|channel| channel.clamp(0.0, 1.0)))
    }
}

#[allow(clippy::cast_possible_truncation, clippy::cast_sign_loss)]
fn byte(channel: f32) -> u8 {
    // exact: 24 bits times 8
    let scaled = f64::from(channel.clamp(0.0, 1.0)) * 255.0;
    // the whole part; of not-a-number 0
    let below = scaled as u8;
    let rest = scaled - f64::from(below);
    let is_tie = rest.to_bits() == 0.5_f64.to_bits();
    below + u8::from(rest > 0.5 || is_tie && below % 2 == 1)
}

/// A colour as CSS writes it, to be printed or turned into a `String` ([`Color::to_css_hex`]).
#[derive(Clone, Copy, PartialEq, Eq, Hash, Debug)]
pub struct CssHex([u8; 4]);

impl fmt::Display for CssHex {
    fn fmt(&self, f: &mut fmt::Formatter<'_>) -> fmt::Result {
        let [red, green, blue, alpha] = self.0;
        write!(f, "#{red:02x}{green:02x}{blue:02x}")?;
        match alpha {
            u8::MAX => Ok(()),
            _ => write!(f, "{alpha:02x}"),
        }
    }
}

/// `RGBA(r,g,b,a)`, each channel with the fewest digits that are read back as the same number.
impl fmt::Display for Color {
    fn fmt(&self, f: &mut fmt::Formatter<'_>) -> fmt::Result {
        write!(f, "RGBA({},{},{},{})", self.r, self.g, self.b, self.a)
    }
}

/// Of `#rgb`, `#rgba`, `#rrggbb`, `#rrggbbaa`, or of what is printed of a colour, `RGBA(r,g,b,a)`.
impl FromStr for Color {
    type Err = ParseColorError;

    fn from_str(text: &str) -> Result<Color, ParseColorError> {
        let read = match text.strip_prefix('#') {
            Some(digits) => of_digits(digits.as_bytes()),
            None => of_channels(text),
        };
        read.ok_or(ParseColorError {})
    }
}

impl TryFrom<&str> for Color {
    type Error = ParseColorError;

    fn try_from(text: &str) -> Result<Color, ParseColorError> {
        text.parse()
    }
}

fn of_digits(digits: &[u8]) -> Option<Color> {
    let digit = |i: usize| char::from(digits[i]).to_digit(16).and_then(|digit| u8::try_from(digit).ok());
    // a digit that stands alone counts twice
    let short = |i: usize| digit(i).map(|digit| 17 * digit);
    let long = |i: usize| Some(16 * digit(2 * i)? + digit(2 * i + 1)?);
    let [r, g, b, a] = match digits.len() {
        3 => [short(0)?, short(1)?, short(2)?, u8::MAX],
        4 => [short(0)?, short(1)?, short(2)?, short(3)?],
        6 => [long(0)?, long(1)?, long(2)?, u8::MAX],
        8 => [long(0)?, long(1)?, long(2)?, long(3)?],
        _ => return None,
    };
    Some(Color::from_rgba8(r, g, b, a))
}

fn of_channels(text: &str) -> Option<Color> {
    let mut numbers = text.strip_prefix("RGBA(")?.strip_suffix(')')?.split(',').map(str::parse);
    let mut next = || numbers.next().and_then(Result::ok);
    let color = Color::new(next()?, next()?, next()?, next()?);
    numbers.next().is_none().then_some(color)
}

/// A text that is no colour.
#[derive(Clone, Copy, PartialEq, Eq, Debug)]
#[non_exhaustive]
pub struct ParseColorError {}

impl fmt::Display for ParseColorError {
    fn fmt(&self, f: &mut fmt::Formatter<'_>) -> fmt::Result {
        f.write_str("a colour is written #rgb, #rgba, #rrggbb, #rrggbbaa or RGBA(r,g,b,a)")
    }
}

#[cfg(feature = "std")]
impl std::error::Error for ParseColorError {}

/// Colours of channels and of bytes; where there is no alpha it is 1.
macro_rules! converted {
    ($($given:ty, $channels:pat => $color:expr;)*) => {
        $(
            impl From<$given> for Color {
                fn from($channels: $given) -> Color {
                    $color
                }
            }
        )*
    };
}

converted! {
    [f32; 4], [r, g, b, a] => Color { r, g, b, a };
    [f32; 3], [r, g, b] => Color { r, g, b, a: 1.0 };
    (f32, f32, f32, f32), (r, g, b, a) => Color { r, g, b, a };
    (f32, f32, f32), (r, g, b) => Color { r, g, b, a: 1.0 };
    [u8; 4], [r, g, b, a] => Color::from_rgba8(r, g, b, a);
    [u8; 3], [r, g, b] => Color::from_rgba8(r, g, b, u8::MAX);
    (u8, u8, u8, u8), (r, g, b, a) => Color::from_rgba8(r, g, b, a);
    (u8, u8, u8), (r, g, b) => Color::from_rgba8(r, g, b, u8::MAX);
}

impl From<Color> for [f32; 4] {
    fn from(color: Color) -> [f32; 4] {
        color.to_array()
    }
}

impl From<Color> for (f32, f32, f32, f32) {
    fn from(Color { r, g, b, a }: Color) -> (f32, f32, f32, f32) {
        (r, g, b, a)
    }
}

/// Four channels of each colour, one after the other.
#[cfg(feature = "alloc")]
pub(crate) fn flat(colors: &[Color]) -> &[f32] {
    // SAFETY: a colour is four f32 in this order (`repr(C)`), with nothing between them or after; the borrow is the same.
    unsafe { core::slice::from_raw_parts(colors.as_ptr().cast(), 4 * colors.len()) }
}

/// The same, to be written.
#[cfg(feature = "alloc")]
pub(crate) fn flat_mut(colors: &mut [Color]) -> &mut [f32] {
    // SAFETY: as above; and any four f32 are a colour.
    unsafe { core::slice::from_raw_parts_mut(colors.as_mut_ptr().cast(), 4 * colors.len()) }
}

/// The colours of such channels; what is left over is dropped.
#[cfg(feature = "alloc")]
pub(crate) fn unflat(channels: &[f32]) -> impl ExactSizeIterator<Item = Color> + Clone + '_ {
    channels.chunks_exact(4).map(|c| Color::new(c[0], c[1], c[2], c[3]))
}
