//! Segments of a GIMP gradient that GIMP itself paints otherwise: some of those coloured by hue. GIMP works in doubles, the
//! library in f32, as the published Rust; and GIMP takes near-greys for greys (docs/HSV.md). Nothing said here changes a colour.

use super::{lines, File};
use crate::ramp::plural;
use guineaplume::slices::Ramp;

/// A difference of channels that is not told of.
const SEEN: f64 = 0.0001;
/// The blending that shows the ends alone.
const STEP: u8 = 5;
/// The line of the first segment.
const FIRST: usize = 4;

/// How GIMP's colours differ.
const OUTSIDE: &str = "coloured by hue, with a channel outside 0..1: GIMP 2.10 keeps it, and this ramp is clamped";
const NEARLY_GREY: &str =
    "coloured by hue, and one end is nearly grey: GIMP 2.10 takes that end for a grey, and paints other colours here";
const ROUND: &str =
    "coloured by hue between colours of nearly one hue: GIMP 2.10 hardly turns here, and this ramp goes once round";
const STILL: &str =
    "coloured by hue between colours of nearly one hue: GIMP 2.10 goes once round here, and this ramp hardly turns";

/// What is to be said of the segments of a file that was read: for each sort the line of the first, and how many more.
pub fn notes(file: &File, ramp: Ramp<'_>) -> Vec<String> {
    let segments = ramp.channels.chunks_exact(8).zip(ramp.codes.chunks_exact(2));
    let found: Vec<(usize, &str)> = lines(file.text)
        .skip(FIRST - 1)
        .zip(segments)
        .filter_map(|((line, said), (channels, codes))| Some((line, words(&said, channels, codes)?)))
        .collect();
    [OUTSIDE, NEARLY_GREY, ROUND, STILL].into_iter().filter_map(|words| note(file.file, words, &found)).collect()
}

fn note(file: &str, words: &str, found: &[(usize, &str)]) -> Option<String> {
    let mut alike = found.iter().filter(|(_, one)| *one == words);
    let (line, _) = alike.next()?;
    let more = match alike.count() {
        0 => String::new(),
        more => format!(" (and {} more)", plural(more, "segment")),
    };
    Some(format!("{file}:{line}: {words}{more}"))
}

/// Of one segment: its line, its channels as they were read, its blending and its colouring.
fn words(said: &str, channels: &[f32], codes: &[u8]) -> Option<&'static str> {
    let (blending, colouring) = (codes[0], codes[1]);
    if colouring == 0 {
        return None;
    }
    let ours = ends(channels.iter().map(|x| f64::from(*x)), &OURS);
    let bright = ours[0].value.max(ours[1].value);
    let is_seen = |saturation: f64| saturation * bright > SEEN;
    let is_outside = |end: &Hsv| past(end.value) > SEEN || past(end.alpha) > SEEN || is_seen(past(end.saturation));
    if ours.iter().any(is_outside) {
        return Some(OUTSIDE);
    }
    if blending == STEP || !ours.iter().any(|end| is_seen(end.saturation)) {
        return None;
    }
    let gimps = ends(doubles(said, channels), &GIMPS);
    let mut greys = ours.iter().zip(&gimps).filter(|(our, gimp)| our.saturation != 0.0 && gimp.saturation == 0.0);
    if greys.any(|(our, _)| is_seen(our.saturation) || our.hue != 0.0) {
        return Some(NEARLY_GREY);
    }
    match way(&ours, colouring) - way(&gimps, colouring) {
        more if more > 0.5 => Some(ROUND),
        more if more < -0.5 => Some(STILL),
        _ => None,
    }
}

/// How far a number lies outside 0..1.
fn past(x: f64) -> f64 {
    (x - x.clamp(0.0, 1.0)).abs()
}

/// The channels as GIMP has them, in doubles. An end that names the foreground or the background has another colour than its
/// numbers.
fn doubles<'a>(said: &'a str, channels: &'a [f32]) -> impl Iterator<Item = f64> + 'a {
    let numbers = said.split_whitespace().skip(3).map(|word| word.parse().unwrap_or(f64::NAN));
    channels.iter().map(|x| f64::from(*x)).zip(numbers).map(|(channel, number): (f64, f64)| {
        let is_its_own = (number - channel).abs() <= channel.abs() * f64::from(f32::EPSILON);
        if is_its_own {
            number
        } else {
            channel
        }
    })
}

/// A colour by hue, in turns, saturation and value.
struct Hsv {
    hue: f64,
    saturation: f64,
    value: f64,
    alpha: f64,
}

/// How hues are worked out: to what each step is rounded, the greatest spread of a grey, and a hue of sixths of a turn.
struct Rule {
    rounded: fn(f64) -> f64,
    grey: f64,
    hue: fn(f64) -> f64,
}

/// The library's: degrees in f32.
const OURS: Rule = Rule { rounded: single, grey: 0.0, hue: |sixths| single(sixths * 60.0) / 360.0 };
/// GIMP's: turns in doubles.
const GIMPS: Rule = Rule { rounded: |x| x, grey: 0.0001, hue: |sixths| sixths / 6.0 };

/// Of two f32 each of the four operations, in doubles and rounded so, is the f32 one.
fn single(x: f64) -> f64 {
    f64::from(x as f32)
}

/// The two ends of a segment, of their eight channels.
fn ends(channels: impl Iterator<Item = f64>, rule: &Rule) -> [Hsv; 2] {
    let channels: Vec<f64> = channels.collect();
    [rule.there(&channels[..4]), rule.there(&channels[4..])]
}

impl Rule {
    /// The steps 'There' of docs/HSV.md.
    fn there(&self, channels: &[f64]) -> Hsv {
        let [r, g, b, alpha] = [channels[0], channels[1], channels[2], channels[3]];
        let rounded = self.rounded;
        let value = r.max(g).max(b);
        let spread = rounded(value - r.min(g).min(b));
        if spread <= self.grey {
            return Hsv { hue: 0.0, saturation: 0.0, value, alpha };
        }
        let part = |x: f64, y: f64| rounded(rounded(x - y) / spread);
        let sixths = match value {
            most if most == r && part(g, b) < 0.0 => rounded(part(g, b) + 6.0),
            most if most == r => part(g, b),
            most if most == g => rounded(2.0 + part(b, r)),
            _ => rounded(4.0 + part(r, g)),
        };
        Hsv { hue: (self.hue)(sixths), saturation: rounded(spread / value), value, alpha }
    }
}

/// How much of a turn lies between the two hues, by the colouring: 1 goes up, 2 down. Equal hues are a whole turn apart.
fn way(ends: &[Hsv; 2], colouring: u8) -> f64 {
    let (from, to) = if colouring == 1 { (ends[0].hue, ends[1].hue) } else { (ends[1].hue, ends[0].hue) };
    if from < to {
        to - from
    } else {
        1.0 - (from - to)
    }
}
