//! The rule for GIMP texts as GIMP itself saves them, worked out here from its words alone.

use crate::gimp::texts::Input;
use crate::harness::ramps::MOST_SEGMENTS;

pub const MOST_BYTES: usize = 131_072;
const MOST_SIGNIFICANT: usize = 19;

type Segment = ([f32; 3], [f32; 8], [u8; 2]);
/// The segments and the name, or the refusal and its line.
pub type Answer = Result<(Vec<Segment>, Vec<u8>), (u32, usize)>;

pub fn rule(input: &Input) -> Answer {
    if !input.foreground.iter().chain(&input.background).all(|x| x.is_finite()) {
        return Err((2, 0));
    }
    let lines = lines(&input.text);
    let is_fit = |(i, line): (usize, &&[u8])| if i == 1 { std::str::from_utf8(line).is_ok() } else { line.is_ascii() };
    if input.text.len() > MOST_BYTES || !lines.iter().enumerate().take(3).all(is_fit) {
        return Err((10, 0));
    }
    if lines.first().is_some_and(|line| *line != b"GIMP Gradient") {
        return Err((11, 1));
    }
    if lines.get(1).is_some_and(|line| !line.starts_with(b"Name:")) {
        return Err((11, 2));
    }
    let count = lines.get(2).map_or(Ok(0), |line| count(line))?;
    if count > MOST_SEGMENTS.min(input.room) as u64 {
        return Err((15, 3));
    }
    if count == 0 {
        return Err((14, 4));
    }
    let counted = &lines[3..lines.len().min(3 + count as usize)];
    if !counted.iter().all(|line| line.is_ascii()) {
        return Err((10, 0));
    }
    let segments = segments(counted, count, input)?;
    Ok((segments, trimmed(&lines[1][5..]).to_vec()))
}

/// The counted lines, one after the other from 0 to 1.
fn segments(counted: &[&[u8]], count: u64, input: &Input) -> Result<Vec<Segment>, (u32, usize)> {
    let (mut segments, mut end) = (Vec::new(), 0.0);
    for (i, line) in counted.iter().enumerate() {
        let segment = segment(line, input).map_err(|number| (number, i + 4))?;
        let [left, middle, right] = segment.0;
        if left != end || !(left <= middle && middle <= right) {
            return Err((18, i + 4));
        }
        end = right;
        segments.push(segment);
    }
    if (segments.len() as u64) < count {
        return Err((13, 3));
    }
    if end != 1.0 {
        return Err((18, 3 + segments.len()));
    }
    Ok(segments)
}

/// Without white space at both ends.
fn trimmed(name: &[u8]) -> &[u8] {
    let from = name.iter().position(|b| !is_space(*b)).unwrap_or(name.len());
    let to = name.iter().rposition(|b| !is_space(*b)).map_or(from, |at| at + 1);
    &name[from..to]
}

fn is_space(b: u8) -> bool {
    matches!(b, 9..=13 | 32)
}

/// The lines after the marks: they end at LF, and a CR just before it goes. Marks alone are one empty line.
fn lines(text: &[u8]) -> Vec<&[u8]> {
    let mut rest = text;
    while let Some(after) = rest.strip_prefix("\u{feff}".as_bytes()) {
        rest = after;
    }
    let mut lines = Vec::new();
    while let Some(at) = rest.iter().position(|b| *b == b'\n') {
        let line = &rest[..at];
        lines.push(line.strip_suffix(b"\r").unwrap_or(line));
        rest = &rest[at + 1..];
    }
    if !rest.is_empty() || lines.is_empty() && !text.is_empty() {
        lines.push(rest);
    }
    lines
}

fn count(line: &[u8]) -> Result<u64, (u32, usize)> {
    let digits = line.strip_prefix(b"+").unwrap_or(line);
    let plain = digits.iter().all(u8::is_ascii_digit);
    plain.then(|| String::from_utf8_lossy(digits).parse().ok()).flatten().ok_or((11, 3))
}

fn segment(line: &[u8], input: &Input) -> Result<Segment, u32> {
    let words = line.split(|b| is_space(*b)).filter(|word| !word.is_empty());
    let mut x: Vec<f32> = words.map(number).collect::<Option<_>>().ok_or(12u32)?;
    if x.len() == 13 {
        x.extend([0.0, 0.0]);
    }
    if x.len() != 15 {
        return Err(12);
    }
    let mut codes = [0; 4];
    for (i, most) in [5, 2, 4, 4].into_iter().enumerate() {
        let code = x[11 + i].trunc();
        if !(0.0..=most as f32).contains(&code) {
            return Err(12);
        }
        codes[i] = code as u8;
    }
    if matches!(codes[0], 1 | 2) && !(x[0] <= x[1] && x[1] <= x[2]) {
        return Err(16);
    }
    let mut channels = [0.0; 8];
    for (i, code) in [codes[2], codes[3]].into_iter().enumerate() {
        let own = [x[4 * i + 3], x[4 * i + 4], x[4 * i + 5], x[4 * i + 6]];
        let mut colour = [own, input.foreground, input.foreground, input.background, input.background][code as usize];
        if matches!(code, 2 | 4) {
            colour[3] = 0.0;
        }
        channels[4 * i..4 * i + 4].copy_from_slice(&colour);
    }
    Ok(([x[0], x[1], x[2]], channels, [codes[0], codes[1]]))
}

/// A sign, digits with at most one point, an exponent; at most 19 digits that count, and finite.
fn number(word: &[u8]) -> Option<f32> {
    let word = std::str::from_utf8(word).ok()?;
    let unsigned = word.strip_prefix(['+', '-']).unwrap_or(word);
    let (digits, power) = unsigned.split_once(['e', 'E']).unwrap_or((unsigned, "0"));
    let power = power.strip_prefix(['+', '-']).unwrap_or(power);
    let all = digits.replacen('.', "", 1);
    let plain = |text: &str| !text.is_empty() && text.bytes().all(|b| b.is_ascii_digit());
    if !plain(&all) || !plain(power) || all.trim_matches('0').len() > MOST_SIGNIFICANT {
        return None;
    }
    word.parse().ok().filter(|x: &f32| x.is_finite())
}
