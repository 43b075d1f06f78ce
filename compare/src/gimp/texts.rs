//! GIMP texts against the Rust's reader. Where document 01 refuses and the Rust does not, the place is told by hand.

use crate::gimp::gimp_texts::random_text;
use crate::harness::options::Options;
use crate::harness::oracle;
use crate::harness::ours;
use crate::harness::ramps::MOST_SEGMENTS;
use crate::harness::random::Random;
use crate::harness::report::{all_same, Tally};
use crate::leaves::tokens::grammar;

const MOST_BYTES: usize = 65_536;
const RUBBISH: f32 = -7.5;
const RUBBISH_CODE: u8 = 77;
const TORN: &str = "18: torn";

pub struct Input {
    pub text: Vec<u8>,
    pub foreground: [f32; 4],
    pub background: [f32; 4],
    pub room: usize,
}

/// Segments and name, or the refusal and its line.
pub type Answer = Result<(oracle::Segments, String), (u32, usize)>;

pub fn run(options: &Options) -> Vec<Tally> {
    let mut tally = Tally::new("texts: read", options.seed);
    let mut names = Tally::new("texts: name", options.seed);
    let cases = options.cases();
    let of = cases.end;
    for case in cases {
        let mut random = Random::of_case(options.seed, case);
        let input = random_input(&mut random);
        read(&mut tally, case, &input);
        name(&mut names, case, input.text);
        tally.progress(case, of);
    }
    vec![tally.done(), names.done()]
}

pub fn random_input(random: &mut Random) -> Input {
    let mut foreground = [random.unit(), random.unit(), random.unit(), random.unit()];
    let background = [random.unit(), 2.0, -0.0, random.unit()];
    if random.one_in(100) {
        foreground[random.below(4)] = random.pick(&[f32::NAN, f32::INFINITY]);
    }
    let room = if random.one_in(10) { random.below(6) } else { MOST_SEGMENTS + random.below(3) };
    Input { text: random_text(random), foreground, background, room }
}

/// One text: its answer and its outputs.
pub fn read(tally: &mut Tally, case: u64, input: &Input) {
    tally.inputs(1);
    let (want, class) = expected(input);
    tally.answered(want.is_ok() as u64);
    let room = input.room;
    let mut positions = vec![RUBBISH; 3 * room + 2];
    let mut channels = vec![RUBBISH; 8 * room];
    let mut codes = vec![RUBBISH_CODE; 2 * room + 1];
    let colours = (input.foreground, input.background);
    let got = ours::read(&input.text, colours, &mut positions, &mut channels, &mut codes);
    let right = match (&got, &want) {
        (Ok(n), Ok((segments, _))) => *n == segments.len() && holds(segments, (&positions, &channels, &codes)),
        (Err(refused), Err(expected)) => {
            let zeros = positions.iter().chain(&channels).all(|x| x.to_bits() == 0) && codes.iter().all(|c| *c == 0);
            zeros && refused == expected
        }
        _ => false,
    };
    if !right {
        let want = want.map(|w| w.0.len());
        tally.differs(case, || format!("{got:?}, not {want:?}, of {:?}", String::from_utf8_lossy(&input.text)));
    } else if let Some(class) = class {
        tally.listed(class);
    }
}

/// The segments at the start of the outputs, and what was there before after them.
fn holds(segments: &oracle::Segments, out: (&[f32], &[f32], &[u8])) -> bool {
    let n = segments.len();
    segments.iter().enumerate().all(|(i, (p, c, k))| {
        let ends = out.1[8 * i..8 * i + 8].chunks(4).flat_map(|end| oracle::kept(k[1], end));
        all_same(&out.0[3 * i..3 * i + 3], p)
            && all_same(&ends.collect::<Vec<f32>>(), c)
            && out.2[2 * i..2 * i + 2] == *k
    }) && out.0[3 * n..].iter().chain(&out.1[8 * n..]).all(|x| *x == RUBBISH)
        && out.2[2 * n..].iter().all(|k| *k == RUBBISH_CODE)
}

/// The Rust's answer under document 01's numbers, or the refusal that is listed and comes first, with its class.
pub fn expected(input: &Input) -> (Answer, Option<&'static str>) {
    let rust = oracle::read(&input.text, input.foreground, input.background);
    let error = rust.as_ref().err().copied();
    if let Some((number, line, class)) = listed(input, error) {
        return (Err((number, line)), Some(class));
    }
    let answer = match rust {
        Ok((_, segments, name)) => Ok((segments, name)),
        Err((message, line)) => Err((number_of(message), line)),
    };
    (answer, None)
}

pub fn number_of(message: &str) -> u32 {
    match message {
        "invalid header" => 11,
        "invalid segment" => 12,
        "wrong segments count" => 13,
        _ => 14,
    }
}

/// What document 01 refuses before the Rust comes to its own answer, line by line.
fn listed(input: &Input, error: Option<(&'static str, usize)>) -> Option<(u32, usize, &'static str)> {
    if !input.foreground.iter().chain(&input.background).all(|x| x.is_finite()) {
        return Some((2, 0, "2: a colour not finite"));
    }
    let text = after_marks(&input.text);
    if input.text.len() > MOST_BYTES || text.iter().any(|b| *b > 127) {
        return Some((10, 0, "10: too long, or a byte above 127"));
    }
    if error.is_some_and(|e| e.0 == "invalid header") {
        return None;
    }
    let mut lines = text.split(|b| *b == b'\n').map(|l| l.strip_suffix(b"\r").unwrap_or(l)).enumerate().skip(2);
    let (_, count) = lines.next()?;
    let count = String::from_utf8_lossy(count).parse::<u64>().unwrap_or(0);
    if count > MOST_SEGMENTS.min(input.room) as u64 {
        return Some((15, 3, "15: count above 256 or the room"));
    }
    let mut joint = Joint { right: 0.0, lines: 0, line: 0 };
    for (i, line) in lines.take(count as usize) {
        if error == Some(("invalid segment", i + 1)) {
            return None;
        }
        if foreign_number(line) {
            return Some((12, i + 1, "12: an exponent, or more than 18 digits"));
        }
        if not_carried(line) {
            return Some((16, i + 1, "16: curved"));
        }
        if sine_outside(line) {
            return Some((16, i + 1, "16: sinusoidal, its middle outside"));
        }
        match positions(line) {
            Some(p) if joint.tears(p, i + 1) => return Some((18, i + 1, TORN)),
            Some(_) => {}
            // what comes after the last line end is no line
            None => return None,
        }
    }
    (count > 0 && joint.lines == count && joint.right != 1.0).then_some((18, joint.line, TORN))
}

/// Where the last segment ended, how many there were, and the line of the last.
struct Joint {
    right: f32,
    lines: u64,
    line: usize,
}

impl Joint {
    /// Whether a segment is out of order in itself or does not start where the last one ended.
    fn tears(&mut self, [left, middle, right]: [f32; 3], line: usize) -> bool {
        let joined = left == self.right && left <= middle && middle <= right;
        *self = Joint { right, lines: self.lines + 1, line };
        !joined
    }
}

fn positions(line: &[u8]) -> Option<[f32; 3]> {
    let numbers: Vec<f32> = words(line).into_iter().map_while(parsed).collect();
    numbers.get(..3)?.try_into().ok()
}

fn after_marks(mut text: &[u8]) -> &[u8] {
    while let Some(rest) = text.strip_prefix("\u{feff}".as_bytes()) {
        text = rest;
    }
    text
}

fn words(line: &[u8]) -> Vec<&[u8]> {
    let space = |b: &u8| matches!(b, 9..=13 | 32);
    line.split(space).filter(|word| !word.is_empty()).collect()
}

fn parsed(word: &[u8]) -> Option<f32> {
    std::str::from_utf8(word).ok()?.parse().ok()
}

/// A number that the Rust reads and document 01 does not.
fn foreign_number(line: &[u8]) -> bool {
    words(line).into_iter().any(|word| !grammar(word) && parsed(word).is_some())
}

/// A blending that is not carried, in a line that the Rust takes.
fn not_carried(line: &[u8]) -> bool {
    code(line, 11) == 1
}

/// A sinusoidal segment whose middle is outside its ends.
fn sine_outside(line: &[u8]) -> bool {
    let inside = |[left, middle, right]: [f32; 3]| left <= middle && middle <= right;
    code(line, 11) == 2 && !positions(line).is_some_and(inside)
}

fn code(line: &[u8], i: usize) -> i64 {
    words(line).into_iter().filter_map(parsed).nth(i).map_or(0, |x| x as i64)
}

/// The name is the Rust's wherever reading with room 256 and finite colours succeeds, and empty elsewhere.
pub fn name_of(text: &[u8]) -> String {
    name_read(text).unwrap_or_default()
}

fn name_read(text: &[u8]) -> Option<String> {
    let input = Input { text: text.to_vec(), foreground: [0.0; 4], background: [0.0; 4], room: MOST_SEGMENTS };
    expected(&input).0.map(|read| read.1).ok()
}

fn name(tally: &mut Tally, case: u64, text: Vec<u8>) {
    tally.inputs(1);
    let read = name_read(&text);
    tally.answered(read.is_some() as u64);
    let want = read.unwrap_or_default();
    let got = ours::name(&text);
    if got != want.as_bytes() {
        tally.differs(case, || format!("{:?}, not {want:?}", String::from_utf8_lossy(&got)));
    }
}
