//! Tokens against str::parse::<f32>. What a token is, is decided here by hand from document 01.

use crate::harness::options::Options;
use crate::harness::ours;
use crate::harness::random::Random;
use crate::harness::report::{same, Tally};

const MOST_DIGITS: usize = 18;

pub fn run(options: &Options) -> Vec<Tally> {
    let mut tally = Tally::new("tokens: str::parse", options.seed);
    let cases = options.cases();
    let of = cases.end;
    for case in cases {
        let mut random = Random::of_case(options.seed, case);
        let text = token(&mut random);
        compare(&mut tally, case, &text);
        if case % 4096 == 0 {
            tally.progress(case, of);
        }
    }
    vec![tally.done()]
}

fn compare(tally: &mut Tally, case: u64, text: &[u8]) {
    tally.inputs(1);
    tally.answered(grammar(text) as u64);
    let got = ours::token(text);
    let rust = std::str::from_utf8(text).ok().and_then(|s| s.parse::<f32>().ok());
    let right = match (got, rust) {
        (Some(x), Some(y)) => grammar(text) && same(x, y),
        (None, None) => !grammar(text),
        (None, Some(_)) => !grammar(text) && known(tally, text),
        (Some(_), None) => false,
    };
    if !right {
        tally.differs(case, || format!("{:?}: {got:?}, not {rust:?}", String::from_utf8_lossy(text)));
    }
}

/// Why the Rust reads what is no token here.
fn known(tally: &mut Tally, text: &[u8]) -> bool {
    if text.iter().filter(|b| b.is_ascii_digit()).count() > MOST_DIGITS && !text.iter().any(u8::is_ascii_alphabetic) {
        tally.listed("more than 18 digits");
    } else if text.iter().any(u8::is_ascii_digit) {
        tally.listed("exponent");
    } else {
        tally.listed("inf, infinity or nan");
    }
    true
}

/// An optional sign; digits with at most one point, 1 to 18 of them.
pub fn grammar(text: &[u8]) -> bool {
    let body = match text {
        [b'+' | b'-', rest @ ..] => rest,
        _ => text,
    };
    let digits = body.iter().filter(|b| b.is_ascii_digit()).count();
    let points = body.iter().filter(|b| **b == b'.').count();
    digits + points == body.len() && points <= 1 && (1..=MOST_DIGITS).contains(&digits)
}

fn token(random: &mut Random) -> Vec<u8> {
    match random.below(16) {
        0..=5 => plain(random),
        6..=11 => half_way(random),
        12 => short(random),
        13 => foreign(random),
        _ => {
            let mut text = if random.one_in(2) { plain(random) } else { half_way(random) };
            damage(random, &mut text);
            text
        }
    }
}

pub fn sign(random: &mut Random) -> &'static str {
    random.pick(&["", "", "", "-", "-", "+"])
}

/// Random digits, now and then too many or after leading zeros, with a point anywhere or nowhere.
fn plain(random: &mut Random) -> Vec<u8> {
    let count = if random.one_in(24) { random.from_to(18, 24) } else { random.from_to(1, 18) };
    let zeros = if random.one_in(3) { random.below(count) } else { 0 };
    let mut text = sign(random).as_bytes().to_vec();
    let start = text.len();
    for i in 0..count {
        text.push(if i < zeros { b'0' } else { b'0' + random.below(10) as u8 });
    }
    if !random.one_in(4) {
        let at = start + random.below(count + 1);
        text.insert(at, b'.');
    }
    text
}

/// Half-way between two neighbours, exactly or cut off after some digits, then perhaps one digit up or down.
fn half_way(random: &mut Random) -> Vec<u8> {
    let odd = (1u128 << 24) + 2 * random.below(1 << 23) as u128 + 1;
    let (whole, places) = if random.one_in(3) {
        (odd << random.below(36), 0)
    } else {
        let down = random.from_to(1, 59);
        let places = if random.one_in(2) { down.min(18) } else { random.from_to(1, 18) };
        (odd * 10u128.pow(places as u32) >> down, places)
    };
    let moved = match random.below(4) {
        0 => whole + 1,
        1 => whole.saturating_sub(1),
        _ => whole,
    };
    let mut text = sign(random).to_string();
    if places == 0 {
        text += &moved.to_string();
    } else {
        let unit = 10u128.pow(places as u32);
        let ahead = moved / unit;
        if ahead > 0 || random.one_in(4) {
            text += &ahead.to_string();
        }
        text += &format!(".{:0places$}", moved % unit);
    }
    text.into_bytes()
}

/// Every text of at most four of the characters that matter has its turn.
fn short(random: &mut Random) -> Vec<u8> {
    let length = random.below(5);
    (0..length).map(|_| random.pick(b"0159+-.eE ")).collect()
}

/// What the Rust reads and document 01 does not, and what neither does.
pub fn foreign(random: &mut Random) -> Vec<u8> {
    let texts = [
        "inf",
        "-inf",
        "+infinity",
        "nan",
        "NaN",
        "1e5",
        "1E-5",
        "-.5e1",
        "1e",
        "e1",
        "0x10",
        "1_000",
        "1,5",
        " 1",
        "1 ",
        "--1",
        "+-1",
        "1-",
        "1.2.3",
        "..",
        ".",
        "-",
        "+",
        "",
        "-.",
        "+.",
        "00",
        "-0",
        "+0.0",
        "1e400",
        "1e-400",
        "\u{661}",
        "999999999999999999",
        "9999999999999999999",
        "000000000000000001",
        "0000000000000000001",
        "0.00000000000000001",
        "0.000000000000000001",
        "16777217",
        "16777219",
        "0.1",
        "340282346638528859",
    ];
    random.pick(&texts).as_bytes().to_vec()
}

pub fn damage(random: &mut Random, text: &mut Vec<u8>) {
    let at = random.below(text.len() + 1);
    match random.below(3) {
        0 => text.insert(at, random.pick(b"+-.eE x0\t\0\xff9:/")),
        1 if at < text.len() => text[at] = random.bits() as u8,
        _ => text.truncate(at),
    }
}
