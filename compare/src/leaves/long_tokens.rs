//! Long tokens against str::parse::<f32>. What a long token is, is decided here by hand from its rule.

use crate::harness::options::Options;
use crate::harness::ours;
use crate::harness::random::Random;
use crate::harness::report::{same, Tally};
use crate::leaves::tokens::{damage, foreign, sign};

const MOST_SIGNIFICANT: usize = 19;

pub fn run(options: &Options) -> Vec<Tally> {
    let mut tally = Tally::new("long tokens: str::parse", options.seed);
    let cases = options.cases();
    let of = cases.end;
    for case in cases {
        let mut random = Random::of_case(options.seed, case);
        let text = token(&mut random);
        compare(&mut tally, case, &text);
        if case % 4096 == 0 {
            tally.progress(case, of);
        }
    }
    vec![tally.done()]
}

fn compare(tally: &mut Tally, case: u64, text: &[u8]) {
    tally.inputs(1);
    let is_long = grammar(text);
    tally.answered(is_long as u64);
    let got = ours::long_token(text);
    let rust = std::str::from_utf8(text).ok().and_then(|s| s.parse::<f32>().ok());
    let right = match (got, rust) {
        (Some(x), Some(y)) => is_long && same(x, y),
        (None, None) => !is_long,
        (None, Some(_)) => !is_long && known(tally, text),
        (Some(_), None) => false,
    };
    let short = ours::token(text);
    if !right || short.is_some_and(|x| !got.is_some_and(|y| same(x, y))) {
        tally.differs(case, || format!("{:?}: {got:?}, not {rust:?}; short {short:?}", String::from_utf8_lossy(text)));
    }
}

/// Why the Rust reads what is no long token here.
fn known(tally: &mut Tally, text: &[u8]) -> bool {
    if text.iter().any(u8::is_ascii_digit) {
        tally.listed("more than 19 significant digits");
    } else {
        tally.listed("inf, infinity or nan");
    }
    true
}

/// What follows a sign.
fn past_sign(text: &[u8]) -> &[u8] {
    match text {
        [b'+' | b'-', rest @ ..] => rest,
        _ => text,
    }
}

/// An optional sign; digits with at most one point, at least one, of which at most 19 are left without the zeros at the start
/// and at the end; then perhaps `e` or `E`, an optional sign and digits.
pub fn grammar(text: &[u8]) -> bool {
    let body = past_sign(text);
    let mark = body.iter().position(|b| matches!(b, b'e' | b'E'));
    let (number, power) = body.split_at(mark.unwrap_or(body.len()));
    let digits: String = number.iter().filter(|b| b.is_ascii_digit()).map(|b| *b as char).collect();
    let points = number.iter().filter(|b| **b == b'.').count();
    let has_power = match power {
        [] => true,
        [_, rest @ ..] => !past_sign(rest).is_empty() && past_sign(rest).iter().all(u8::is_ascii_digit),
    };
    let plain = digits.len() + points == number.len() && points <= 1 && !digits.is_empty();
    plain && has_power && digits.trim_matches('0').len() <= MOST_SIGNIFICANT
}

fn token(random: &mut Random) -> Vec<u8> {
    match random.below(16) {
        0..=4 => plain(random),
        5..=9 => half_way(random),
        10..=11 => saved(random),
        12 => at_an_end(random),
        13 => foreign(random),
        _ => {
            let mut text = if random.one_in(2) { plain(random) } else { half_way(random) };
            damage(random, &mut text);
            text
        }
    }
}

/// Digits as a text with a point `down` places from their end, a power of ten that takes back some of it, and zeros around.
fn written(random: &mut Random, digits: &str, down: i64) -> Vec<u8> {
    let mut text = digits.to_string();
    let moved = match random.below(3) {
        0 => down.clamp(0, 40),
        1 => random.from_to(0, 40) as i64,
        _ => 0,
    };
    if random.one_in(8) {
        text = "0".repeat(random.from_to(1, 40)) + &text;
    }
    let mut tail = 0;
    if random.one_in(8) {
        tail = random.from_to(1, 40) as i64;
        text += &"0".repeat(tail as usize);
    }
    let places = moved + tail;
    if places > 0 || random.one_in(4) {
        let short = (places - text.len() as i64).max(0) as usize;
        text = "0".repeat(short) + &text;
        text.insert(text.len() - places as usize, '.');
    }
    let power = moved - down;
    if power != 0 || random.one_in(4) {
        let mark = random.pick(&["e", "E"]);
        let plus = if power >= 0 { random.pick(&["", "+"]) } else { "-" };
        let zeros = if random.one_in(16) { "0".repeat(random.from_to(1, 30)) } else { String::new() };
        text += &format!("{mark}{plus}{zeros}{}", power.abs());
    }
    format!("{}{text}", sign(random)).into_bytes()
}

/// Random digits, most often 17 to 19 of them, anywhere in the range and a little past both ends.
fn plain(random: &mut Random) -> Vec<u8> {
    let count = if random.one_in(3) { random.from_to(1, 24) } else { random.from_to(17, 19) };
    let digits: String = (0..count).map(|_| (b'0' + random.below(10) as u8) as char).collect();
    let down = random.from_to(0, 110) as i64 - 42;
    written(random, &digits, down)
}

/// The first 17 to 19 digits of what lies half-way between two neighbours, then perhaps one more or less in the last.
fn half_way(random: &mut Random) -> Vec<u8> {
    // m * 2 ^ e is half-way where m is odd and has 25 binary digits, or fewer where e is -150
    let e = random.from_to(0, 253) as i64 - 150;
    let m = if e == -150 {
        2 * random.below(1 << 24) as u128 + 1
    } else {
        (1 << 24) + 2 * random.below(1 << 23) as u128 + 1
    };
    let (digits, down) = decimal(m, e, random.from_to(17, 19));
    let value: u128 = digits.parse().expect("digits");
    let moved = match random.below(4) {
        0 => value + 1,
        1 => value - 1,
        _ => value,
    };
    written(random, &moved.to_string(), down)
}

/// 18 decimal digits of a whole number.
const LIMB: u128 = 1_000_000_000_000_000_000;

/// The first `count` digits of m * 2 ^ e, cut off, and how many places the point is before their end.
fn decimal(m: u128, e: i64, count: usize) -> (String, i64) {
    // a half is five times as much, a place further down
    let (base, step): (u128, i64) = if e > 0 { (2, 30) } else { (5, 13) };
    let mut limbs = vec![m % LIMB, m / LIMB];
    let mut left = e.abs();
    while left > 0 {
        let factor = base.pow(left.min(step) as u32);
        let mut carry = 0;
        for limb in &mut limbs {
            carry += *limb * factor;
            *limb = carry % LIMB;
            carry /= LIMB;
        }
        limbs.push(carry);
        left -= step;
    }
    while limbs.last() == Some(&0) {
        limbs.pop();
    }
    let mut digits = limbs.pop().unwrap_or(0).to_string();
    for limb in limbs.iter().rev() {
        digits += &format!("{limb:018}");
    }
    let kept = digits.len().min(count);
    let down = (-e).max(0) - (digits.len() - kept) as i64;
    digits.truncate(kept);
    (digits, down)
}

/// As GIMP and Python write a number of 53 binary digits: 17 significant digits, or as many as tell it.
fn saved(random: &mut Random) -> Vec<u8> {
    let x = random.below(1 << 53) as f64 / (1u64 << 53) as f64 * 10f64.powi(-(random.below(24) as i32));
    let text = if random.one_in(2) { format!("{x:?}") } else { format!("{x:.16e}") };
    text.into_bytes()
}

/// Where infinity and zero begin, and powers that are far past both.
fn at_an_end(random: &mut Random) -> Vec<u8> {
    let texts = [
        "3402823466385288598",
        "3402823567797336616",
        "3402823567797336617",
        "3.402823567797336616375393954581426e38",
        "7006492321624085354",
        "7006492321624085355",
        "1401298464324817070",
        "1175494350822287507",
    ];
    let digits = random.pick(&texts);
    if digits.contains('.') {
        return digits.as_bytes().to_vec();
    }
    let down = match random.below(4) {
        0 => -20,
        1 => 64,
        2 => 63,
        _ => return format!("{}{digits}e{}{}", sign(random), random.pick(&["", "-", "+"]), random.bits()).into_bytes(),
    };
    written(random, digits, down)
}
