//! Numbers as they are written: each beside nine digits worked out here, and read again by the Rust and by the library.

use crate::harness::options::Options;
use crate::harness::ours;
use crate::harness::report::Tally;

/// The bits of 1e-6 and of 1e6.
pub const LEAST: u32 = 0x3586_37bd;
const MOST: u32 = 0x4974_2400;
/// Every f32 from 1e-6 to 1e6.
pub const ALL: u64 = (MOST - LEAST + 1) as u64;

/// N numbers, spread evenly over the range with its ends, and their negatives; then the numbers at its edges.
pub fn numbers(options: &Options) -> Vec<Tally> {
    let mut tally = Tally::new("numbers as written", options.seed);
    let cases = options.cases();
    let (of, step) = (cases.end, (ALL / options.size.max(1)).max(1));
    for case in cases {
        let at = (case * step).min(ALL - 1) as u32;
        // from both ends, so that the last is tried whatever the step
        let bits = if case % 2 == 0 { LEAST + at } else { MOST - at };
        let bits = if step == 1 { LEAST + at } else { bits };
        number(&mut tally, case, f32::from_bits(bits));
        if step > 1 || case % 16 == 0 {
            number(&mut tally, case, -f32::from_bits(bits));
        }
        if case % 4096 == 0 {
            tally.progress(case, of);
        }
    }
    for bits in [0, 1, LEAST - 1, LEAST, LEAST + 1, MOST - 1, MOST, MOST + 1, 0x7f7f_ffff, 0x7f80_0000, 0x7fc0_0000] {
        number(&mut tally, options.size, f32::from_bits(bits));
        number(&mut tally, options.size, f32::from_bits(bits | 0x8000_0000));
    }
    vec![tally.done()]
}

fn number(tally: &mut Tally, case: u64, x: f32) {
    tally.inputs(1);
    let wanted = text_of(x);
    let mut buffer = [0; 18];
    let len = ours::numeral(x, &mut buffer);
    let got = &buffer[..len];
    if got != wanted.as_bytes() {
        tally.differs(case, || format!("{x:e}: {:?}, not {wanted:?}", String::from_utf8_lossy(got)));
        return;
    }
    if len == 0 {
        return;
    }
    tally.answered(1);
    let rust = std::str::from_utf8(got).unwrap().parse::<f32>();
    if !rust.map_or(false, |y| y.to_bits() == x.to_bits())
        || !ours::token(got).map_or(false, |y| y.to_bits() == x.to_bits())
    {
        tally.differs(case, || format!("{x:e} does not read back from {wanted:?}"));
    }
}

/// The text of a number, worked out in 128 bits: m / 2^shift with the fewest places that leave nine digits before rounding.
pub fn text_of(x: f32) -> String {
    let (sign, size) = (if x.is_sign_negative() { "-" } else { "" }, x.to_bits() & 0x7fff_ffff);
    if size == 0 {
        return format!("{sign}0");
    }
    if !(LEAST..=MOST).contains(&size) {
        return String::new();
    }
    let m = (size % 0x80_0000 + 0x80_0000) as u128;
    let unit = 1u128 << (150 - size / 0x80_0000);
    let mut places = (0..).find(|k| m * 10u128.pow(*k) >= 100_000_000 * unit).unwrap();
    let scaled = m * 10u128.pow(places);
    let (whole, rest) = (scaled / unit, scaled % unit);
    let mut digits = match (2 * rest).cmp(&unit) {
        std::cmp::Ordering::Less => whole,
        std::cmp::Ordering::Greater => whole + 1,
        std::cmp::Ordering::Equal => whole + whole % 2,
    };
    if digits == 1_000_000_000 {
        (digits, places) = (100_000_000, places - 1);
    }
    let ten = 10u128.pow(places);
    format!("{sign}{}.{:0width$}", digits / ten, digits % ten, width = places as usize)
}
