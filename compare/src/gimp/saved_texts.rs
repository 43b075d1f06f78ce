//! Random texts as GIMP itself saves them.

use crate::gimp::gimp_texts::damage;
use crate::gimp::saved_rule::MOST_BYTES;
use crate::harness::random::Random;

/// Names, sound UTF-8 and not.
const NAMES: [&[u8]; 20] = [
    " \u{41c}\u{43e}\u{440}\u{435} #1".as_bytes(),
    " \u{6d77}".as_bytes(),
    " \u{1f30a}\u{10ffff}".as_bytes(),
    "\u{a0}a\u{3000}".as_bytes(),
    "\u{85} x\u{2028}".as_bytes(),
    "\u{7f}\u{80}\u{7ff}\u{800}\u{ffff}\u{10000}".as_bytes(),
    "\u{d7ff}\u{e000}".as_bytes(),
    " plain ".as_bytes(),
    "\t\u{b} a\r".as_bytes(),
    b"\xc1\xbf",
    b"\xe0\x9f\xbf",
    b"\xf0\x8f\xbf\xbf",
    b"\xed\xa0\x80",
    b"\xf4\x90\x80\x80",
    b"\xf5\x80\x80\x80",
    b"a\x80",
    b"\xe6\xb5",
    b"\xe6\xb5a",
    b"\xc3\xa9\x80",
    b"\xff",
];

/// A text as GIMP saves it: 15 fields, doubles in 17 significant digits or fewer; now and then with another number, or
/// damaged.
pub fn saved_text(random: &mut Random) -> Vec<u8> {
    let n = if random.one_in(40) { random.pick(&[255, 256, 257]) } else { random.from_to(1, 6) };
    let mut ends: Vec<f64> = (1..n).map(|_| fraction(random)).collect();
    ends.extend([0.0, 1.0]);
    ends.sort_by(f64::total_cmp);
    let mut text = b"GIMP Gradient\nName:".to_vec();
    let name = if random.one_in(3) { random.below(NAMES.len()) } else { random.below(9) };
    text.extend(NAMES[name]);
    text.extend(format!("\n{n}\n").bytes());
    for pair in ends.windows(2) {
        let middle = pair[0] + (pair[1] - pair[0]) * random.pick(&[0.5, 0.5, 0.25, 0.0, 1.0]);
        let mut words: Vec<String> = [pair[0], middle, pair[1]].map(written).into();
        words.extend((0..8).map(|_| channel(random)));
        words.push(random.pick(&["0", "0", "1", "2", "3", "4", "5"]).to_string());
        words.push(random.pick(&["0", "0", "1", "2"]).to_string());
        words.extend((0..2).map(|_| random.pick(&["0", "0", "0", "1", "2", "3", "4"]).to_string()));
        text.extend((words.join(" ") + "\n").bytes());
    }
    if random.one_in(8) {
        text.extend(random.pick(&[b"\xff\n".as_slice(), b"\xc3\xa9", b"more\n"]));
    }
    if random.one_in(4) {
        for _ in 0..random.from_to(1, 2) {
            damage(random, &mut text);
        }
    }
    if random.one_in(400) {
        text.resize(random.pick(&[MOST_BYTES - 1, MOST_BYTES, MOST_BYTES + 1]), b' ');
    }
    text
}

/// From 0 to 1, all its bits in use, or near an end.
fn fraction(random: &mut Random) -> f64 {
    let x = random.next() as f64 / u64::MAX as f64;
    x * random.pick(&[1.0, 1.0, 1.0, 0.05, 1e-7])
}

/// As `%.17g` writes it, or in fewer digits.
fn written(x: f64) -> String {
    let scientific = format!("{x:.16e}");
    if x != 0.0 && x < 1e-4 {
        scientific
    } else {
        format!("{x}")
    }
}

fn channel(random: &mut Random) -> String {
    let x = fraction(random) * random.pick(&[1.0, 1.0, -1.0, 2.0]);
    match random.below(60) {
        0 => format!("{x:.19}"),
        1 => format!("{x:.25}"),
        2 => format!("{x:.18e}"),
        3 => format!("{x:.20E}"),
        4 => random
            .pick(&[
                "4e38",
                "3.4028234663852886e38",
                "3.4028235677973366e38",
                "1e-46",
                "7.0064923216240853e-46",
                "-1e99999999999999999999",
                "1e-99999999999999999999",
                "inf",
                "nan",
                "1e",
                "1e1.5",
                "1_0",
                "0x1p0",
                ".e1",
                "00000000000000000000001.5000000000000000000000",
                "1.E+0",
                "-.5e-0",
            ])
            .to_string(),
        5..=20 => format!("{x:e}"),
        21..=40 => format!("{x:.16e}"),
        _ => format!("{x}"),
    }
}
