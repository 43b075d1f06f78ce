//! The third line of a GIMP text, the count, sound and damaged, before good segments: what is read, or the refusal.

use crate::gimp::texts::{read, Input};
use crate::harness::options::Options;
use crate::harness::random::Random;
use crate::harness::report::Tally;

const SEGMENT: &str = "0 .5 1 0 0 0 1 1 1 1 1 0 0\n";

/// Lines whose answers are known: each is asked once, before the random ones.
const KNOWN: [&str; 24] = [
    "1",
    "+1",
    "+",
    "++1",
    "+-1",
    "-+1",
    "-0",
    "-1",
    "+0",
    "0",
    "",
    " 1",
    "1 ",
    "+ 1",
    " +1",
    "1+",
    "+01",
    "00000000000000000000000000000001",
    "+00000000000000000000000000000001",
    "18446744073709551615",
    "+18446744073709551615",
    "18446744073709551616",
    "+18446744073709551616",
    "1\r",
];

pub fn run(options: &Options) -> Vec<Tally> {
    let mut tally = Tally::new("counts", options.seed);
    for line in KNOWN {
        for end in ["\n", "\r\n", "\r", ""] {
            read(&mut tally, 0, &input(line.as_bytes(), end, 1));
        }
    }
    let cases = options.cases();
    let of = cases.end;
    for case in cases {
        let mut random = Random::of_case(options.seed, case);
        let line = random_line(&mut random);
        let end = random.pick(&["\n", "\n", "\n", "\r\n", "\r", ""]);
        read(&mut tally, case, &input(&line, end, random.below(4)));
        tally.progress(case, of);
    }
    vec![tally.done()]
}

fn input(line: &[u8], end: &str, segments: usize) -> Input {
    let mut text = b"GIMP Gradient\nName: x\n".to_vec();
    text.extend(line);
    text.extend(end.bytes());
    // a text that ends with its count has no segments
    if end.ends_with('\n') {
        text.extend(SEGMENT.repeat(segments).bytes());
    }
    Input { text, foreground: [0.0; 4], background: [1.0; 4], room: 256 }
}

/// Signs, zeros, digits, and then now and then one byte put in, taken out or changed.
fn random_line(random: &mut Random) -> Vec<u8> {
    let sign = random.pick(&["", "", "", "+", "+", "+", "-", "++", " ", "+ "]);
    let zeros = if random.one_in(3) { random.below(30) } else { 0 };
    let digits = match random.below(8) {
        0 => String::new(),
        1 => u64::MAX.wrapping_sub(random.below(6) as u64).to_string(),
        2 => format!("1844674407370955161{}", random.below(10)),
        3 => random.next().to_string(),
        4 => random.from_to(250, 260).to_string(),
        _ => random.below(5).to_string(),
    };
    let mut line = format!("{sign}{}{digits}", "0".repeat(zeros)).into_bytes();
    if random.one_in(2) {
        let at = random.below(line.len() + 1);
        match random.below(3) {
            0 => line.insert(at, random.pick(b"+- \t\x0b\x0c\r0159.e_,x\x00\x7f")),
            1 if at < line.len() => drop(line.remove(at)),
            _ if at < line.len() => line[at] = random.bits() as u8 & 0x7f,
            _ => {}
        }
    }
    line
}
