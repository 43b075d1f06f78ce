//! Random GIMP texts: sound ones in every form that document 01 allows, and damaged ones.

use crate::harness::random::Random;

/// A text, sound or damaged.
pub fn random_text(random: &mut Random) -> Vec<u8> {
    let mut text = sound(random);
    if random.one_in(3) {
        for _ in 0..random.from_to(1, 3) {
            damage(random, &mut text);
        }
    }
    text
}

/// A text of n segments as GIMP writes it.
pub fn tidy_text(random: &mut Random, n: usize) -> Vec<u8> {
    let mut text = format!("GIMP Gradient\nName: Timed\n{n}\n");
    for i in 0..n {
        let (left, right) = (i as f64 / n as f64, (i + 1) as f64 / n as f64);
        text += &format!("{left:.6} {:.6} {right:.6}", (left + right) / 2.0);
        for _ in 0..8 {
            text += &format!(" {:.6}", random.unit());
        }
        text += " 0 0 0 0\n";
    }
    text.into_bytes()
}

fn sound(random: &mut Random) -> Vec<u8> {
    let n = match random.below(48) {
        0 => random.pick(&[0, 255, 256, 257]),
        1 => random.from_to(0, 60),
        _ => random.from_to(1, 5),
    };
    let end = random.pick(&["\n", "\n", "\n", "\r\n"]);
    let mut text = "\u{feff}".repeat(if random.one_in(8) { random.from_to(1, 3) } else { 0 });
    text += "GIMP Gradient";
    text += end;
    text += &format!("Name:{}{end}", random.pick(&["", " x", " Two words ", "\t\x0b odd\x0c", "\x1cx\x1f", " a\rb"]));
    let zeros = if random.one_in(12) { "000" } else { "" };
    let plus = if random.one_in(60) { "+" } else { "" };
    let count = match random.below(40) {
        0 => (n as u64 + random.pick(&[1, 300])).to_string(),
        1 => (n as u64).saturating_sub(1).to_string(),
        2 => random
            .pick(&["18446744073709551615", "18446744073709551616", "18446744073709551612", "257", "-1", "1 ", ""])
            .to_string(),
        _ => n.to_string(),
    };
    text += &format!("{plus}{zeros}{count}{end}");
    let plain = random.one_in(2);
    for i in 0..n {
        text += &segment(random, i, n, plain);
        text += end;
    }
    match random.below(10) {
        0 => drop(text.pop()),
        1 => text += "more that is not read\n",
        2 => text += "\r",
        _ => {}
    }
    text.into_bytes()
}

/// One line: 13 or 15 numbers; `plain` keeps to what the library carries.
fn segment(random: &mut Random, i: usize, n: usize, plain: bool) -> String {
    let (left, right) = (i as f64 / n as f64, (i + 1) as f64 / n as f64);
    let mut words: Vec<String> = [left, (left + right) / 2.0, right].iter().map(|x| format!("{x:.6}")).collect();
    if random.one_in(if plain { 60 } else { 12 }) {
        words[random.below(3)] = random.pick(&["0.5", "0", "-0", "1", "0.999999", "0.000001", "2"]).to_string();
    }
    words.extend((0..8).map(|_| number(random, plain)));
    let rare = if plain { 400 } else { 12 };
    words.push(code(
        random,
        &["0", "0", "2", "2", "3", "4", "5"],
        &["1", "2.9", "6", "-1", "0.9", "-0.9", "5.99", "5.99999999", "+3."],
        rare,
    ));
    words.push(code(random, &["0", "0", "0", "1", "2"], &["2.9", "3", "0.99", "-0.5", "-1", "0.99999999"], rare));
    if random.one_in(2) {
        for _ in 0..2 {
            words.push(code(random, &["0", "1", "2", "3", "4"], &["5", "-1", "4.9", "-0.0", "9999999999"], rare));
        }
    } else if random.one_in(rare) {
        words.push("0".to_string());
    }
    let gap = random.pick(&[" ", " ", "  ", "\t", " \x0b", "\x0c", "\r "]);
    let (before, after) = (random.pick(&["", "", " "]), random.pick(&["", "", " ", "\t"]));
    format!("{before}{}{after}", words.join(gap))
}

fn code(random: &mut Random, usual: &[&str], odd: &[&str], rare: usize) -> String {
    if random.one_in(rare) { random.pick(odd) } else { random.pick(usual) }.to_string()
}

fn number(random: &mut Random, plain: bool) -> String {
    let places = random.from_to(0, 12);
    let value = random.unit() as f64 * random.pick(&[1.0, 1.0, 1.0, 255.0, -1.0]);
    if plain || !random.one_in(40) {
        return format!("{value:.places$}");
    }
    random
        .pick(&[
            "1e0",
            "5E-1",
            "0.1234567890123456789",
            "0.000000000000000001",
            "000000000000000001",
            ".5",
            "5.",
            "+1",
            "-0",
            ".",
            "x",
            "inf",
            "nan",
            "1e39",
            "1e-50",
            "--1",
            "1,0",
            "999999999999999999",
            "0x1",
        ])
        .to_string()
}

pub fn damage(random: &mut Random, text: &mut Vec<u8>) {
    let at = random.below(text.len() + 1);
    match random.below(10) {
        0 => text.truncate(at),
        1 => text.insert(at, random.bits() as u8),
        2 => text.insert(at, random.pick(b"\n\r \t0.-+e\x00\x7f\x1c\x80\xef")),
        3 if at < text.len() => text[at] = random.bits() as u8 & 0x7f,
        4 if at < text.len() => drop(text.remove(at)),
        5 => text.splice(at..at, b"\n".repeat(random.from_to(1, 3))).for_each(drop),
        6 => text.splice(at..at, "\u{e9}".bytes()).for_each(drop),
        7 => {
            let end = (at + random.below(80)).min(text.len());
            let part = text[at..end].to_vec();
            text.extend(part);
        }
        8 if random.one_in(20) => text.resize(random.pick(&[65_535, 65_536, 65_537]), b' '),
        _ => {
            let line = random.below(6);
            let lines: Vec<Vec<u8>> = text.split(|b| *b == b'\n').map(<[u8]>::to_vec).collect();
            let kept: Vec<Vec<u8>> =
                lines.into_iter().enumerate().filter(|(i, _)| *i != line).map(|(_, l)| l).collect();
            *text = kept.join(&b'\n');
        }
    }
}
