//! GIMP texts as GIMP itself saves them: the rule of `saved_rule`; and the Rust's reader, where that has no listed difference.

use crate::gimp::gimp_texts::damage;
use crate::gimp::saved_rule::{rule, Answer};
use crate::gimp::saved_texts::saved_text;
use crate::gimp::texts::{self, Input};
use crate::harness::options::Options;
use crate::harness::oracle;
use crate::harness::ours;
use crate::harness::ramps::MOST_SEGMENTS;
use crate::harness::random::Random;
use crate::harness::report::{all_same, Tally};
use std::path::Path;

pub fn run(options: &Options) -> Vec<Tally> {
    let mut tallies = tallies(options);
    let cases = options.cases();
    let of = cases.end;
    for case in cases {
        let mut random = Random::of_case(options.seed, case);
        let mut input = texts::random_input(&mut random);
        if !random.one_in(4) {
            input.text = saved_text(&mut random);
        }
        compare(&mut tallies, case, &input);
        tallies[0].progress(case, of);
    }
    tallies.into_iter().map(Tally::done).collect()
}

/// The files of a folder, each whole, and each damaged in a hundred ways.
pub fn files(options: &Options, folder: &Path) -> Vec<Tally> {
    let mut tallies = tallies(options);
    let mut paths: Vec<_> =
        std::fs::read_dir(folder).into_iter().flatten().flatten().map(|entry| entry.path()).collect();
    paths.sort();
    let (mut read, mut refused) = (0, 0);
    for (case, path) in paths.iter().filter(|path| path.extension().is_some_and(|e| e == "ggr")).enumerate() {
        let Ok(text) = std::fs::read(path) else { continue };
        let whole = |text| Input { text, foreground: [0.0, 0.0, 0.0, 1.0], background: [1.0; 4], room: MOST_SEGMENTS };
        let input = whole(text);
        *if rule(&input).is_ok() { &mut read } else { &mut refused } += 1;
        compare(&mut tallies, case as u64, &input);
        let mut random = Random::of_case(options.seed, case as u64);
        for _ in 0..100 {
            let mut text = input.text.clone();
            damage(&mut random, &mut text);
            compare(&mut tallies, case as u64, &whole(text));
        }
    }
    println!("{read} files read, {refused} refused");
    tallies.into_iter().map(Tally::done).collect()
}

fn tallies(options: &Options) -> Vec<Tally> {
    ["saved: read", "saved: name", "saved: the Rust"].map(|name| Tally::new(name, options.seed)).into()
}

fn compare(tallies: &mut [Tally], case: u64, input: &Input) {
    let want = rule(input);
    let [read, name, rust] = tallies else { unreachable!("three of them") };
    for tally in [&mut *read, &mut *name, &mut *rust] {
        tally.inputs(1);
        tally.answered(want.is_ok() as u64);
    }
    let shown = || String::from_utf8_lossy(&input.text).into_owned();
    if let Err(got) = same_read(input, &want) {
        read.differs(case, || format!("{got}, not {want:?}, of {:?}", shown()));
    }
    let named = Input { text: input.text.clone(), foreground: [0.0; 4], background: [0.0; 4], room: MOST_SEGMENTS };
    let wanted = rule(&named).map_or(Vec::new(), |found| found.1);
    let got = ours::name_saved(&input.text);
    if got != wanted {
        name.differs(case, || format!("{got:?}, not {wanted:?}, of {:?}", shown()));
    }
    match beside_rust(input, &want) {
        Ok(Some(class)) => rust.listed(class),
        Ok(None) => {}
        Err(got) => rust.differs(case, || format!("{got}, not {want:?}, of {:?}", shown())),
    }
}

/// The library's answer and outputs, rubbish before.
fn same_read(input: &Input, want: &Answer) -> Result<(), String> {
    const RUBBISH: f32 = -7.5;
    let room = input.room;
    let (mut positions, mut channels) = (vec![RUBBISH; 3 * room + 2], vec![RUBBISH; 8 * room]);
    let mut codes = vec![77; 2 * room + 1];
    let colours = (input.foreground, input.background);
    let got = ours::read_saved(&input.text, colours, &mut positions, &mut channels, &mut codes);
    let right = match (&got, want) {
        (Ok(n), Ok((segments, _))) => {
            let after = positions[3 * n..].iter().chain(&channels[8 * n..]).all(|x| *x == RUBBISH);
            let written = segments.iter().enumerate().all(|(i, (p, c, k))| {
                all_same(&positions[3 * i..3 * i + 3], p)
                    && all_same(&channels[8 * i..8 * i + 8], c)
                    && codes[2 * i..2 * i + 2] == *k
            });
            *n == segments.len() && written && after && codes[2 * n..].iter().all(|k| *k == 77)
        }
        (Err(refused), Err(expected)) => {
            let zeros = positions.iter().chain(&channels).all(|x| x.to_bits() == 0) && codes.iter().all(|c| *c == 0);
            zeros && refused == expected
        }
        _ => false,
    };
    if right {
        Ok(())
    } else {
        Err(format!("{got:?}"))
    }
}

/// The Rust reads what is read, with the same numbers and name, and refuses what is refused with 11 to 14, but for what is
/// listed.
fn beside_rust(input: &Input, want: &Answer) -> Result<Option<&'static str>, String> {
    let (number, line) = match want {
        Err((2, _)) => return Ok(Some("2: a colour not finite")),
        Err((10, _)) => return Ok(Some("10: too long, or bytes that are not allowed")),
        Err((15, _)) => return Ok(Some("15: count above 256 or the room")),
        Err((16, _)) => return Ok(Some("16: curved or sinusoidal, its middle outside")),
        Err((18, _)) => return Ok(Some("18: torn")),
        Err(refused) => *refused,
        Ok(_) => (0, 0),
    };
    let rust = oracle::read(&input.text, input.foreground, input.background);
    match (rust, want) {
        (Ok((_, segments, name)), Ok((wanted, named))) => {
            let same = segments.len() == wanted.len()
                && segments.iter().zip(wanted).all(|((p, c, k), (q, d, l))| {
                    let ends: Vec<f32> = d.chunks(4).flat_map(|end| oracle::kept(l[1], end)).collect();
                    all_same(p, q) && all_same(c, &ends) && k == l
                });
            if !same {
                return Err("other segments in the Rust".to_string());
            }
            match name.as_bytes() == named {
                true => Ok(None),
                false if name.as_bytes() == String::from_utf8_lossy(named).trim().as_bytes() => {
                    Ok(Some("the name: white space of Unicode"))
                }
                false => Err(format!("the name {name:?} in the Rust")),
            }
        }
        (Ok(_), Err((12, _))) => Ok(Some("12: more than 19 significant digits, or no finite number")),
        (Err((_, at)), Err((12, _))) if at != line => {
            Ok(Some("12: more than 19 significant digits, or no finite number"))
        }
        (Err((message, at)), Err(_)) if texts::number_of(message) == number && at == line => Ok(None),
        (Err(error), _) => Err(format!("{error:?} in the Rust")),
        (Ok(_), Err(_)) => Err("read by the Rust".to_string()),
    }
}
