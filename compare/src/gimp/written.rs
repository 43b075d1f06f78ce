//! Lists written as GIMP texts: every text beside one put together here, and read again by the Rust and by the library.

use crate::gimp::numerals::{text_of, ALL, LEAST};
use crate::harness::options::Options;
use crate::harness::oracle::{self, Record, CELLS, MARKS, ROW};
use crate::harness::ours;
use crate::harness::ramps::{Kind, Ramp};
use crate::harness::random::Random;
use crate::harness::report::Tally;
use crate::listed::lists::MOST_POINTS;

/// What is to be written of a list, or the number of the refusal.
fn file_of(positions: &[f32], channels: &[f32]) -> Result<String, u32> {
    let n = positions.len();
    if !(2..=257).contains(&n) || channels.len() != 4 * n {
        return Err(1);
    }
    if positions.windows(2).any(|p| p[1] < p[0]) {
        return Err(3);
    }
    let mut text = format!("GIMP Gradient\nName: flattened\n{}\n", n - 1);
    let mut whole = positions[0] == 0.0 && positions[n - 1] == 1.0;
    for i in 0..n - 1 {
        let (left, right) = (positions[i], positions[i + 1]);
        let numbers = [&[left, (left + right) / 2.0, right], &channels[4 * i..4 * i + 8]].concat();
        for x in numbers {
            let token = text_of(x);
            whole &= !token.is_empty();
            text += &token;
            text.push(' ');
        }
        text += "0 0\n";
    }
    if whole {
        Ok(text)
    } else {
        Err(19)
    }
}

/// Random lists, and lists of the library's own: the bytes, what is left in the output, and the text read again.
pub fn lists(options: &Options) -> Vec<Tally> {
    let mut random_lists = Tally::new("lists written: random", options.seed);
    let kinds = [Kind::Linear, Kind::Smoothstep, Kind::Basis, Kind::CatmullRom];
    let mut own = kinds.map(|kind| Tally::new(format!("lists written: {kind:?}"), options.seed));
    for case in options.cases() {
        let mut random = Random::of_case(options.seed, case);
        let (positions, channels) = any_list(&mut random);
        written(&mut random_lists, case, &positions, &channels, &mut random);
        for (kind, tally) in kinds.into_iter().zip(&mut own) {
            if let Some((positions, channels)) = flattened(&mut random, kind) {
                written(tally, case, &positions, &channels, &mut random);
            }
        }
        random_lists.progress(case, options.size);
    }
    [random_lists].into_iter().chain(own).map(Tally::done).collect()
}

fn any_number(random: &mut Random) -> f32 {
    match random.below(40) {
        0 => 0.0,
        1 => -0.0,
        2 => f32::from_bits(random.bits()),
        3 => random.pick(&[1e-6, 1e6, 1.001953125, 0.5, 1.0, f32::NAN, f32::INFINITY, 2.98e-8, 9.99e-7]),
        _ => {
            let x = f32::from_bits(LEAST + (random.bits() as u64 * ALL >> 32) as u32);
            if random.one_in(2) {
                -x
            } else {
                x
            }
        }
    }
}

fn any_list(random: &mut Random) -> (Vec<f32>, Vec<f32>) {
    let n = if random.one_in(6) { random.from_to(250, 260) } else { random.below(12) };
    let mut positions: Vec<f32> =
        (0..n).map(|_| random.from_to(0, 4096) as f32 / 4096.0 * random.pick(&[1.0, 1.0, 0.3, 1e-3])).collect();
    positions.sort_by(f32::total_cmp);
    if n > 0 && !random.one_in(8) {
        positions[0] = random.pick(&[0.0, 0.0, -0.0]);
        positions[n - 1] = 1.0;
    }
    if n > 0 && random.one_in(8) {
        let at = random.below(n);
        positions[at] = any_number(random);
    }
    let calm = random.one_in(2);
    let count = if random.one_in(20) { 4 * n + 1 } else { 4 * n };
    let channels =
        (0..count).map(|_| if calm { random.from_to(1, 255) as f32 / 255.0 } else { any_number(random) }).collect();
    (positions, channels)
}

/// The list of a random ramp on 0..1, channels 0 to 1.
fn flattened(random: &mut Random, kind: Kind) -> Option<(Vec<f32>, Vec<f32>)> {
    let n = random.from_to(2, 12);
    let mut positions: Vec<f32> = (0..n).map(|_| random.from_to(1, 999) as f32 / 1000.0).collect();
    positions.sort_by(f32::total_cmp);
    (positions[0], positions[n - 1]) = (0.0, 1.0);
    let channels = (0..4 * n).map(|_| random.from_to(0, 255) as f32 / 255.0).collect();
    let ramp = Ramp { kind, positions, channels, codes: vec![] };
    let mut record = Record { rows: vec![0.0; CELLS * ROW], counts: vec![1; CELLS], marks: vec![0; MARKS] };
    let (mut places, mut colours) = (vec![0.0; MOST_POINTS], vec![0.0; 4 * MOST_POINTS]);
    let (stops, _) = ours::flatten(&ramp, 0.007, &mut record, &mut places, &mut colours).ok()?;
    Some((places[..stops].to_vec(), colours[..4 * stops].to_vec()))
}

fn written(tally: &mut Tally, case: u64, positions: &[f32], channels: &[f32], random: &mut Random) {
    tally.inputs(1);
    let wanted = file_of(positions, channels);
    let long = wanted.as_ref().map_or(300, String::len);
    let room = if random.one_in(4) { long.saturating_sub(1 + random.below(3)) } else { long + random.below(4) };
    let wanted = wanted.and_then(|text| if text.len() <= room { Ok(text) } else { Err(7) });
    let mut text = vec![7u8; room];
    let answer = ours::write_ggr(positions, channels, &mut text);
    let right = match (&answer, &wanted) {
        (Ok(bytes), Ok(whole)) => &text[..*bytes] == whole.as_bytes() && text[*bytes..].iter().all(|b| *b == 7),
        (Err(a), Err(b)) => a == b && text.iter().all(|x| *x == if matches!(a, 7 | 19) { 0 } else { 7 }),
        _ => false,
    };
    if !right {
        tally.differs(case, || format!("{answer:?} of {} stops, not {wanted:?}", positions.len()));
        return;
    }
    match answer {
        Err(1) => tally.listed("1"),
        Err(3) => tally.listed("3"),
        Err(7) => tally.listed("7"),
        Err(_) => tally.listed("19"),
        Ok(bytes) => {
            tally.answered(1);
            if !reads_back(&text[..bytes], positions, channels) {
                tally.differs(case, || format!("{} stops do not read back", positions.len()));
            }
        }
    }
}

/// By the library and by the Rust: each position and channel bit for bit.
fn reads_back(text: &[u8], positions: &[f32], channels: &[f32]) -> bool {
    let n = positions.len() - 1;
    let (mut p, mut c, mut k) = (vec![0.0; 3 * n], vec![0.0; 8 * n], vec![9; 2 * n]);
    let colours = ([0.25; 4], [0.75; 4]);
    let ours = ours::read(text, colours, &mut p, &mut c, &mut k) == Ok(n) && ours::name(text) == b"flattened";
    let bits = |a: f32, b: f32| a.to_bits() == b.to_bits();
    let same_here = (0..n).all(|i| {
        bits(p[3 * i], positions[i])
            && bits(p[3 * i + 1], (positions[i] + positions[i + 1]) / 2.0)
            && bits(p[3 * i + 2], positions[i + 1])
            && (0..8).all(|j| bits(c[8 * i + j], channels[4 * i + j]))
    });
    let Ok((_, segments, name)) = oracle::read(text, colours.0, colours.1) else { return false };
    let rust = name == "flattened"
        && segments.len() == n
        && segments
            .iter()
            .enumerate()
            .all(|(i, (q, d, _))| (0..3).all(|j| bits(q[j], p[3 * i + j])) && (0..8).all(|j| bits(d[j], c[8 * i + j])));
    ours && same_here && k.iter().all(|code| *code == 0) && rust
}

/// N written lists as files in a folder, each with its samples beside it, for compare/trade/gimp.py.
pub fn files(options: &Options, folder: &std::path::Path) -> std::io::Result<()> {
    std::fs::create_dir_all(folder)?;
    let mut case = 0;
    let mut made = 0;
    while made < options.size {
        let mut random = Random::of_case(options.seed, case);
        case += 1;
        let kind = random.pick(&[Kind::Linear, Kind::Smoothstep, Kind::Basis, Kind::CatmullRom]);
        let Some((positions, channels)) = flattened(&mut random, kind) else { continue };
        let mut text = vec![0; 34 + 213 * 256];
        let Ok(bytes) = ours::write_ggr(&positions, &channels, &mut text) else { continue };
        std::fs::write(folder.join(format!("{made:04}.ggr")), &text[..bytes])?;
        made += 1;
    }
    println!("{made} files of {case} ramps");
    Ok(())
}
