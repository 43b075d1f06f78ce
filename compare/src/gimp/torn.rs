//! Torn GIMP texts: each fault of a line, alone and beside every other fault in the same line and in another, so that the
//! order of the refusals shows; and gaps and overlaps of one unit in the last place at every joint.

use crate::gimp::texts::{read, Input};
use crate::harness::options::Options;
use crate::harness::random::Random;
use crate::harness::report::Tally;

const SEGMENTS: usize = 4;

/// The numbers of a line, its text made late so that one unit in the last place is not lost.
#[derive(Clone)]
struct Line {
    positions: [f32; 3],
    colour: &'static str,
    codes: &'static str,
}

#[derive(Clone)]
struct Text {
    header: &'static str,
    count: String,
    lines: Vec<Line>,
}

type Fault = fn(&mut Text, usize);

/// What can be wrong with line i of the segments, or with the whole.
const FAULTS: [Fault; 16] = [
    |text, i| text.lines[i].positions[0] = text.lines[i].positions[0].next_up(),
    |text, i| text.lines[i].positions[0] = text.lines[i].positions[0].next_down(),
    |text, i| text.lines[i].positions[2] = text.lines[i].positions[2].next_up(),
    |text, i| text.lines[i].positions[2] = text.lines[i].positions[2].next_down(),
    |text, i| text.lines[i].positions[1] = text.lines[i].positions[0].next_down(),
    |text, i| text.lines[i].positions[1] = text.lines[i].positions[2].next_up(),
    |text, i| text.lines[i].positions.reverse(),
    |text, i| text.lines[i].colour = "x",
    |text, i| text.lines[i].codes = "1 0",
    |text, i| text.lines[i].codes = "0 1",
    |text, i| text.lines[i].codes = "2 0",
    |text, i| text.lines.truncate(i),
    |text, _| text.header = "GIMP gradient",
    |text, i| text.count = i.to_string(),
    |text, _| text.count = "257".to_string(),
    |text, i| text.count = (SEGMENTS + i).to_string(),
];

pub fn run(options: &Options) -> Vec<Tally> {
    let mut tally = Tally::new("torn", options.seed);
    for first in FAULTS {
        for second in FAULTS {
            for i in 0..SEGMENTS {
                for j in 0..SEGMENTS {
                    let mut text = sound();
                    first(&mut text, i);
                    if j < text.lines.len() {
                        second(&mut text, j);
                    }
                    ask(&mut tally, 0, &text);
                }
            }
        }
    }
    zeros(&mut tally);
    let cases = options.cases();
    let of = cases.end;
    for case in cases {
        let mut random = Random::of_case(options.seed, case);
        ask(&mut tally, case, &random_text(&mut random));
        tally.progress(case, of);
    }
    vec![tally.done()]
}

fn sound() -> Text {
    let place = |i: usize| i as f32 / (2 * SEGMENTS) as f32;
    let line =
        |i: usize| Line { positions: [place(2 * i), place(2 * i + 1), place(2 * i + 2)], colour: "0", codes: "0 0" };
    Text { header: "GIMP Gradient", count: SEGMENTS.to_string(), lines: (0..SEGMENTS).map(line).collect() }
}

/// Both zeros at the start, at a joint and as a whole segment: values are compared.
fn zeros(tally: &mut Tally) {
    for signs in 0..32 {
        let zero = |bit: u32| if signs >> bit & 1 == 1 { -0.0 } else { 0.0 };
        let mut text = sound();
        text.lines[0].positions = [zero(0), zero(1), zero(2)];
        text.lines[1].positions = [zero(3), zero(4), text.lines[1].positions[2]];
        ask(tally, 0, &text);
    }
}

/// Segments between random places, now and then with none of length, and some joints moved by a few units.
fn random_text(random: &mut Random) -> Text {
    let n = random.from_to(1, 6);
    let mut ends: Vec<f32> = (1..n).map(|_| random.unit()).collect();
    ends.extend([0.0, 1.0]);
    ends.sort_by(f32::total_cmp);
    let mut lines: Vec<Line> = ends
        .windows(2)
        .map(|e| {
            let middle = e[0] + (e[1] - e[0]) * random.pick(&[0.0, 0.25, 0.5, 1.0]);
            Line { positions: [e[0], middle.clamp(e[0], e[1]), e[1]], colour: "0.5", codes: "0 0" }
        })
        .collect();
    if random.one_in(2) {
        let line = random.below(n);
        let at = random.below(3);
        let x = lines[line].positions[at];
        lines[line].positions[at] = match random.below(4) {
            0 => x.next_up(),
            1 => x.next_down(),
            2 => x + 0.001 * random.unit(),
            _ => random.unit(),
        };
    }
    Text { header: "GIMP Gradient", count: n.to_string(), lines }
}

fn ask(tally: &mut Tally, case: u64, text: &Text) {
    let mut written = format!("{}\nName: x\n{}\n", text.header, text.count);
    for Line { positions, colour, codes } in &text.lines {
        // enough places for every f32 that stands here, and fewer digits than 18
        let numbers = positions.map(|x| decimal(x)).join(" ");
        written += &format!("{numbers} 0 0 {colour} 1 1 1 1 1 {codes}\n");
    }
    read(tally, case, &Input { text: written.into_bytes(), foreground: [0.0; 4], background: [1.0; 4], room: 256 });
}

/// The shortest decimal that is read as x; what lies below 10^-16 is written as far as a token reaches.
fn decimal(x: f32) -> String {
    let shortest = format!("{x}");
    if shortest.len() <= 18 {
        return shortest;
    }
    format!("{x:.16}")
}
