//! Records that remember what they were sampled with: 20, after 5 and before 6, exactly where a word differs.

use crate::edited::refresh::{changed, random_edit, refusal};
use crate::harness::options::Options;
use crate::harness::oracle::{self, Record, CELLS, MARKS};
use crate::harness::ours::{self, Edit};
use crate::harness::ramps::{Kind, Ramp, KINDS};
use crate::harness::random::Random;
use crate::harness::random_ramps::random_or_spoilt;
use crate::harness::report::Tally;
use crate::listed::lists::{early, MOST_POINTS, RUBBISH};

pub fn run(options: &Options) -> Vec<Tally> {
    let mut tally = Tally::new("marks: 20", options.seed);
    let cases = options.cases();
    let of = cases.end;
    for case in cases {
        let mut random = Random::of_case(options.seed, case);
        let kind = if random.one_in(6) { random.pick(&KINDS) } else { random.pick(&[Kind::Linear, Kind::Smoothstep]) };
        let ramp = random_or_spoilt(&mut random, kind);
        let (asked, mine) = thresholds(&mut random);
        let mut record = Record { rows: vec![0.25; 36 * 128], counts: vec![1; CELLS], marks: vec![9; MARKS] };
        let before = record.clone();
        let sampled = ours::sample(&ramp, asked, &mut record);
        if !is_sampled(&ramp, asked, sampled, &before, &record) {
            tally.differs(case, || format!("sampled {sampled:?} at {asked:?}, words {:x?}, of {ramp:?}", record.marks));
        }
        let other = other_ends(&mut random, &ramp);
        spoil(&mut random, &mut record);
        let edit = random_edit(&mut random, &other);
        asked_again(&mut tally, case, &other, &edit, mine, &record);
        tally.progress(case, of);
    }
    vec![tally.done()]
}

/// One to sample with, and one to thin and refresh with: the same, a unit apart, the same in force alone, or any others.
fn thresholds(random: &mut Random) -> (f32, f32) {
    const HIGH: [f32; 6] = [0.035, 5.0, f32::MAX, 0.036, 0.035000004, 1.0];
    const LOW: [f32; 7] = [0.001, 0.0, -0.0, -1.0, f32::MIN, 0.00099, 1.0e-40];
    const NONE: [f32; 5] = [0.007, f32::NAN, f32::INFINITY, f32::NEG_INFINITY, -f32::NAN];
    let x = 0.001 + 0.034 * random.unit();
    match random.below(8) {
        0 => (x, x),
        1 => (x, x.next_up()),
        2 => (x.next_down(), x),
        3 => (random.pick(&HIGH), random.pick(&HIGH)),
        4 => (random.pick(&LOW), random.pick(&LOW)),
        5 => (random.pick(&NONE), random.pick(&NONE)),
        6 => (
            random.pick(&[0.035, 0.001, 0.007]),
            random.pick(&[0.035f32.next_down(), 0.001f32.next_up(), 0.007f32.next_up()]),
        ),
        _ => (random.pick(&NONE), random.pick(&HIGH)),
    }
}

/// The words that document 02 asks for, or all as it was.
fn is_sampled(ramp: &Ramp, asked: f32, sampled: Result<usize, u32>, before: &Record, record: &Record) -> bool {
    match early(ramp) {
        0 => sampled.is_ok() && record.marks == oracle::marks(ramp.domain(), asked),
        number => sampled == Err(number) && record == before,
    }
}

/// The same ramp, or one with an end of the other sign of zero, a unit away, or elsewhere.
fn other_ends(random: &mut Random, ramp: &Ramp) -> Ramp {
    let mut other = ramp.clone();
    if ramp.kind.is_gimp() || ramp.positions.is_empty() {
        return other;
    }
    let last = other.positions.len() - 1;
    match random.below(8) {
        0 if other.positions[0] == 0.0 => other.positions[0] = -other.positions[0],
        1 if other.positions[last] == 0.0 => other.positions[last] = -other.positions[last],
        2 => other.positions[0] = other.positions[0].next_down(),
        3 => other.positions[last] = other.positions[last].next_up(),
        4 => {
            // both ends zero: the record knows which
            let signs = [0.0, -0.0];
            other.positions.fill(random.pick(&signs));
            other.positions[0] = random.pick(&signs);
            other.positions[last] = random.pick(&signs);
        }
        _ => {}
    }
    other
}

/// Nothing wrong, one word, a count, or a word too few or too many.
fn spoil(random: &mut Random, record: &mut Record) {
    if random.one_in(3) {
        record.marks[random.below(MARKS)] ^= 1 << random.below(32);
    }
    if random.one_in(8) {
        record.counts[random.below(CELLS)] = random.pick(&[0, 129]);
    }
    match random.below(24) {
        0 => drop(record.marks.pop()),
        1 => record.marks.push(0),
        _ => {}
    }
}

/// A thinning and both refreshes: each refused in the order 1 to 5, 20, 6, with nothing changed, or not refused with these.
fn asked_again(tally: &mut Tally, case: u64, ramp: &Ramp, edit: &Edit, mine: f32, record: &Record) {
    tally.inputs(1);
    let counts: &[u8] = if record.marks.len() == MARKS { &record.counts } else { &[0] };
    let own_words = early(ramp) != 0 || record.marks == oracle::marks(ramp.domain(), mine);
    let number = refusal(ramp, edit, counts, own_words);
    let thinning = if number == 6 { 0 } else { number };
    tally.answered((number == 0) as u64);
    let (mut got, mut listed) = (record.clone(), record.clone());
    let mut out = (vec![RUBBISH; MOST_POINTS], vec![RUBBISH; 4 * MOST_POINTS]);
    let thinned = ours::thin(ramp, mine, record, &mut out.0, &mut out.1);
    let thin_right = is(thinned.err(), thinning) && (thinning == 0 || is_rubbish(&out));
    let mut out = (vec![RUBBISH; MOST_POINTS], vec![RUBBISH; 4 * MOST_POINTS]);
    let refreshed = ours::refresh(ramp, edit, mine, &mut got);
    let list = ours::refresh_list(ramp, edit, mine, &mut listed, &mut out.0, &mut out.1);
    let kept = got.marks == record.marks && listed.marks == record.marks;
    let unchanged = number == 0 || (&got == record && &listed == record && is_rubbish(&out));
    let fresh = number != 0 || is_fresh(ramp, edit, mine, &got);
    let right = refreshed.err().unwrap_or(0) == number && is(list.err(), number);
    if !thin_right || !right || !kept || !unchanged || !fresh {
        let words = &record.marks;
        tally.differs(case, || {
            format!(
                "{thinned:?}, {refreshed:?}, {list:?}, not {number}, words {words:x?}, threshold {mine:?}, {ramp:?}"
            )
        });
    }
}

/// The refusal before a list; 7 to 9 are the list's own.
fn is(got: Option<u32>, number: u32) -> bool {
    match got {
        Some(7..=9) | None => number == 0,
        Some(refused) => refused == number,
    }
}

fn is_rubbish(out: &(Vec<f32>, Vec<f32>)) -> bool {
    out.0.iter().chain(&out.1).all(|x| *x == RUBBISH)
}

/// A record that was not refused has the words of a sampling of the changed ramp.
fn is_fresh(ramp: &Ramp, edit: &Edit, mine: f32, got: &Record) -> bool {
    let mut fresh = Record::empty();
    ours::sample(&changed(ramp, edit), mine, &mut fresh).is_ok() && fresh.marks == got.marks
}
