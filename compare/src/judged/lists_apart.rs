//! Which depths became one: ours against the rule as it is worked out in `apart`, over the Rust's own colours.

use crate::harness::options::Options;
use crate::harness::oracle::{self, Boxed};
use crate::harness::ours;
use crate::harness::ramps::Ramp;
use crate::harness::random::Random;
use crate::harness::report::Tally;
use crate::judged::apart::{counted, Asked};
use crate::judged::judge::{another, distance, own_list, List};
use crate::judged::lists_within::{any_ramp, colours};
use crate::listed::lists::{early, random_threshold};
use std::collections::BTreeMap;

/// What stands in the bytes before the call.
const RUBBISH: u8 = 77;
/// More depths than a ramp may have stops.
const MANY: usize = 5000;

/// How often each answer is right, 0 where there is none; and how often each byte is.
#[derive(Default)]
struct Told {
    answers: BTreeMap<u32, u64>,
    bytes: BTreeMap<u8, u64>,
}

pub fn run(options: &Options) -> Vec<Tally> {
    let mut tally = Tally::new("apart", options.seed);
    let mut told = Told::default();
    let cases = options.cases();
    let of = cases.end;
    for case in cases {
        let mut random = Random::of_case(options.seed, case);
        let ramp = any_ramp(&mut random, case);
        let threshold = random_threshold(&mut random);
        let made = if random.one_in(4) { None } else { own_list(&ramp, threshold) };
        let list = if random.one_in(3) { Some(another(&mut random, &ramp, made)) } else { made };
        let list = list.unwrap_or_else(|| ends(&mut random, &ramp));
        let depths = random_depths(&mut random, &ramp);
        let asked = Asked { threshold, step: random_step(&mut random), depths };
        compare(&mut tally, &mut told, case, &mut random, &ramp, &list, asked);
        tally.progress(case, of);
    }
    println!("answers (0) and refusals: {:?}", told.answers);
    println!("bytes: {:?}", told.bytes);
    vec![tally.done()]
}

/// Two or three stops from end to end, of the ramp's first colours.
fn ends(random: &mut Random, ramp: &Ramp) -> List {
    let (min, max) = if early(ramp) == 0 { ramp.domain() } else { (0.0, 1.0) };
    let positions = if random.one_in(2) { vec![min, max] } else { vec![min, min / 2.0 + max / 2.0, max] };
    let channels = ramp.channels.iter().copied().chain([0.5; 12]).take(4 * positions.len()).collect();
    List { positions, channels }
}

/// Rising depths of the domain, and now and then one thing wrong with them.
fn random_depths(random: &mut Random, ramp: &Ramp) -> Vec<f32> {
    let (min, max) = if early(ramp) == 0 { ramp.domain() } else { (0.0, 1.0) };
    let mut depths: Vec<f32> = match random.below(8) {
        0..=2 => ramp.positions.clone(),
        3 => ramp.positions.iter().flat_map(|p| [p.next_down(), *p, p.next_up()]).collect(),
        4 => vec![random.pick(&[min, max, min / 2.0 + max / 2.0]); random.from_to(1, 3)],
        5 if random.one_in(8) => (0..MANY).map(|_| anywhere(random, min, max)).collect(),
        _ => (0..random.from_to(1, 40)).map(|_| anywhere(random, min, max)).collect(),
    };
    depths.retain(|d| *d >= min && *d <= max);
    depths.sort_by(f32::total_cmp);
    if random.one_in(8) {
        spoil(random, &mut depths, min, max);
    }
    depths
}

fn anywhere(random: &mut Random, min: f32, max: f32) -> f32 {
    let x = random.unit();
    (min * (1.0 - x) + max * x).clamp(min, max)
}

/// One fault: none, not finite, one unit outside, falling; or a zero of the other sign, which is none.
fn spoil(random: &mut Random, depths: &mut Vec<f32>, min: f32, max: f32) {
    let n = depths.len();
    if n == 0 || random.one_in(8) {
        depths.clear();
        return;
    }
    let i = random.below(n);
    match random.below(6) {
        0 => depths[i] = random.pick(&[f32::NAN, f32::INFINITY, f32::NEG_INFINITY]),
        1 => depths[0] = min.next_down(),
        2 => depths[n - 1] = max.next_up(),
        3 => depths[i] = depths[i].next_down(),
        4 => depths.reverse(),
        _ => depths.iter_mut().filter(|d| **d == 0.0).for_each(|d| *d = -*d),
    }
}

fn random_step(random: &mut Random) -> f32 {
    match random.below(10) {
        0 => random.pick(&[f32::NAN, f32::INFINITY, f32::NEG_INFINITY, -1.0, -1.0e-45, -0.02]),
        1 => random.pick(&[0.0, -0.0, 1.0e-45, 1.0, f32::MAX]),
        2..=4 => 0.02,
        5 => 0.2 * random.unit(),
        _ => random.pick(&[0.001, 0.01, 0.05]),
    }
}

fn compare(
    tally: &mut Tally,
    told: &mut Told,
    case: u64,
    random: &mut Random,
    ramp: &Ramp,
    list: &List,
    mut asked: Asked,
) {
    tally.inputs(1);
    let mut number = early(ramp);
    let mut want = None;
    let mut room = asked.depths.len() + random.pick(&[0, 0, 1, 3]);
    if random.one_in(12) {
        room = random.below(asked.depths.len() + 1);
    }
    if number == 0 {
        number = asked.refusal(ramp.domain(), list, room);
    }
    if number == 0 {
        let (g, mixed) = (colours(ramp), oracle::mixed(&list.positions, &list.channels));
        narrow(random, &mut asked, &g, &mixed);
        want = Some(asked.faults(&|t| oracle::at(&g, t), &|t| oracle::at(&mixed, t)));
    }
    let mut faults = vec![RUBBISH; room];
    let (refusal, counts) = ours::apart(ramp, &asked, &list.positions, &list.channels, &mut faults);
    let right = match &want {
        Some(want) => {
            let past = faults[want.len()..].iter().all(|byte| *byte == RUBBISH);
            past && faults[..want.len()] == want[..] && counts == counted(want)
        }
        None => faults.iter().all(|byte| *byte == if number == 7 { 0 } else { RUBBISH }) && counts == [0; 4],
    };
    *told.answers.entry(number).or_default() += 1;
    for byte in want.iter().flatten() {
        *told.bytes.entry(*byte).or_default() += 1;
    }
    tally.answered(want.is_some() as u64);
    if refusal != number || !right {
        tally
            .differs(case, || format!("{refusal} {counts:?}, not {number} {want:?}, {asked:?}, {list:?}, of {ramp:?}"));
    }
}

/// Now and then the step or the threshold is a difference that is met, or the f32 beside it.
fn narrow(random: &mut Random, asked: &mut Asked, g: &Boxed, mixed: &Boxed) {
    let i = random.below(asked.depths.len());
    let (t, before) = (asked.depths[i], asked.depths[i.saturating_sub(1)]);
    let beside = |random: &mut Random, d: f32| random.pick(&[d, d.next_down(), d.next_up()]);
    let (step, threshold) = match random.below(8) {
        0 => (distance(oracle::at(g, before), oracle::at(g, t)), asked.threshold),
        1 => (distance(oracle::at(mixed, before), oracle::at(mixed, t)), asked.threshold),
        2 => (asked.step, distance(oracle::at(g, t), oracle::at(mixed, t))),
        _ => return,
    };
    let (step, threshold) = (beside(random, step), beside(random, threshold));
    if step.is_finite() && step >= 0.0 {
        asked.step = step;
    }
    asked.threshold = threshold;
}
