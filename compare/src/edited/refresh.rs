//! Refreshed records: redone cells are the Rust's rows for the changed ramp, clear cells keep even rubbish,
//! and the list made of a refreshed record is `linearize`'s of the changed ramp.

use crate::harness::options::Options;
use crate::harness::oracle::{self, Record, CELLS, MARKS, ROW};
use crate::harness::ours::{self, Edit};
use crate::harness::ramps::{Kind, Ramp, KINDS};
use crate::harness::random::Random;
use crate::harness::random_ramps::random_or_spoilt;
use crate::harness::report::Tally;
use crate::listed::lists::{agrees, early, emitted, is_record, random_record, random_threshold, MOST_POINTS, RUBBISH};

/// The kinds that can be refreshed.
pub const REFRESHED: [Kind; 4] = [Kind::Linear, Kind::Smoothstep, Kind::Basis, Kind::CatmullRom];

/// Of each kind; sharp and GIMP ramps are refused.
pub fn run(options: &Options) -> Vec<Tally> {
    KINDS.iter().flat_map(|kind| one_kind(options, *kind)).filter(|tally| tally.count() > 0).collect()
}

fn one_kind(options: &Options, kind: Kind) -> [Tally; 2] {
    let mut rubbish = Tally::new(format!("clear rows kept: {}", kind.name()), options.seed);
    let mut fresh = Tally::new(format!("refreshed is fresh: {}", kind.name()), options.seed);
    let cases = options.cases();
    let of = cases.end;
    for case in cases {
        let mut random = Random::of_case(8 * options.seed + kind.code() as u64, case);
        let ramp = random_or_spoilt(&mut random, kind);
        let edit = random_edit(&mut random, &ramp);
        let threshold = random_threshold(&mut random);
        let mut record = random_record(&mut random, &ramp, threshold);
        if random.one_in(24) {
            record.counts[random.below(CELLS)] = random.pick(&[0, 129, 255]);
        }
        if random.one_in(24) {
            record.marks[random.below(MARKS)] ^= 1 << random.below(32);
        }
        kept(&mut rubbish, case, &ramp, &edit, threshold, record);
        refreshed(&mut fresh, case, &ramp, &edit, threshold);
        rubbish.progress(case, of);
    }
    [rubbish.done(), fresh.done()]
}

pub fn random_edit(random: &mut Random, ramp: &Ramp) -> Edit {
    let n = ramp.positions.len();
    let stop = match random.below(16) {
        0 => n + random.below(2),
        1 => random.next() as usize,
        2..=4 => 0,
        5..=7 => n.saturating_sub(1),
        8 => 1,
        9 => n.saturating_sub(2),
        _ => random.below(n.max(1)),
    };
    let mut colour = [random.unit(), random.unit(), random.unit(), random.unit()];
    match random.below(16) {
        0 => colour[random.below(4)] = random.pick(&[f32::NAN, f32::INFINITY]),
        1 => colour[random.below(4)] = random.finite(),
        2 if stop < n && ramp.channels.len() >= 4 * n => colour.copy_from_slice(&ramp.channels[4 * stop..4 * stop + 4]),
        _ => {}
    }
    Edit { stop, colour }
}

/// Document 01's order, with 20 after 5.
pub fn refusal(ramp: &Ramp, edit: &Edit, counts: &[u8], own_words: bool) -> u32 {
    let number = early(ramp);
    if number != 0 {
        return number;
    }
    if counts.iter().any(|n| *n == 0 || *n as usize > ROW) {
        return 5;
    }
    if !own_words {
        return 20;
    }
    if !REFRESHED.contains(&ramp.kind)
        || edit.stop >= ramp.positions.len()
        || edit.colour.iter().any(|c| !c.is_finite())
    {
        return 6;
    }
    0
}

/// The ramp with the edit made.
pub fn changed(ramp: &Ramp, edit: &Edit) -> Ramp {
    let mut ramp = ramp.clone();
    ramp.channels[4 * edit.stop..4 * edit.stop + 4].copy_from_slice(&edit.colour);
    ramp
}

/// How many pairs a stop touches on each side.
pub fn reach(kind: Kind) -> usize {
    match kind {
        Kind::Basis | Kind::CatmullRom => 2,
        _ => 1,
    }
}

/// Document 01's 'outside the stretch', and that of request (vii).
pub fn outside(positions: &[f32], reach: usize, k: usize, t: f32) -> bool {
    let is_last = k + 1 == positions.len();
    let before = k >= reach && t <= positions[k - reach] && (!is_last || t < positions[k]);
    before || positions.get(k + reach).is_some_and(|right| t > *right)
}

fn is_clear(ramp: &Ramp, cell: usize, out: &dyn Fn(f32) -> bool) -> bool {
    let (left, right) = (oracle::edge(ramp.domain(), cell), oracle::edge(ramp.domain(), cell + 1));
    out(left) && out(right) && middles_clear(out, left, right, 7)
}

fn middles_clear(out: &dyn Fn(f32) -> bool, t0: f32, t1: f32, depth: u32) -> bool {
    if depth == 0 {
        return true;
    }
    let middle = (t0 + t1) / 2.0;
    out(middle) && middles_clear(out, t0, middle, depth - 1) && middles_clear(out, middle, t1, depth - 1)
}

/// A cell that is sampled anew, its row and its evaluations.
pub type Redone = (usize, Vec<f32>, usize);

/// The cells that are not clear, where a point is `out` of the stretch or not, with the rows of the changed ramp.
pub fn redone_by(ramp: &Ramp, after: Ramp, threshold: f32, out: &dyn Fn(f32) -> bool) -> impl Iterator<Item = Redone> {
    let g = oracle::gradient(&after);
    let cells: Vec<usize> = (0..CELLS).filter(|cell| !is_clear(ramp, *cell, out)).collect();
    cells.into_iter().map(move |cell| {
        let (row, count) = oracle::row(&g, after.domain(), cell, threshold);
        (cell, row, count)
    })
}

fn redone(ramp: &Ramp, edit: &Edit, threshold: f32) -> impl Iterator<Item = Redone> {
    redone_by(ramp, changed(ramp, edit), threshold, &|t| outside(&ramp.positions, reach(ramp.kind), edit.stop, t))
}

/// The evaluations of these cells, or the refusal.
pub fn due(number: u32, cells: &[Redone]) -> Result<usize, u32> {
    if number == 0 {
        Ok(cells.iter().map(|cell| cell.2).sum())
    } else {
        Err(number)
    }
}

/// Whether a record of rubbish has these cells anew, and all else as it was.
pub fn is_kept(was: Record, cells: &[Redone], got: &Record) -> bool {
    let mut want = was;
    for (cell, row, _) in cells {
        let whole = &mut want.rows[cell * ROW..(cell + 1) * ROW];
        whole.fill(0.0);
        whole[..row.len()].copy_from_slice(row);
        want.counts[*cell] = row.len() as u8;
    }
    // every byte of a clear row stays, a not-a-number's too
    let bits = |rows: &[f32]| rows.iter().map(|x| x.to_bits()).collect::<Vec<u32>>();
    bits(&got.rows) == bits(&want.rows) && (&got.counts, &got.marks) == (&want.counts, &want.marks)
}

/// A record of rubbish: only the cells that are not clear are written.
pub fn kept(tally: &mut Tally, case: u64, ramp: &Ramp, edit: &Edit, threshold: f32, record: Record) {
    tally.inputs(1);
    let mut got = record.clone();
    let answer = ours::refresh(ramp, edit, threshold, &mut got);
    let own_words = early(ramp) != 0 || record.marks == oracle::marks(ramp.domain(), threshold);
    let number = refusal(ramp, edit, &record.counts, own_words);
    tally.answered((number == 0) as u64);
    let cells: Vec<Redone> = if number == 0 { redone(ramp, edit, threshold).collect() } else { Vec::new() };
    let due = due(number, &cells);
    if answer != due || !is_kept(record, &cells, &got) {
        tally.differs(case, || format!("{answer:?}, not {due:?}, stop {} of {ramp:?}", edit.stop));
    }
}

/// Sampled, refreshed and thinned, against the changed ramp sampled here and flattened by the Rust; and the two last steps
/// in one call. The answers, where something is wrong.
pub fn stale(
    tally: &mut Tally,
    (ramp, after): (&Ramp, &Ramp),
    threshold: f32,
    refresh: impl Fn(&mut Record) -> Result<usize, u32>,
    refresh_list: impl Fn(&mut Record, &mut [f32], &mut [f32]) -> ours::Listed,
) -> Option<String> {
    tally.inputs(1);
    let g = oracle::gradient(after);
    let (want, _) = oracle::record(&g, after.domain(), threshold);
    let mut list = oracle::thinned(&g, after.domain().1, threshold, &want);
    tally.answered((emitted(&list, (MOST_POINTS, 4 * MOST_POINTS)).0 == 0) as u64);
    let (mut record, mut fresh) = (Record::empty(), Record::empty());
    let sampled = ours::sample(ramp, threshold, &mut record).and(ours::sample(after, threshold, &mut fresh));
    let mut again = record.clone();
    let done = refresh(&mut record);
    let room = (MOST_POINTS, 4 * MOST_POINTS);
    let mut out = (vec![RUBBISH; room.0], vec![RUBBISH; room.1]);
    let got = ours::thin(after, threshold, &record, &mut out.0, &mut out.1);
    let two_steps = sampled.is_ok()
        && is_record(&record, &fresh)
        && is_record(&record, &want)
        && agrees(got, &list, room, (&out.0, &out.1));
    let mut out = (vec![RUBBISH; room.0], vec![RUBBISH; room.1]);
    let both = refresh_list(&mut again, &mut out.0, &mut out.1);
    list.evaluations += done.unwrap_or_default();
    let one_call = is_record(&again, &want) && agrees(both, &list, room, (&out.0, &out.1));
    let right = two_steps && one_call && done.is_ok();
    (!right).then(|| format!("{done:?}, {got:?}, {both:?}"))
}

pub fn refreshed(tally: &mut Tally, case: u64, ramp: &Ramp, edit: &Edit, threshold: f32) {
    if refusal(ramp, edit, &[], true) != 0 {
        return;
    }
    let refresh = |record: &mut Record| ours::refresh(ramp, edit, threshold, record);
    let refresh_list = |record: &mut Record, places: &mut [f32], colours: &mut [f32]| {
        ours::refresh_list(ramp, edit, threshold, record, places, colours)
    };
    if let Some(answers) = stale(tally, (ramp, &changed(ramp, edit)), threshold, refresh, refresh_list) {
        tally.differs(case, || format!("{answers}, stop {} of {ramp:?}", edit.stop));
    }
}
