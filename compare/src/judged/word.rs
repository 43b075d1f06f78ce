//! Lists that keep their word beside the published ones: how many stops each has, how many of them the judge turns down, and
//! how far off they are at the ramp's own positions and on a grid, as a table.

use crate::harness::options::Options;
use crate::harness::oracle::{self, Boxed, Record};
use crate::harness::ours;
use crate::harness::ramps::Ramp;
use crate::judged::judge::{distance, own_list, List, Verdict};
use crate::judged::lists_within::{colours, list_of};
use crate::judged::own_lists::THRESHOLDS;
use crate::judged::sorts;
use crate::judged::within::Asked;
use crate::listed::lists::MOST_POINTS;

pub const HOLD: f32 = 0.001;
const GRID: usize = 2000;

/// Lists of one sort at one threshold, those that are published or those that keep their word.
#[derive(Clone, Copy, Default)]
struct Count {
    lists: u64,
    stops: usize,
    down: u64,
    refused: u64,
    own: f32,
    grid: f32,
}

/// Of every sort of ramp.
pub fn run(options: &Options) -> bool {
    println!("| ramps | threshold | lists | stops | turned down | off at own positions | off on a grid |");
    println!("|---|---|---|---|---|---|---|");
    let mut right = true;
    for (name, ramps) in sorts::all(options) {
        right &= rows(&name, ramps);
    }
    right
}

/// A row for each threshold, 'published / within' in each cell; whether every list within is the one worked out here, and the
/// judge says yes to it.
fn rows(name: &str, ramps: impl Iterator<Item = Ramp>) -> bool {
    let mut counts = [[Count::default(); 2]; THRESHOLDS.len()];
    let mut right = true;
    for ramp in ramps {
        let g = colours(&ramp);
        for (count, threshold) in counts.iter_mut().zip(THRESHOLDS) {
            look(&mut count[0], &ramp, &g, threshold, own_list(&ramp, threshold));
            let list = list_within(&ramp, &g, threshold);
            right &= list.is_ok();
            look(&mut count[1], &ramp, &g, threshold, list.unwrap_or(None));
            right &= count[1].down == 0;
        }
    }
    for ([published, within], threshold) in counts.iter().zip(THRESHOLDS) {
        let mean = |count: &Count| count.stops as f64 / count.lists.max(1) as f64;
        let share = |count: &Count| 100.0 * count.down as f64 / count.lists.max(1) as f64;
        let refused = if within.refused > 0 { format!(", and {} refused", within.refused) } else { String::new() };
        println!(
            "| {name} | {threshold} | {}{refused} | {:.1} / {:.1} | {:.1} % / {} | {:.4} / {:.4} | {:.4} / {:.4} |",
            within.lists,
            mean(published),
            mean(within),
            share(published),
            within.down,
            published.own,
            within.own,
            published.grid,
            within.grid
        );
    }
    right
}

/// The list that `flatten_within` makes, or none where it is refused; an error where it is not the one that the rule gives.
pub fn list_within(ramp: &Ramp, g: &Boxed, threshold: f32) -> Result<Option<List>, ()> {
    let asked = Asked { threshold, hold: HOLD };
    let (mut positions, mut channels) = (vec![0.0; MOST_POINTS], vec![0.0; 4 * MOST_POINTS]);
    let mut record = Record::empty();
    let made = ours::flatten_within(ramp, asked, &mut record, &mut positions, &mut channels);
    let want = list_of(ramp, g, asked, &record);
    let refusal = want.refusal((MOST_POINTS, 4 * MOST_POINTS));
    if made.map(|(stops, _)| stops) != if refusal == 0 { Ok(want.kept.len()) } else { Err(refusal) } {
        println!("DIFFERS {made:?}, refusal {refusal}, threshold {threshold}, of {ramp:?}");
        return Err(());
    }
    let Ok((n, _)) = made else {
        return Ok(None);
    };
    positions.truncate(n);
    channels.truncate(4 * n);
    Ok(Some(List { positions, channels }))
}

fn look(count: &mut Count, ramp: &Ramp, g: &Boxed, threshold: f32, list: Option<List>) {
    let Some(list) = list else {
        count.refused += 1;
        return;
    };
    let (min, max) = ramp.domain();
    let mixed = oracle::mixed(&list.positions, &list.channels);
    let off = |t: f32| distance(oracle::at(g, t), oracle::at(&mixed, t));
    let own = ramp.positions.iter().flat_map(|p| [*p, p.next_down(), p.next_up()]).filter(|t| (min..=max).contains(t));
    let grid = (0..=GRID).map(|i| min + (max - min) * (i as f32 / GRID as f32));
    count.lists += 1;
    count.stops += list.positions.len();
    count.down += (ours::judge(ramp, threshold, &list.positions, &list.channels) != Ok(Verdict::Yes)) as u64;
    count.own = own.map(off).fold(count.own, f32::max);
    count.grid = grid.map(off).fold(count.grid, f32::max);
}
