//! What is said of a list, in words.

use crate::apart::{Apart, Depth};
use crate::number::{about, short};
use crate::ramp::plural;
use crate::sheet::Way;
use guineaplume::Verdict;

/// So many depths are named one by one; of more, the first ones.
const NAMED: usize = 6;

/// The line after a flattening: stops in and out, the farthest depth, what `apart` and the judge say.
pub fn line(count: &str, out: usize, apart: &Apart, verdict: Verdict) -> String {
    let judged = if verdict.is_yes() { "yes" } else { "no" };
    let merged = merged(apart).map_or(String::new(), |words| format!("; {words}"));
    format!("{count} in, {out} out; {}{merged}. Judged: {judged}.", off(apart))
}

fn off(apart: &Apart) -> String {
    let threshold = short(apart.threshold);
    let far: Vec<&Depth> = apart.moved().collect();
    if far.is_empty() {
        return match apart.farthest() {
            Some(depth) if depth.distance > 0.0 => {
                let (position, distance) = (short(depth.position), about(depth.distance));
                format!(
                    "none of your stops is farther off than {threshold}; the farthest, {position}, is {distance} off"
                )
            }
            _ => "each of your stops is shown in its own colour".into(),
        };
    }
    let named: Vec<String> = far.iter().take(NAMED).map(|depth| far_off(depth)).collect();
    let more = match (far.len().saturating_sub(NAMED), apart.farthest()) {
        (0, _) | (_, None) => String::new(),
        (more, Some(farthest)) => format!(" and {more} more, the farthest {}", far_off(farthest)),
    };
    let verb = if far.len() == 1 { "is" } else { "are" };
    format!("{} of your stops {verb} farther off than {threshold}: {}{more}", far.len(), named.join(", "))
}

/// A position, and how far off the list is there.
fn far_off(depth: &Depth) -> String {
    format!("{} ({})", short(depth.position), about(depth.distance))
}

/// The pairs that became one, where there are any.
pub fn merged(apart: &Apart) -> Option<String> {
    let pairs: Vec<String> = apart
        .merged()
        .map(|(before, depth)| format!("{} and {}", short(before.position), short(depth.position)))
        .collect();
    let more = match pairs.len().saturating_sub(NAMED) {
        0 => String::new(),
        more => format!(" and {more} more"),
    };
    let named = pairs.iter().take(NAMED).cloned().collect::<Vec<_>>().join(", ");
    let words = if pairs.len() == 1 { "pair of depths became" } else { "pairs of depths became" };
    (!pairs.is_empty()).then(|| format!("{} {words} one: {named}{more}", pairs.len()))
}

/// Depth by depth.
pub fn depths(apart: &Apart) -> String {
    let mut text = String::new();
    for (i, depth) in apart.depths.iter().enumerate() {
        let mut said = vec![format!("{} off", about(depth.distance))];
        if depth.is_moved {
            said.push(format!("moved: more than {}", short(apart.threshold)));
        }
        if depth.is_close {
            said.push("close: the ramp itself does not tell it from the depth before".into());
        }
        if depth.is_merged {
            said.push("MERGED: the ramp tells it from the depth before, and the list does not".into());
        }
        text += &format!("{i}\t{}\t{}\n", short(depth.position), said.join("; "));
    }
    text
}

/// How many of each.
pub fn counted(apart: &Apart) -> String {
    let close = apart.depths.iter().filter(|depth| depth.is_close).count();
    format!(
        "{}: {} moved by more than {}, {close} close, {} merged, at a step of {}",
        plural(apart.depths.len(), "depth"),
        apart.moved().count(),
        short(apart.threshold),
        apart.merged().count(),
        short(apart.step)
    )
}

/// The sort of list.
pub fn sort(way: Way, threshold: f32) -> String {
    match way {
        Way::Published => format!("published list, threshold {}", short(threshold)),
        Way::Within(hold) => format!("list within {}, threshold {}", short(hold), short(threshold)),
    }
}
