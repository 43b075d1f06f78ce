//! Fixed ramps at the limits of document 01, and the points where each of them turns.

use crate::harness::ramps::{Kind, Ramp, KINDS, MOST_SEGMENTS, MOST_STOPS};

const NAN: f32 = f32::NAN;

fn of_stops(kind: Kind, positions: &[f32]) -> Ramp {
    let channels = (0..4 * positions.len()).map(|i| (i % 5) as f32 / 4.0).collect();
    Ramp { kind, positions: positions.to_vec(), channels, codes: Vec::new() }
}

fn of_segments(ends: &[[f32; 3]]) -> Ramp {
    let channels = (0..8 * ends.len()).map(|i| (i % 7) as f32 / 6.0).collect();
    let codes = (0..ends.len()).flat_map(|i| [[0, 3, 4, 5][i % 4], 0]).collect();
    Ramp { kind: Kind::Gimp, positions: ends.concat(), channels, codes }
}

fn with(ramp: &Ramp, change: impl FnOnce(&mut Ramp)) -> Ramp {
    let mut changed = ramp.clone();
    change(&mut changed);
    changed
}

/// As many items as a ramp may have, and one more.
pub fn full(kind: Kind) -> [Ramp; 2] {
    let part = |i: usize, n: usize| i as f32 / n as f32;
    [0, 1].map(|more| match kind {
        Kind::Gimp => {
            let n = MOST_SEGMENTS + more;
            let ends: Vec<_> =
                (0..n).map(|i| [part(2 * i, 2 * n), part(2 * i + 1, 2 * n), part(2 * i + 2, 2 * n)]).collect();
            of_segments(&ends)
        }
        _ => {
            // an odd number of sharp stops is refused for that alone
            let n = MOST_STOPS + if kind == Kind::Sharp { 2 * more } else { more };
            let positions: Vec<_> = (0..n).map(|i| part(i, n - 1)).collect();
            of_stops(kind, &positions)
        }
    })
}

/// Repeated positions, zeros of both signs, arithmetic that overflows, and faults in pairs, so that their order shows.
pub fn short(kind: Kind) -> Vec<Ramp> {
    if kind == Kind::Gimp {
        return short_segments();
    }
    let plain = of_stops(kind, &[0.0, 0.25, 0.5, 1.0]);
    vec![
        of_stops(kind, &[0.5, 0.5]),
        of_stops(kind, &[0.0, 0.5, 0.5, 0.5, 0.5, 1.0]),
        of_stops(kind, &[-1.0, -0.0, 0.0, -0.0, 0.0, 1.0]),
        of_stops(kind, &[-0.0, 0.0]),
        of_stops(kind, &[f32::MIN, -1.0, 1.0, f32::MAX]),
        with(&plain, |r| {
            r.channels[4..12].copy_from_slice(&[3.0e38, -3.0e38, 3.0e38, 1.0, -3.0e38, 3.0e38, 3.0e38, 1.0])
        }),
        of_stops(kind, &[]),
        of_stops(kind, &[0.5]),
        of_stops(kind, &[0.0, 0.5, 1.0]),
        with(&plain, |r| drop(r.channels.pop())),
        with(&plain, |r| r.codes.push(0)),
        // 1 before 2 and 3
        with(&plain, |r| {
            (r.positions[0], r.positions[2]) = (NAN, 0.0);
            r.channels.truncate(15);
        }),
        // stop by stop: 3 at the second before 2 at the third, and 2 before 3 at one stop
        with(&plain, |r| (r.positions[1], r.channels[8]) = (-1.0, NAN)),
        with(&plain, |r| (r.positions[2], r.channels[4]) = (0.0, f32::INFINITY)),
        with(&plain, |r| (r.positions[1], r.channels[7]) = (-1.0, NAN)),
    ]
}

fn short_segments() -> Vec<Ramp> {
    let plain = of_segments(&[[0.0, 0.25, 0.5], [0.5, 0.75, 1.0]]);
    vec![
        plain.clone(),
        // a gap, two that overlap, one without length, one that falls
        of_segments(&[[0.0, 0.125, 0.25], [0.75, 0.875, 1.0]]),
        of_segments(&[[0.0, 0.5, 0.75], [0.25, 0.5, 1.0], [0.5, 0.5, 0.5], [0.75, 0.5, 0.25]]),
        of_segments(&[[-0.0, 0.0, 0.0], [0.0, 0.5, 1.0]]),
        of_segments(&[[f32::MIN, 0.0, f32::MAX]]),
        of_segments(&[]),
        with(&plain, |r| drop(r.positions.pop())),
        with(&plain, |r| drop(r.codes.pop())),
        with(&plain, |r| r.codes[0] = 1),
        with(&plain, |r| r.codes[1] = 1),
        // 1 before 2
        with(&plain, |r| (r.positions[0], r.codes[2]) = (NAN, 1)),
        // sinusoidal with the middle outside: below the left end, above the right one, reversed, not a number
        with(&plain, |r| (r.positions[1], r.codes[0]) = ((-0.0f32).next_down(), 2)),
        with(&plain, |r| (r.positions[4], r.codes[2]) = (1.0f32.next_up(), 2)),
        with(&plain, |r| (r.positions[3], r.positions[5], r.codes[2]) = (1.0, 0.5, 2)),
        with(&plain, |r| (r.positions[1], r.codes[0]) = (NAN, 2)),
        // inside, and then 2
        with(&plain, |r| (r.positions[5], r.codes[2]) = (f32::INFINITY, 2)),
        with(&plain, |r| r.positions[4] = f32::INFINITY),
        with(&plain, |r| r.channels[15] = NAN),
    ]
}

/// Every position with its two neighbours, and the numbers that are no position.
pub fn turns(ramp: &Ramp) -> Vec<f32> {
    let odd = [0.0, -0.0, NAN, f32::INFINITY, f32::NEG_INFINITY];
    let around = ramp.positions.iter().flat_map(|p| [p.next_down(), *p, p.next_up()]);
    around.chain(odd).collect()
}

/// All of them, full ones too.
pub fn all() -> Vec<Ramp> {
    KINDS.iter().flat_map(|kind| short(*kind).into_iter().chain(full(*kind))).collect()
}
