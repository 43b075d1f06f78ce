//! The tool's lines: with nine digits, to be read again; or as bits.

use super::Piece;
use crate::fault::Answer;
use crate::number;
use crate::ramp::{name_of, with_edges};
use guineaplume::Refusal;
use std::fmt::Write;

pub fn text(piece: &Piece) -> Answer<String> {
    let mut text = format!("kind\t{}\n", name_of(piece.kind));
    let edges = with_edges(&piece.stops);
    for (i, (position, color)) in piece.stops.iter().enumerate() {
        // the f32 just above 0 has 45 digits: such an edge is the position twice
        let position = if is_written(*position) { *position } else { edges[i].0 };
        text.push_str("stop");
        for x in std::iter::once(position).chain(color.to_array().map(seen)) {
            if !is_written(x) {
                return Err(piece.refused(Refusal::Unwritable, &format!("; stop {i}, counted from 0, has {x:e}")));
            }
            let _ = write!(text, "\t{}", number::nine_digits(x));
        }
        text.push('\n');
    }
    Ok(text)
}

/// A channel of so many digits that the tool would not read it, and so small that nobody sees it, is 0.
fn seen(channel: f32) -> f32 {
    if channel.abs() < 1e-6 && !is_written(channel) {
        0.0
    } else {
        channel
    }
}

/// Whether it is read back as it is.
fn is_written(x: f32) -> bool {
    number::read(&number::nine_digits(x)) == Some(x)
}

/// As `flatten` prints it.
pub fn bits(piece: &Piece) -> String {
    let mut text = format!("stops\t{}\tevaluations\t{}\n", piece.stops.len(), piece.evaluations);
    for (position, color) in &piece.stops {
        let [r, g, b, a] = color.to_array().map(f32::to_bits);
        let _ = writeln!(text, "stop\t{:08x}\t{r:08x}\t{g:08x}\t{b:08x}\t{a:08x}", position.to_bits());
    }
    text
}
