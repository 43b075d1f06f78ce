//! GIMP gradients, by the library's proved writer.

use super::Piece;
use crate::fault::Answer;
use guineaplume::slices::{self, MOST_WRITTEN};
use guineaplume::Refusal;

/// The least number that the writer takes, zero aside.
const LEAST: f32 = 1e-6;

/// Channels are clamped, since Inkscape refuses 1.00000012. What is below a millionth, position or channel, is 0: the
/// library's writer has nine digits from there on, and no display shows it.
pub fn ggr(piece: &Piece) -> Answer<String> {
    let whole = |x: f32| if x < LEAST { 0.0 } else { x.min(1.0) };
    let positions: Vec<f32> = piece.stops.iter().map(|(position, _)| place(*position)).collect();
    let channels: Vec<f32> = piece.stops.iter().flat_map(|(_, color)| color.to_array().map(whole)).collect();
    let mut text = vec![0; slices::written_bytes(positions.len().min(MOST_WRITTEN))];
    let bytes = slices::write_ggr(&positions, &channels, &mut text).map_err(|refusal| {
        let many = format!(
            "; it has {} stops, and a GIMP gradient at most {MOST_WRITTEN}: a greater --hold gives fewer",
            positions.len()
        );
        piece.refused(refusal, if refusal == Refusal::Misshapen { &many } else { "" })
    })?;
    text.truncate(bytes);
    let text = String::from_utf8(text).expect("what is written is ASCII");
    Ok(text.replacen("Name: flattened\n", &format!("Name: {}\n", piece.name), 1))
}

/// A half-way point below the least is not written either, so twice that is where positions start.
fn place(x: f32) -> f32 {
    if x < 2.0 * LEAST {
        0.0
    } else {
        x
    }
}
