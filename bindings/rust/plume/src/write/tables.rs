//! Colour tables: GMT's, which gdaldem reads too, gdaldem's own and QGIS's. Colours are whole numbers of 0 to 255.

use super::Piece;
use crate::fault::{Answer, Fault};
use crate::number::short;
use std::fmt::Write;

/// Spaces and no slashes, and no `B F N`: so gdaldem reads it as GMT does. A slice of no length is left out, since GMT
/// refuses it; the jump stays.
pub fn cpt(piece: &Piece) -> Answer<String> {
    let mut text = format!("# {}\n# COLOR_MODEL = RGB\n", piece.name);
    let mut slices = 0;
    for pair in piece.stops.windows(2) {
        let (from, to) = (short(pair[0].0), short(pair[1].0));
        if from == to {
            continue;
        }
        let ([r, g, b, _], [s, h, c, _]) = (pair[0].1.to_rgba8(), pair[1].1.to_rgba8());
        let _ = writeln!(text, "{from} {r} {g} {b} {to} {s} {h} {c}");
        slices += 1;
    }
    match slices {
        0 => Err(Fault::misused(piece.file, "all stops stand at one position: there is no slice to write")),
        _ => Ok(text),
    }
}

pub fn gdal(piece: &Piece) -> String {
    let mut text = String::new();
    for (position, color) in &piece.stops {
        let [r, g, b, a] = color.to_rgba8();
        let _ = writeln!(text, "{} {r} {g} {b} {a}", short(*position));
    }
    text
}

pub fn qgis(piece: &Piece) -> String {
    let mut text = "# QGIS Generated Color Map Export File\nINTERPOLATION:INTERPOLATED\n".to_string();
    for (position, color) in &piece.stops {
        let [r, g, b, a] = color.to_rgba8();
        let position = short(*position);
        let _ = writeln!(text, "{position},{r},{g},{b},{a},{position}");
    }
    text
}
