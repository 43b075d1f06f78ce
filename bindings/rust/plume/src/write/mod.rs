//! Lists out, in the formats of the trade.

mod css;
mod ggr;
mod json;
mod svg;
mod tables;
mod text;

use crate::fault::{Answer, Fault};
use crate::ramp::{stretched, with_edges, Stops};
use guineaplume::slices::Kind;
use guineaplume::Refusal;

#[derive(Clone, Copy, Debug, PartialEq, Eq)]
pub enum Format {
    Text,
    Bits,
    Ggr,
    Cpt,
    Qgis,
    Gdal,
    Svg,
    Css,
    Json,
}

/// Their names, and the endings of their files.
pub const FORMATS: [(&str, Format, &str); 9] = [
    ("text", Format::Text, "tsv"),
    ("bits", Format::Bits, "bits"),
    ("ggr", Format::Ggr, "ggr"),
    ("cpt", Format::Cpt, "cpt"),
    ("qgis", Format::Qgis, "qgis.txt"),
    ("gdal", Format::Gdal, "gdal.txt"),
    ("svg", Format::Svg, "svg"),
    ("css", Format::Css, "css"),
    ("json", Format::Json, "json"),
];

impl Format {
    pub fn of_name(name: &str) -> Option<Format> {
        FORMATS.iter().find(|(one, ..)| *one == name).map(|(_, format, _)| *format)
    }

    /// By the ending of a file.
    pub fn of_file(file: &str) -> Option<Format> {
        let ends = |ending: &str| file.strip_suffix(ending).map_or(false, |rest| rest.ends_with('.'));
        FORMATS.iter().find(|(.., ending)| ends(ending)).map(|(_, format, _)| *format)
    }

    pub fn ending(self) -> &'static str {
        FORMATS.iter().find(|(_, format, _)| *format == self).map_or("", |(.., ending)| ending)
    }

    /// Whether it runs from 0 to 1 whatever the ramp does.
    pub fn is_unit(self) -> bool {
        matches!(self, Format::Ggr | Format::Svg | Format::Css)
    }

    /// Whether every position is that of the list, to the last bit.
    fn is_exact(self) -> bool {
        matches!(self, Format::Text | Format::Bits | Format::Json)
    }

    fn has_alpha(self) -> bool {
        self != Format::Cpt
    }
}

/// What is written: stops that are mixed linearly, but for a ramp of another kind that is kept as it is.
pub struct Piece<'a> {
    pub file: &'a str,
    pub name: &'a str,
    pub kind: Kind,
    pub stops: Stops,
    /// How many colours its making asked for; 0 for a ramp that was converted.
    pub evaluations: usize,
    /// Where it shall run from and to.
    pub domain: Option<(f32, f32)>,
}

impl Piece<'_> {
    /// The file's text, and what is to be said of it.
    pub fn written(mut self, format: Format) -> Answer<(Vec<u8>, Vec<String>)> {
        let notes = self.notes(format);
        if !format.is_exact() {
            self.stops = with_edges(&self.stops);
        }
        if let Some(domain) = if format.is_unit() { Some((0.0, 1.0)) } else { self.domain } {
            let stops = stretched(&self.stops, domain);
            self.stops =
                stops.ok_or_else(|| Fault::misused(self.file, "all stops stand at one position: it has no domain"))?;
        }
        let text = match format {
            Format::Text => text::text(&self)?,
            Format::Bits => text::bits(&self),
            Format::Ggr => ggr::ggr(&self)?,
            Format::Cpt => tables::cpt(&self)?,
            Format::Qgis => tables::qgis(&self),
            Format::Gdal => tables::gdal(&self),
            Format::Svg => svg::svg(&self),
            Format::Css => css::css(&self),
            Format::Json => json::json(&self),
        };
        Ok((text.into_bytes(), notes))
    }

    fn notes(&self, format: Format) -> Vec<String> {
        let mut notes = Vec::new();
        let is_clear = self.stops.iter().any(|(_, color)| color.a < 1.0);
        if is_clear && !format.has_alpha() {
            notes.push(format!("{}: a colour table has no alpha: it is left out", self.file));
        }
        if is_clear && format == Format::Css {
            notes.push(format!(
                "{}: browsers mix css colours after multiplying by alpha: svg shows it as it is",
                self.file
            ));
        }
        if self.domain.is_some() && format.is_unit() {
            notes.push(format!("{}: --domain is not used: this format runs from 0 to 1", self.file));
        }
        notes
    }

    fn refused(&self, refusal: Refusal, more: &str) -> Fault {
        Fault::refused_since(self.file, 0, refusal, more)
    }
}
