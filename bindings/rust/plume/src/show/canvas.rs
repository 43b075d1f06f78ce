//! Where lines, boxes and words of a picture go.

use std::fmt::{Display, Write};

pub const WIDTH: f32 = 1120.0;
pub const LEFT: f32 = 70.0;
pub const RIGHT: f32 = 1070.0;

/// What has been drawn, and how far down.
pub struct Canvas {
    body: String,
    pub y: f32,
    min: f32,
    max: f32,
}

impl Canvas {
    /// Of a ramp's domain, which may be one point.
    pub fn new((min, max): (f32, f32)) -> Canvas {
        Canvas { body: String::new(), y: 0.0, min, max }
    }

    /// Where a position of the ramp stands.
    pub fn x(&self, position: f32) -> f32 {
        let share = (f64::from(position) - f64::from(self.min)) / (f64::from(self.max) - f64::from(self.min));
        let share = if share.is_finite() { share as f32 } else { 0.0 };
        LEFT + share.clamp(0.0, 1.0) * (RIGHT - LEFT)
    }

    /// The position at a share of the width.
    pub fn position(&self, share: f32) -> f32 {
        let share = f64::from(share);
        (f64::from(self.min) * (1.0 - share) + f64::from(self.max) * share) as f32
    }

    pub fn line(&mut self, x1: f32, y1: f32, x2: f32, y2: f32, style: &str) {
        self.add(format_args!("<line x1=\"{x1:.2}\" y1=\"{y1:.2}\" x2=\"{x2:.2}\" y2=\"{y2:.2}\" {style}/>"));
    }

    pub fn rect(&mut self, x: f32, y: f32, width: f32, height: f32, style: &str) {
        self.add(format_args!("<rect x=\"{x:.2}\" y=\"{y:.2}\" width=\"{width:.2}\" height=\"{height:.2}\" {style}/>"));
    }

    pub fn text(&mut self, x: f32, y: f32, words: impl Display, style: &str) {
        let words = escaped(&words.to_string());
        self.add(format_args!("<text x=\"{x:.2}\" y=\"{y:.2}\" {style}>{words}</text>"));
    }

    /// A line through points, or an area of them; what lies on the way is left out.
    pub fn path(&mut self, points: &[(f32, f32)], close: &str, style: &str) {
        let mut d = String::new();
        for (i, (x, y)) in bends(points).iter().enumerate() {
            let _ = write!(d, "{}{x:.1} {y:.2}", if i == 0 { 'M' } else { 'L' });
        }
        self.add(format_args!("<path d=\"{d}{close}\" {style}/>"));
    }

    /// A box of one colour, in few bytes: a band has hundreds.
    pub fn column(&mut self, (x, width): (f32, f32), (y, height): (f32, f32), style: &str) {
        self.add(format_args!("<path d=\"M{x} {y}h{width}v{height}h-{width}z\" {style}/>"));
    }

    /// What is drawn meanwhile shares a style.
    pub fn group(&mut self, style: &str, draw: impl FnOnce(&mut Canvas)) {
        self.add(format_args!("<g {style}>"));
        draw(self);
        self.add(format_args!("</g>"));
    }

    pub fn circle(&mut self, x: f32, y: f32) {
        self.add(format_args!("<circle cx=\"{x:.2}\" cy=\"{y:.2}\" r=\"3\" fill=\"#000\"/>"));
    }

    fn add(&mut self, what: std::fmt::Arguments<'_>) {
        let _ = self.body.write_fmt(what);
        self.body.push('\n');
    }

    /// The whole picture, with what is to be read aloud of it.
    pub fn finished(self, title: &str, description: &str) -> String {
        let height = self.y.ceil();
        format!(
            "<svg xmlns=\"http://www.w3.org/2000/svg\" width=\"{WIDTH}\" height=\"{height}\" viewBox=\"0 0 {WIDTH} {height}\" \
             font-family=\"system-ui, sans-serif\" font-size=\"13\" role=\"img\" aria-labelledby=\"title description\">\n\
             <title id=\"title\">{}</title>\n<desc id=\"description\">{}</desc>\n{DEFINITIONS}\
             <rect width=\"{WIDTH}\" height=\"{height}\" fill=\"#fff\"/>\n{}</svg>\n",
            escaped(title),
            escaped(description),
            self.body
        )
    }
}

/// Patterns, so that nothing is told by colour alone: one line of hatching for moved, two that cross for merged, dots for
/// cells that were redone, squares behind what shines through.
const DEFINITIONS: &str = "<defs>
<pattern id=\"moved\" width=\"6\" height=\"6\" patternUnits=\"userSpaceOnUse\" patternTransform=\"rotate(45)\"><rect width=\"6\" height=\"6\" fill=\"#fff\"/><path d=\"M0 0V6\" stroke=\"#c00\" stroke-width=\"2\"/></pattern>
<pattern id=\"merged\" width=\"6\" height=\"6\" patternUnits=\"userSpaceOnUse\" patternTransform=\"rotate(45)\"><rect width=\"6\" height=\"6\" fill=\"#fff\"/><path d=\"M0 0V6M0 0H6\" stroke=\"#000\" stroke-width=\"1.5\"/></pattern>
<pattern id=\"redone\" width=\"5\" height=\"5\" patternUnits=\"userSpaceOnUse\" patternTransform=\"rotate(-45)\"><rect width=\"5\" height=\"5\" fill=\"#fff\"/><path d=\"M0 0V5\" stroke=\"#333\" stroke-width=\"1.5\"/></pattern>
<pattern id=\"clear\" width=\"16\" height=\"16\" patternUnits=\"userSpaceOnUse\"><rect width=\"16\" height=\"16\" fill=\"#fff\"/><path d=\"M0 0H8V16H16V8H0Z\" fill=\"#ccc\"/></pattern>
</defs>
";

/// The points at which a line bends by more than can be seen.
fn bends(points: &[(f32, f32)]) -> Vec<(f32, f32)> {
    const SEEN: f32 = 0.05;
    let mut kept: Vec<(f32, f32)> = points.first().copied().into_iter().collect();
    let mut from = 0;
    for to in 2..points.len() {
        let (a, b) = (points[from], points[to]);
        let is_straight = points[from + 1..to].iter().all(|(x, y)| {
            let share = if b.0 > a.0 { (x - a.0) / (b.0 - a.0) } else { f32::NAN };
            (a.1 + (b.1 - a.1) * share - y).abs() < SEEN
        });
        if !is_straight {
            from = to - 1;
            kept.push(points[from]);
        }
    }
    kept.extend(points.last().filter(|_| points.len() > 1));
    kept
}

fn escaped(text: &str) -> String {
    text.replace('&', "&amp;").replace('<', "&lt;").replace('>', "&gt;")
}
