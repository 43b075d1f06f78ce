//! The ramp above its list, with a tick at each stop.

use super::canvas::{Canvas, LEFT, RIGHT};
use crate::apart::mixed;
use crate::color::hex;
use crate::ramp::{Ramp, Stops};
use guineaplume::Color;

const HEIGHT: f32 = 64.0;
const FRAME: &str = "fill=\"none\" stroke=\"#000\"";
const NAME: &str = "text-anchor=\"end\"";
const COLUMNS: usize = 1000;

/// The middles of the columns.
fn middles(canvas: &Canvas) -> Vec<f32> {
    (0..COLUMNS).map(|i| canvas.position((i as f32 + 0.5) / COLUMNS as f32)).collect()
}

pub fn ramp(canvas: &mut Canvas, ramp: &Ramp) {
    let colors = ramp.gradient().colors_at(&middles(canvas));
    for position in ramp.depths() {
        let x = canvas.x(position);
        canvas.line(x, canvas.y, x, canvas.y + 8.0, "stroke=\"#000\"");
    }
    canvas.y += 8.0;
    band(canvas, &colors, "ramp");
}

pub fn list(canvas: &mut Canvas, list: &Stops) {
    let colors = mixed(list, &middles(canvas));
    band(canvas, &colors, "list");
    for (position, _) in list {
        let x = canvas.x(*position);
        canvas.line(x, canvas.y, x, canvas.y + 8.0, "stroke=\"#000\"");
    }
    canvas.y += 8.0;
}

fn band(canvas: &mut Canvas, colors: &[Color], name: &str) {
    let top = canvas.y;
    canvas.text(LEFT - 8.0, top + HEIGHT / 2.0 + 5.0, name, NAME);
    if colors.iter().any(|color| color.to_rgba8()[3] < 255) {
        canvas.rect(LEFT, top, RIGHT - LEFT, HEIGHT, "fill=\"url(#clear)\"");
    }
    // edges are not softened, so that no gap shows between two columns
    canvas.group("shape-rendering=\"crispEdges\"", |canvas| columns(canvas, colors, top));
    canvas.rect(LEFT, top, RIGHT - LEFT, HEIGHT, FRAME);
    canvas.y += HEIGHT;
}

/// Columns of one colour that touch are one box.
fn columns(canvas: &mut Canvas, colors: &[Color], top: f32) {
    let width = (RIGHT - LEFT) / COLUMNS as f32;
    let mut from = 0;
    for i in 1..=colors.len() {
        if colors.get(i).map(|color| color.to_rgba8()) == Some(colors[from].to_rgba8()) {
            continue;
        }
        let opacity = match colors[from].to_rgba8()[3] {
            255 => String::new(),
            byte => format!(" fill-opacity=\"{:.4}\"", f32::from(byte) / 255.0),
        };
        let style = format!("fill=\"{}\"{opacity}", hex(colors[from]));
        canvas.column((LEFT + from as f32 * width, (i - from) as f32 * width), (top, HEIGHT), &style);
        from = i;
    }
}
