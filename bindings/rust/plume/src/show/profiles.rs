//! A profile of each channel and of lightness, ramp and list over each other, and how far off the list is.

use super::canvas::{Canvas, LEFT, RIGHT};
use crate::apart::mixed;
use crate::color::{distance, lightness};
use crate::number::{about, short};
use crate::ramp::{Ramp, Stops};
use guineaplume::Color;

const RAMP: &str = "fill=\"none\" stroke=\"#000\" stroke-width=\"1.8\"";
const LIST: &str = "fill=\"none\" stroke=\"#c00\" stroke-width=\"1.8\" stroke-dasharray=\"7 4\"";
const SQUARE: &str = "fill=\"#fff\" stroke=\"#c00\" stroke-width=\"1.5\"";
const GRID: &str = "stroke=\"#ccc\"";
const SMALL: &str = "font-size=\"12\" text-anchor=\"end\" fill=\"#444\"";

/// What is drawn of a colour, and the numbers at the sides of its panel.
struct Panel {
    name: &'static str,
    height: f32,
    of: fn(Color) -> f32,
    low: f32,
    high: f32,
}

/// Points of a panel's width: a grid, and the stops of both with what lies just beside them.
fn points(canvas: &Canvas, ramp: &Ramp, list: &Stops) -> Vec<f32> {
    let mut points: Vec<f32> = (0..=500).map(|i| canvas.position(i as f32 / 500.0)).collect();
    let (min, max) = (points[0], points[500]);
    for position in ramp.depths().into_iter().chain(list.iter().map(|(position, _)| *position)) {
        let beside = (max - min) * 1e-5;
        points.extend([position - beside, position, position + beside].map(|t| t.clamp(min, max)));
    }
    points.sort_by(f32::total_cmp);
    points.dedup();
    points
}

pub fn all(canvas: &mut Canvas, ramp: &Ramp, list: &Stops) {
    legend(canvas, ramp, list);
    let ts = points(canvas, ramp, list);
    let (ramps, lists) = (ramp.gradient().colors_at(&ts), mixed(list, &ts));
    let lightness = Panel { name: "Lightness (L*)", height: 110.0, of: lightness, low: 0.0, high: 100.0 };
    let channel = |name, of: fn(Color) -> f32| Panel { name, height: 62.0, of, low: 0.0, high: 1.0 };
    let mut panels = vec![lightness, channel("Red", |c| c.r), channel("Green", |c| c.g), channel("Blue", |c| c.b)];
    if ramps.iter().chain(&lists).any(|color| color.a != 1.0) {
        panels.push(channel("Alpha", |c| c.a));
    }
    for panel in panels {
        let shown = |colors: &[Color]| -> Vec<(f32, f32)> {
            ts.iter().copied().zip(colors.iter().map(|c| (panel.of)(*c))).collect()
        };
        let (ramps, lists) = (shown(&ramps), shown(&lists));
        let depths = ramp.depths();
        let marks: Vec<(f32, f32)> =
            depths.iter().copied().zip(ramp.gradient().colors_at(&depths).into_iter().map(panel.of)).collect();
        let squares: Vec<(f32, f32)> = list.iter().map(|(position, color)| (*position, (panel.of)(*color))).collect();
        draw(canvas, &widened(panel, &ramps, &lists), [&ramps, &lists, &marks, &squares]);
    }
}

fn legend(canvas: &mut Canvas, ramp: &Ramp, list: &Stops) {
    let y = canvas.y + 16.0;
    canvas.line(LEFT, y, LEFT + 30.0, y, RAMP);
    canvas.circle(LEFT + 15.0, y);
    canvas.text(LEFT + 38.0, y + 4.5, format!("ramp, {}", ramp.count()), "");
    canvas.line(LEFT + 190.0, y, LEFT + 220.0, y, LIST);
    canvas.rect(LEFT + 201.0, y - 4.0, 8.0, 8.0, SQUARE);
    canvas.text(LEFT + 228.0, y + 4.5, format!("list, {} stops", list.len()), "");
    canvas.y += 32.0;
}

/// Channels may lie outside 0..1.
fn widened(panel: Panel, ramps: &[(f32, f32)], lists: &[(f32, f32)]) -> Panel {
    let values = || ramps.iter().chain(lists).map(|(_, value)| *value).filter(|value| value.is_finite());
    Panel { low: values().fold(panel.low, f32::min), high: values().fold(panel.high, f32::max), ..panel }
}

fn draw(canvas: &mut Canvas, panel: &Panel, [ramps, lists, marks, squares]: [&[(f32, f32)]; 4]) {
    let (top, bottom) = (canvas.y + 20.0, canvas.y + 20.0 + panel.height);
    canvas.text(LEFT, top - 6.0, panel.name, "font-weight=\"600\"");
    for (value, y) in [(panel.high, top), (panel.low, bottom)] {
        canvas.line(LEFT, y, RIGHT, y, GRID);
        canvas.text(LEFT - 8.0, y + 4.5, short((value * 1000.0).round() / 1000.0), SMALL);
    }
    let y = |value: f32| {
        bottom - (value.clamp(panel.low, panel.high) - panel.low) / (panel.high - panel.low) * panel.height
    };
    let place = |canvas: &Canvas, line: &[(f32, f32)]| -> Vec<(f32, f32)> {
        line.iter().map(|(t, value)| (canvas.x(*t), y(*value))).collect()
    };
    let (solid, dashed) = (place(canvas, ramps), place(canvas, lists));
    canvas.path(&solid, "", RAMP);
    canvas.path(&dashed, "", LIST);
    // of more the marks would hide the lines
    const MOST: usize = 64;
    for (x, y) in place(canvas, marks).into_iter().filter(|_| marks.len() <= MOST) {
        canvas.circle(x, y);
    }
    for (x, y) in place(canvas, squares).into_iter().filter(|_| squares.len() <= MOST) {
        canvas.rect(x - 4.0, y - 4.0, 8.0, 8.0, SQUARE);
    }
    canvas.y = bottom + 8.0;
}

/// How far off the list is, everywhere, beside the threshold. What is far beyond it, such as a hard edge that lies one f32
/// aside, is cut, so that the rest is seen.
pub fn off(canvas: &mut Canvas, ramp: &Ramp, list: &Stops, threshold: f32) {
    const HEIGHT: f32 = 56.0;
    const MOST: f32 = 8.0;
    let ts = points(canvas, ramp, list);
    let pairs = ramp.gradient().colors_at(&ts).into_iter().zip(mixed(list, &ts));
    let far: Vec<f32> = pairs.map(|(x, y)| distance(x, y)).collect();
    let (farthest, cut) = (far.iter().copied().fold(1.25 * threshold, f32::max), MOST * threshold);
    let high = farthest.min(cut);
    let (top, bottom) = (canvas.y + 20.0, canvas.y + 20.0 + HEIGHT);
    let is_cut = if farthest > cut { format!(", cut at {}", about(cut)) } else { String::new() };
    let words = format!("How far off the list is{is_cut}; dashed: the threshold, {}", short(threshold));
    canvas.text(LEFT, top - 6.0, words, "font-weight=\"600\"");
    let y = |value: f32| bottom - value.min(high) / high * HEIGHT;
    let mut area: Vec<(f32, f32)> = ts.iter().zip(&far).map(|(t, value)| (canvas.x(*t), y(*value))).collect();
    area.extend([(RIGHT, bottom), (LEFT, bottom)]);
    canvas.path(&area, "Z", "fill=\"url(#moved)\" fill-opacity=\"0.35\" stroke=\"#c00\"");
    canvas.line(LEFT, y(threshold), RIGHT, y(threshold), "stroke=\"#000\" stroke-dasharray=\"3 3\"");
    canvas.text(LEFT - 8.0, top + 4.5, about(high), SMALL);
    canvas.text(LEFT - 8.0, bottom + 4.5, "0", SMALL);
    canvas.line(LEFT, bottom, RIGHT, bottom, "stroke=\"#000\"");
    canvas.y = bottom + 8.0;
}
