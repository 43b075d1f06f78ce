//! Hue, saturation, value by the steps of docs/HSV.md, for lack of the dependency's own.

use crate::{unit, Color};

/// Steps 1 to 5.
pub fn there(c: &Color) -> [f32; 4] {
    let larger = |x, y| if x < y { y } else { x };
    let smaller = |x, y| if y < x { y } else { x };
    let v: f32 = larger(larger(c.r, c.g), c.b);
    let d = v - smaller(smaller(c.r, c.g), c.b);
    if d == 0.0 {
        return [0.0, 0.0, v, c.a];
    }
    let sixths = if c.r == v {
        let q = (c.g - c.b) / d;
        if q < 0.0 { q + 6.0 } else { q }
    } else if c.g == v {
        2.0 + (c.b - c.r) / d
    } else {
        4.0 + (c.r - c.g) / d
    };
    [sixths * 60.0, d / v, v, c.a]
}

/// Steps 12 to 18.
pub fn back(h: f32, s: f32, v: f32, a: f32) -> Color {
    let rest = h % 360.0;
    let h = if rest < 0.0 { rest + 360.0 } else { rest };
    let (s, v, a) = (unit(s), unit(v), unit(a));
    let l = (2.0 - s) * v / 2.0;
    let s = if l == 0.0 {
        s
    } else if l == 1.0 {
        0.0
    } else if l < 0.5 {
        s * v / (l * 2.0)
    } else {
        s * v / (2.0 - l * 2.0)
    };
    if s == 0.0 {
        return Color::new(l, l, l, a);
    }
    let most = if l < 0.5 { l * (1.0 + s) } else { l + s - l * s };
    let least = 2.0 * l - most;
    let x = h / 60.0;
    let channel = |y: f32| unit(at(least, most, (y % 6.0 + 6.0) % 6.0));
    Color::new(channel(x + 2.0), channel(x), channel(x - 2.0), a)
}

fn at(least: f32, most: f32, y: f32) -> f32 {
    if y < 1.0 {
        least + (most - least) * y
    } else if y < 3.0 {
        most
    } else if y < 4.0 {
        least + (most - least) * (4.0 - y)
    } else {
        least
    }
}
