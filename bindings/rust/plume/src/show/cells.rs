//! The 36 cells, and the positions below them.

use super::canvas::{Canvas, LEFT, RIGHT};
use crate::number::short;
use guineaplume::slices::CELLS;

const HEIGHT: f32 = 18.0;

pub fn cells(canvas: &mut Canvas, redone: &[bool; CELLS]) {
    let count = redone.iter().filter(|cell| **cell).count();
    let words = match count {
        0 => "The 36 cells".into(),
        1 => "The 36 cells; the hatched one was redone for the edit".into(),
        _ => format!("The 36 cells; the {count} hatched ones were redone for the edit"),
    };
    canvas.text(LEFT, canvas.y + 14.0, words, "font-weight=\"600\"");
    canvas.y += 20.0;
    let width = (RIGHT - LEFT) / CELLS as f32;
    for (i, is_redone) in redone.iter().enumerate() {
        let fill = if *is_redone { "url(#redone)" } else { "none" };
        canvas.rect(
            LEFT + i as f32 * width,
            canvas.y,
            width,
            HEIGHT,
            &format!("fill=\"{fill}\" stroke=\"#000\" stroke-width=\"0.8\""),
        );
    }
    canvas.y += HEIGHT;
    axis(canvas);
}

fn axis(canvas: &mut Canvas) {
    for i in 0..=4 {
        let share = i as f32 / 4.0;
        let x = LEFT + share * (RIGHT - LEFT);
        let place = ["start", "middle", "middle", "middle", "end"][i];
        canvas.line(x, canvas.y, x, canvas.y + 5.0, "stroke=\"#000\"");
        let style = format!("font-size=\"12\" text-anchor=\"{place}\"");
        canvas.text(x, canvas.y + 18.0, short(canvas.position(share)), &style);
    }
    canvas.y += 24.0;
}
