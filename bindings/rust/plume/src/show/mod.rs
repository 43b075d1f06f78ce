//! A picture of a ramp and its list. Nothing is told by colour alone, and all of it is told in words too.

mod bands;
mod canvas;
mod cells;
mod faults;
mod profiles;

use crate::making::{Made, Said};
use crate::ramp::{name_of, Stops};
use crate::report;
use canvas::{Canvas, LEFT};

/// Draws it; `sort` says which list it is.
pub fn picture(name: &str, made: &Made, list: &Stops, said: &Said, sort: &str) -> String {
    let mut canvas = Canvas::new(made.ramp.gradient().domain());
    canvas.text(LEFT, 30.0, name, "font-size=\"18\" font-weight=\"600\"");
    let kind = format!("{}, {}; {sort}", name_of(made.ramp.kind()), made.ramp.count());
    canvas.text(LEFT, 52.0, kind, "fill=\"#222\"");
    let line = report::line(&made.ramp.count(), list.len(), &said.apart, said.verdict);
    canvas.y = 52.0;
    for part in wrapped(&line, 145) {
        canvas.y += 18.0;
        canvas.text(LEFT, canvas.y, part, "fill=\"#222\"");
    }
    canvas.y += 12.0;
    bands::ramp(&mut canvas, &made.ramp);
    faults::marks(&mut canvas, &said.apart);
    bands::list(&mut canvas, list);
    profiles::all(&mut canvas, &made.ramp, list);
    profiles::off(&mut canvas, &made.ramp, list, said.apart.threshold);
    cells::cells(&mut canvas, &made.redone);
    faults::table(&mut canvas, &said.apart);
    canvas.y += 20.0;
    let description = format!("{line} {}", faults::words(&said.apart).join(". "));
    canvas.finished(&format!("{name}: ramp and list"), description.trim())
}

/// Lines of at most so many characters, cut between words.
fn wrapped(text: &str, most: usize) -> Vec<String> {
    let mut lines = vec![String::new()];
    for word in text.split(' ') {
        let last = lines.last_mut().expect("there is one");
        if last.is_empty() {
            last.push_str(word);
        } else if last.chars().count() + word.chars().count() < most {
            last.push(' ');
            last.push_str(word);
        } else {
            lines.push(word.into());
        }
    }
    lines
}
