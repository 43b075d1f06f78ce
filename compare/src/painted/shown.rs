//! The library's colours of GIMP files at points of their own, as text: what compare/trade/gimp_colours.py holds against GIMP's.

use crate::gimp::files;
use crate::harness::ours;
use std::path::Path;

/// A line for each point, and before them one with the file's path; of a file that is refused, its number.
pub fn run(paths: &[String], points: usize) {
    let at: Vec<f32> = (0..points).map(|i| ((i as f64 + 0.5) / points as f64) as f32).collect();
    for path in paths {
        println!("== {path}");
        match files::read_ramp(Path::new(path)) {
            Ok(ramp) => {
                let mut colours = vec![0.0; 4 * points];
                ours::paint(&ramp, &at, &mut colours);
                for (t, c) in at.iter().zip(colours.chunks(4)) {
                    println!("{t} {} {} {} {}", c[0], c[1], c[2], c[3]);
                }
            }
            Err(why) => println!("refused {why}"),
        }
    }
}
