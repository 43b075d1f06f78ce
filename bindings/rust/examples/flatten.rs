//! A ramp of depths as stops for the press, as a legend, and as a GIMP gradient. `cargo run --example flatten`

use guineaplume::{CatmullRomGradient, Color, Gradient, DEFAULT_THRESHOLD};
use std::error::Error;

pub fn main() -> Result<(), Box<dyn Error>> {
    let tints = ["#08306b", "#08519c", "#4292c6", "#9ecae1", "#f7fbff"];
    let colors = tints.iter().map(|hex| hex.parse()).collect::<Result<Vec<Color>, _>>()?;
    let sea = CatmullRomGradient::new(&[0.0, 0.2, 0.5, 0.8, 1.0], &colors)?;

    let (_, list) = sea.flatten_within(DEFAULT_THRESHOLD, 0.001)?;
    for (position, color) in list.stops() {
        println!("{position:.4} {}", color.to_css_hex());
    }
    let verdict = sea.judge(DEFAULT_THRESHOLD, list.positions(), list.colors())?;
    println!("{} stops: {verdict}", list.len());

    let legend: Vec<String> = sea.sharp(5, 0.0)?.colors(5).map(|color| color.to_css_hex().to_string()).collect();
    println!("legend: {}", legend.join(" "));
    print!("{}", list.to_ggr()?.lines().take(4).map(|line| line.to_string() + "\n").collect::<String>());
    Ok(())
}
