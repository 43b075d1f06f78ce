//! Whether depths that a reader must tell apart are still two in a list that was made elsewhere. `cargo run --example depths`

use guineaplume::{Color, Gradient, LinearGradient, Refusal, DEFAULT_THRESHOLD};

pub fn main() -> Result<(), Refusal> {
    // a thin red band between two greys
    let (gray, red) = (|x: f32| Color::new(x, x, x, 1.0), Color::new(1.0, 0.0, 0.0, 1.0));
    let positions = [0.0, 0.389, 0.3891, 0.4026, 0.4027, 1.0];
    let ramp = LinearGradient::new(&positions, &[gray(0.0), gray(0.389), red, red, gray(0.4027), gray(1.0)])?;

    // the press made two stops of it
    let (places, colors) = ([0.0, 1.0], [gray(0.0), gray(1.0)]);
    println!("{}", ramp.judge(DEFAULT_THRESHOLD, &places, &colors)?);
    println!("{}", ramp.apart(DEFAULT_THRESHOLD, 0.02, &positions, &places, &colors)?);

    // ours keeps its word
    let (_, list) = ramp.flatten_within(DEFAULT_THRESHOLD, 0.001)?;
    println!("{}", list.apart(&ramp, DEFAULT_THRESHOLD, 0.02, &positions)?);
    Ok(())
}
