//! A ramp edited on a sheet, where ramp, record and list stay together, and edits undone. `cargo run --example edit`

use guineaplume::{Color, Edit, LinearGradient, ListSort, Refusal, Sheet, DEFAULT_THRESHOLD};

fn show(sheet: &Sheet<LinearGradient>, what: &str) -> Result<(), Refusal> {
    let list = sheet.list()?;
    println!(
        "{what}: {} stops of the ramp, {} of the list, {}",
        sheet.ramp().positions().len(),
        list.len(),
        sheet.judge()?
    );
    Ok(())
}

pub fn main() -> Result<(), Refusal> {
    let gray = |x: f32| Color::new(x, x, x, 1.0);
    let ramp = LinearGradient::new(&[0.0, 0.5, 1.0], &[0.0, 0.8, 1.0].map(gray))?;
    let mut sheet = Sheet::open(ramp, DEFAULT_THRESHOLD, ListSort::Within(0.001))?;
    show(&sheet, "opened")?;

    // an edit says how it is undone
    let mut undo = vec![sheet.edit(Edit::Color { stop: 1, color: gray(0.3) })?];
    undo.push(sheet.edit(Edit::Add { stop: 2, position: 0.75, color: Color::new(1.0, 0.0, 0.0, 1.0) })?);
    undo.push(sheet.edit(Edit::Move { stop: 2, position: 0.6 })?);
    show(&sheet, "three edits")?;

    // a refused edit changes nothing
    let refused = sheet.edit(Edit::Move { stop: 2, position: 0.1 });
    println!("refused: {}", refused.map_or_else(|refusal| refusal.to_string(), |_| "no".into()));

    while let Some(back) = undo.pop() {
        sheet.edit(back)?;
    }
    show(&sheet, "undone")
}
