//! Each refusal, what it leaves in lent memory, and that its number and message are the header's.

#![cfg(feature = "std")]

mod desk;
mod lists;
mod ramps;
mod records;
mod texts;

use guineaplume::{Color, ParseGgrError, Refusal};

const BLACK: Color = Color::new(0.0, 0.0, 0.0, 1.0);
const WHITE: Color = Color::new(1.0, 1.0, 1.0, 1.0);

/// Why a text was refused, and the line.
fn blamed(error: ParseGgrError) -> (Refusal, usize) {
    (error.refusal, error.line)
}

#[test]
fn numbers_and_messages_are_those_of_the_header() {
    let header = include_str!("../../../../include/colorgrad.h");
    for number in 1..=24 {
        let refusal = Refusal::from_number(number).expect("a number of a refusal");
        assert_eq!(refusal.number(), number);
        let name = header
            .lines()
            .filter_map(|line| line.strip_prefix("#define COLORGRAD_"))
            .filter_map(|line| line.split_once(&format!(" {number}u")))
            .map(|(name, _)| name)
            .find(|name| header.contains(&format!("case COLORGRAD_{name}: return \"{refusal}\"")));
        assert!(name.is_some(), "{number}: {refusal}");
    }
    assert_eq!((Refusal::from_number(0), Refusal::from_number(25)), (None, None));
}
