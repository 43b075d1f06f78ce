//! The version, the codes and the limits of this crate are those of the header, and the version is the library's.

use guineaplume::slices::{self, Kind};

const HEADER: &str = include_str!("../../../include/colorgrad.h");

fn number(text: &str) -> u32 {
    text.split('.').fold(0, |number, part| 1000 * number + part.parse::<u32>().expect("a number"))
}

#[test]
fn crate_library_and_header_have_one_version() {
    let own = env!("CARGO_PKG_VERSION");
    assert_eq!(slices::version(), number(own));
    assert!(HEADER.contains(&format!("#define COLORGRAD_VERSION_TEXT \"{own}\"\n")));
}

#[test]
fn kinds_have_the_codes_of_the_header() {
    let kinds = [
        ("LINEAR", Kind::Linear),
        ("SMOOTHSTEP", Kind::Smoothstep),
        ("SHARP", Kind::Sharp),
        ("BASIS", Kind::Basis),
        ("CATMULL_ROM", Kind::CatmullRom),
        ("GIMP", Kind::Gimp),
        ("GIMP_SAVED", Kind::GimpSaved),
    ];
    let defined = HEADER.split("typedef enum {").nth(1).and_then(|rest| rest.split('}').next()).expect("the kinds");
    let own: Vec<String> = kinds.iter().map(|(name, kind)| format!("COLORGRAD_{name} = {}", *kind as u32)).collect();
    assert_eq!(defined.split(',').map(str::trim).collect::<Vec<_>>(), own);
}

#[test]
fn faults_have_the_numbers_of_the_header() {
    for (name, fault) in [("MOVED", slices::MOVED), ("CLOSE", slices::CLOSE), ("MERGED", slices::MERGED)] {
        assert!(HEADER.lines().any(|line| line.starts_with(&format!("#define COLORGRAD_{name} {fault}u "))), "{name}");
    }
}

#[test]
fn limits_are_those_of_the_header() {
    for (name, limit) in [
        ("MOST_STOPS", slices::MOST_STOPS),
        ("MOST_SEGMENTS", slices::MOST_SEGMENTS),
        ("CELLS", slices::CELLS),
        ("ROWS", slices::ROWS),
        ("MARKS", slices::MARKS),
        ("MOST_POINTS", slices::MOST_POINTS),
        ("MOST_WEIGHED", slices::MOST_WEIGHED),
        ("MOST_PRINTED", slices::MOST_PRINTED),
        ("MOST_WRITTEN", slices::MOST_WRITTEN),
        ("MOST_NUMERAL", slices::MOST_NUMERAL),
    ] {
        assert!(HEADER.contains(&format!("#define COLORGRAD_{name} {limit}u ")), "{name}");
    }
}
