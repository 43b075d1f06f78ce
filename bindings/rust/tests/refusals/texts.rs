//! GIMP texts by document 01's rules, and as GIMP saves them.

use guineaplume::slices::{self, Kind, SegmentsMut};
use guineaplume::{GimpGradient, Gradient, ParseGgrError, Refusal};

use crate::desk::RUBBISH;
use crate::{blamed, BLACK, WHITE};

/// By document 01's rules, with room for all.
fn strict(text: &str) -> Result<usize, ParseGgrError> {
    let (mut positions, mut channels, mut codes) = (vec![0.0; 768], vec![0.0; 2048], vec![0; 512]);
    let out = SegmentsMut { positions: &mut positions, channels: &mut channels, codes: &mut codes };
    slices::read(text.as_bytes(), BLACK, WHITE, out)
}

#[test]
fn gimp_texts() {
    let good = "GIMP Gradient\nName: x\n1\n0 0.5 1 0 0 0 1 1 1 1 1 0 0\n";
    let cases = [
        (good.replace('x', "\u{e9}"), Refusal::NotAText, 0),
        (" ".repeat(65_537), Refusal::NotAText, 0),
        (good.replace("GIMP", "gimp"), Refusal::BadHeader, 1),
        (good.replace("Name", "Nome"), Refusal::BadHeader, 2),
        (good.replace("\n1\n", "\n+\n"), Refusal::BadHeader, 3),
        (good.replace("\n1\n", "\n++1\n"), Refusal::BadHeader, 3),
        (good.replace("\n1\n", "\n+0\n"), Refusal::NoSegment, 4),
        (good.replace("0.5", "half"), Refusal::BadSegment, 4),
        (good.replace("\n1\n", "\n2\n"), Refusal::FewLines, 3),
        (String::new(), Refusal::NoSegment, 4),
        (good.replace("\n1\n", "\n257\n"), Refusal::TooManySegments, 3),
        (good.replace("0 0\n", "1 0\n"), Refusal::NotCarried, 4),
        (good.replace("0 0.5 1 0", "0.1 0.5 1 0"), Refusal::Torn, 4),
        (good.replace("0 0.5 1 0", "0 0.5 0.9 0"), Refusal::Torn, 4),
        (good.replace("0 0.5 1 0", "0 1.5 1 0"), Refusal::Torn, 4),
    ];
    for (text, refusal, line) in cases {
        assert_eq!(strict(&text).map_err(blamed), Err((refusal, line)), "{text}");
    }
    assert_eq!(strict(&good.replace("\n1\n", "\n+1\n")), Ok(1), "a count with a plus");
    let (mut positions, mut channels, mut codes) = ([RUBBISH; 4], [RUBBISH; 9], [9u8; 1]);
    let out = SegmentsMut { positions: &mut positions, channels: &mut channels, codes: &mut codes };
    let refused = slices::read(good.as_bytes(), BLACK, WHITE, out).map_err(blamed);
    assert_eq!(refused, Err((Refusal::TooManySegments, 3)));
    assert_eq!((positions, channels, codes), ([0.0; 4], [0.0; 9], [0; 1]));
    let mut name = [0; 3];
    assert_eq!((slices::name(good.as_bytes(), &mut name), name), (1, [b'x', 0, 0]));
    assert_eq!((slices::name(good.as_bytes(), &mut []), slices::name(b"", &mut name)), (1, 0));
}

#[test]
fn gimp_texts_as_gimp_saves_them() {
    let good = "GIMP Gradient\nName: x\n1\n0 0.5 1 0 0 0 1 1 1 1 1 0 0\n";
    let read = |text: &str| GimpGradient::new(text.as_bytes(), &BLACK, &WHITE);
    let same = read(good).expect("a plain text");
    let named = read(&good.replace('x', "\u{41c}\u{43e}\u{440}\u{435}")).expect("a name in another script");
    assert_eq!((same.name(), named.name(), named.at(0.25)), ("x", "\u{41c}\u{43e}\u{440}\u{435}", same.at(0.25)));
    let long = read(&good.replace("0.5 1", "0.50000000000000000000 1.0000000000000000e+00")).expect("long numbers");
    assert_eq!(long, same);
    let curved = read(&good.replace("0 0\n", "1 0\n")).expect("a curved segment");
    assert_eq!((curved.at(0.5).r, curved.as_slices().kind), (0.5, Kind::GimpSaved));
    assert_eq!(strict(&good.replace("0 0.5", "0 5e-1")).map_err(blamed), Err((Refusal::BadSegment, 4)));
    let cases = [
        (good.replace("\n1\n", "\n1\u{e9}\n"), Refusal::NotAText, 0),
        (good.replace("1 1 1 1", "1 1 1 \u{e9}"), Refusal::NotAText, 0),
        (" ".repeat(131_073), Refusal::NotAText, 0),
        (good.replace("1 1 1 1", "1 1 1 1e39"), Refusal::BadSegment, 4),
        (good.replace("1 1 1 1", "1 1 1 0.12345678901234567891"), Refusal::BadSegment, 4),
        (good.replace("0 0.5 1 0", "0 1.5 1 0").replace("0 0\n", "1 0\n"), Refusal::NotCarried, 4),
    ];
    for (text, refusal, line) in cases {
        assert_eq!(read(&text).map_err(blamed), Err((refusal, line)), "{text}");
    }
    assert_eq!(slices::name_saved(good.as_bytes(), &mut []), 1);
}
