//! Colours as bytes, as text, and out of other types.

#![cfg(feature = "std")]

use guineaplume::{Color, ParseColorError};
use std::convert::TryFrom;

#[test]
fn every_byte_comes_back() {
    for n in 0..=255 {
        assert_eq!(Color::from_rgba8(n, 0, 255, n).to_rgba8(), [n, 0, 255, n]);
    }
}

#[test]
fn bytes_are_clamped_and_the_nearest() {
    assert_eq!(Color::new(-1.0, 1.000_000_1, f32::NAN, f32::INFINITY).to_rgba8(), [0, 255, 0, 255]);
    // 0.5 * 255 is 127.5, the one tie there is; 0.1 * 255 is just above 25.5
    assert_eq!(Color::new(0.5, 0.1, 0.005_882_352, 0.005_882_354).to_rgba8(), [128, 26, 1, 2]);
}

#[test]
fn clamping_leaves_what_is_no_number() {
    let clamped = Color::new(-0.5, 1.5, 0.25, f32::NAN).clamp();
    assert_eq!((clamped.r, clamped.g, clamped.b, clamped.a.is_nan()), (0.0, 1.0, 0.25, true));
}

#[test]
fn hex_is_written_and_read() {
    assert_eq!(Color::from([1.0, 0.5, 0.0]).to_css_hex().to_string(), "#ff8000");
    assert_eq!(Color::from([255u8, 128, 0, 254]).to_css_hex().to_string(), "#ff8000fe");
    for (text, bytes) in [
        ("#f80", [255, 136, 0, 255]),
        ("#f804", [255, 136, 0, 68]),
        ("#fF8000", [255, 128, 0, 255]),
        ("#ff800044", [255, 128, 0, 68]),
    ] {
        assert_eq!(text.parse(), Ok(Color::from(bytes)), "{text}");
        assert_eq!(Color::try_from(text), text.parse());
    }
}

#[test]
fn what_is_printed_is_read_back() {
    for bits in [0, 1, 0x8000_0000, 0x3dcc_cccd, 0x7f7f_ffff, 0x3f80_0001, 0x7f80_0000] {
        let color = Color::new(f32::from_bits(bits), -0.1, 1.0, 3e-8);
        let read: Color = color.to_string().parse().expect("what was printed");
        assert_eq!(read.to_array().map(f32::to_bits), color.to_array().map(f32::to_bits), "{color}");
    }
}

#[test]
fn other_texts_are_no_colours() {
    let wrong = [
        "",
        "#",
        "#12",
        "#12345",
        "#1234567",
        "#123456789",
        "#12345g",
        "#+12345",
        "#\u{e4}bcd",
        "ff8000",
        "gold",
        "RGBA(1,2,3)",
        "RGBA(1,2,3,4,5)",
        "RGBA(1,2,3,x)",
        "RGBA(1,2,3,4) ",
        "rgba(1,2,3,4)",
    ];
    for text in wrong {
        let error: ParseColorError = text.parse::<Color>().unwrap_err();
        assert_eq!(error.to_string(), "a colour is written #rgb, #rgba, #rrggbb, #rrggbbaa or RGBA(r,g,b,a)", "{text}");
    }
}

#[test]
fn channels_and_bytes_are_colours() {
    let color = Color::new(0.0, 1.0, 0.2, 1.0);
    assert_eq!(
        [Color::from([0.0, 1.0, 0.2]), Color::from((0.0, 1.0, 0.2)), Color::from((0.0, 1.0, 0.2, 1.0))],
        [color; 3]
    );
    assert_eq!(
        [Color::from([0u8, 255, 51]), Color::from((0u8, 255u8, 51u8)), Color::from((0u8, 255u8, 51u8, 255u8))],
        [color; 3]
    );
    assert_eq!(<[f32; 4]>::from(color), [0.0, 1.0, 0.2, 1.0]);
    assert_eq!(<(f32, f32, f32, f32)>::from(color), (0.0, 1.0, 0.2, 1.0));
}
