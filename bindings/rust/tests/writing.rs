//! Lists written as GIMP texts: their bytes, what each refusal leaves, and that they read back.

#![cfg(feature = "std")]

use guineaplume::slices::{self, written_bytes, MOST_NUMERAL, MOST_WRITTEN};
use guineaplume::{Color, GimpGradient, Gradient, LinearGradient, Refusal};

const BLACK: Color = Color::new(0.0, 0.0, 0.0, 1.0);
const WHITE: Color = Color::new(1.0, 1.0, 1.0, 1.0);
const GRAY: [f32; 8] = [0.0, 0.0, 0.0, 1.0, 1.0, 1.0, 1.0, 1.0];
/// Document 02's text of black to white.
const GRAY_TEXT: &str = concat!(
    "GIMP Gradient\nName: flattened\n1\n",
    "0 0.500000000 1.00000000 0 0 0 1.00000000 1.00000000 1.00000000 1.00000000 1.00000000 0 0\n",
);

fn text_of(x: f32) -> String {
    let mut out = [0; MOST_NUMERAL];
    let len = slices::numeral(x, &mut out);
    String::from_utf8(out[..len].to_vec()).unwrap()
}

#[test]
fn black_to_white() {
    let list = LinearGradient::new(&[0.0, 1.0], &[BLACK, WHITE]).unwrap().linearize(0.007).unwrap();
    assert_eq!(list.to_ggr().unwrap(), GRAY_TEXT);
}

#[test]
fn numbers() {
    assert_eq!(text_of(1.001953125), "1.00195312");
    assert_eq!((text_of(0.0), text_of(-0.0)), ("0".into(), "-0".into()));
    assert_eq!((text_of(1e-6), text_of(-1e6)), ("0.000000999999997".into(), "-1000000.00".into()));
    for x in [f32::NAN, f32::INFINITY, 9.999998e-7, 1000000.06, 1e-45] {
        assert_eq!(text_of(x), "");
    }
    for bits in (1e-6f32.to_bits()..=1e6f32.to_bits()).step_by(99_991) {
        let x = f32::from_bits(bits);
        assert_eq!(text_of(x).parse::<f32>().map(f32::to_bits), Ok(bits));
        assert_eq!(slices::token(text_of(-x).as_bytes()).map(f32::to_bits), Some((-x).to_bits()));
    }
}

#[test]
fn what_a_refusal_leaves() {
    let write = |positions: &[f32], channels: &[f32], room: usize| {
        let mut text = vec![7u8; room];
        let answer = slices::write_ggr(positions, channels, &mut text);
        (answer, text)
    };
    let (long, room) = (GRAY_TEXT.len(), written_bytes(2));
    for (positions, channels) in [
        (&[0.0][..], &GRAY[..4]),
        (&[0.0, 1.0], &GRAY[..7]),
        (&[0.0; MOST_WRITTEN + 1], &[0.5; 4 * (MOST_WRITTEN + 1)]),
    ] {
        assert_eq!(write(positions, channels, room), (Err(Refusal::Misshapen), vec![7; room]));
    }
    assert_eq!(write(&[1.0, 0.0], &GRAY, room), (Err(Refusal::Falling), vec![7; room]));
    for positions in [[0.0, 0.5], [1e-6, 1.0], [f32::NAN, 1.0], [-1.0, 1.0]] {
        assert_eq!(write(&positions, &GRAY, room), (Err(Refusal::Unwritable), vec![0; room]));
    }
    // a half-way point below 1e-6, and a channel that a curved ramp can give
    assert_eq!(write(&[0.0, 1.5e-6, 1.0], &[0.5; 12], room).0, Err(Refusal::Unwritable));
    assert_eq!(write(&[0.0, 1.0], &[2.98e-8; 8], room).0, Err(Refusal::Unwritable));
    assert_eq!(write(&[0.0, 1.0], &GRAY, long - 1), (Err(Refusal::NoRoom), vec![0; long - 1]));
    let (answer, text) = write(&[-0.0, 1.0], &GRAY, room);
    assert_eq!((answer, &text[30..35], text[long + 1]), (Ok(long + 1), &b"1\n-0 "[..], 7));
}

#[test]
fn a_pair_of_no_length_is_kept() {
    let mut text = vec![0; written_bytes(4)];
    let positions = [0.0, 0.25, 0.25, 1.0];
    let channels: Vec<f32> = (0..16).map(|i| i as f32 / 16.0).collect();
    let bytes = slices::write_ggr(&positions, &channels, &mut text).unwrap();
    let text = std::str::from_utf8(&text[..bytes]).unwrap();
    assert!(text.contains("\n3\n") && text.contains("\n0.250000000 0.250000000 0.250000000 "));
    assert!(GimpGradient::new(text.as_bytes(), &BLACK, &WHITE).is_ok());
}

#[test]
fn lists_read_back() {
    let mut state = 1u64;
    let mut next = || {
        state = state.wrapping_mul(6364136223846793005).wrapping_add(1442695040888963407);
        (state >> 40) as f32 / (1 << 24) as f32
    };
    for n in [2, 3, 5, 40, MOST_WRITTEN] {
        let mut positions: Vec<f32> = (0..n).map(|_| 0.001 + 0.998 * next()).collect();
        positions.sort_by(f32::total_cmp);
        (positions[0], positions[n - 1]) = (0.0, 1.0);
        let channels: Vec<f32> = (0..4 * n).map(|_| next().max(1e-6)).collect();
        let mut text = vec![0; written_bytes(n)];
        let bytes = slices::write_ggr(&positions, &channels, &mut text).unwrap();
        let (mut p, mut c, mut k) = (vec![9.0; 3 * n], vec![9.0; 8 * n], vec![9; 2 * n]);
        let out = slices::SegmentsMut { positions: &mut p, channels: &mut c, codes: &mut k };
        assert_eq!(slices::read(&text[..bytes], BLACK, WHITE, out), Ok(n - 1));
        for i in 0..n - 1 {
            assert_eq!(
                (p[3 * i].to_bits(), p[3 * i + 2].to_bits()),
                (positions[i].to_bits(), positions[i + 1].to_bits())
            );
            assert_eq!(c[8 * i..8 * i + 8], channels[4 * i..4 * i + 8]);
            assert_eq!(k[2 * i..2 * i + 2], [0, 0]);
        }
    }
}
