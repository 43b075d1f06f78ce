//! The stored ramps that are read from GIMP texts, and those that are built of colours.

use crate::gimp::texts;
use crate::harness::options::Options;
use crate::harness::ramps::MOST_SEGMENTS;
use crate::harness::random::Random;
use crate::painted::sharp;
use crate::stored::drawn::{is_wanted, LONG_RAMP};
use crate::stored::words::Words;

const TEXTS: u64 = 60;
const BUILT: u64 = 100;

/// Refusals that the first cases must have.
const OF_TEXTS: [u32; 9] = [2, 10, 11, 12, 13, 14, 15, 16, 18];
const OF_BUILT: [u32; 3] = [17, 1, 2];

/// What is longer is left out.
const LONG_TEXT: usize = 380;

pub fn gimp(options: &Options, words: &mut Words) {
    words.size(TEXTS as usize);
    for case in 0..TEXTS {
        let mut random = Random::of_case(options.seed, case);
        let input = loop {
            let input = texts::Input { room: MOST_SEGMENTS, ..texts::random_input(&mut random) };
            let answer = texts::expected(&input).0;
            // of a segment coloured by hue the Rust keeps no channels
            let by_hue = answer.as_ref().is_ok_and(|(segments, _)| segments.iter().any(|s| s.2[1] != 0));
            let refusal = answer.err().map_or(0, |refused| refused.0);
            if !by_hue && input.text.len() <= LONG_TEXT && is_wanted(&OF_TEXTS, case, refusal) {
                break input;
            }
        };
        text(words, &input);
    }
    words.printed("texts");
}

fn text(words: &mut Words, input: &texts::Input) {
    let (answer, _) = texts::expected(input);
    words.size(input.text.len());
    words.bytes(&input.text);
    words.floats(&input.foreground);
    words.floats(&input.background);
    let (refusal, line) = answer.as_ref().err().copied().unwrap_or((0, 0));
    let (segments, _) = answer.unwrap_or_default();
    let name = texts::name_of(&input.text);
    words.word(refusal);
    words.size(line);
    words.size(segments.len());
    words.size(3 * segments.len());
    segments.iter().for_each(|s| words.floats(&s.0));
    words.size(8 * segments.len());
    segments.iter().for_each(|s| words.floats(&s.1));
    words.size(2 * segments.len());
    segments.iter().for_each(|s| words.bytes(&s.2));
    words.size(name.len());
    words.bytes(name.as_bytes());
    words.record_done(refusal, 6);
}

pub fn built(options: &Options, words: &mut Words) {
    words.size(BUILT as usize);
    for case in 0..BUILT {
        let mut random = Random::of_case(options.seed, case);
        let input = loop {
            // the program lends all the room there is
            let input = sharp::Input { room: (2 * 256, 8 * 256), ..sharp::random_input(&mut random) };
            if input.channels.len() <= 4 * LONG_RAMP && is_wanted(&OF_BUILT, case, sharp::expected(&input).0) {
                break input;
            }
        };
        let (refusal, stops, _) = sharp::expected(&input);
        words.size(input.channels.len());
        words.floats(&input.channels);
        words.floats(&[input.min, input.max, input.softness]);
        words.word(refusal);
        words.size(stops.len());
        words.size(stops.len());
        stops.iter().for_each(|s| words.float(s.0));
        words.size(4 * stops.len());
        stops.iter().for_each(|s| words.floats(&s.1));
        words.record_done(refusal, 3);
    }
    words.printed("sharp");
}
