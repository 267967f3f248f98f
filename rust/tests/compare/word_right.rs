//! The test of four bytes of a policy's table as one word.

use crate::common::{cases, Tally};
use hemdroas::{model, native};

fn word_right(tally: &mut Tally, states: u32, bytes: [u8; 4]) {
    let word = u32::from_le_bytes(bytes);
    let answer = native::word_right(states, word);
    let expected = model::word_right(states, word);
    assert_eq!(answer, expected, "{word:08x} for {states} states");
    tally.count("word_right", u32::from(answer));
}

/// Each byte at each place of a word, beside right bytes and one that may be wrong,
/// for 0 to 20 states and some larger numbers.
#[test]
fn testing_a_word() {
    let (mut tally, mut rng) = Tally::new("testing a word", 6);
    for states in (0..=20).chain([31, 32, 127, 128, 129, 255, 256, 272, 1 << 31, u32::MAX]) {
        let last = states.wrapping_sub(1) as u8;
        for beside in [0, last, 255, 254, last.wrapping_add(1)] {
            for place in 0..4 {
                for byte in 0..=255 {
                    let mut bytes = [beside; 4];
                    bytes[place] = byte;
                    word_right(&mut tally, states, bytes);
                }
            }
        }
        for _ in 0..cases(20_000) {
            let mut near =
                || rng.pick(&[0, last, last, last.wrapping_add(1), 127, 128, 254, 255, 255]);
            let bytes = [near(), near(), near(), near()];
            word_right(&mut tally, states, bytes);
            word_right(&mut tally, states, rng.word().to_le_bytes());
        }
    }
    tally.conclude(&[("word_right", &[0, 1])]);
}
