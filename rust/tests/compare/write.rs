//! Writing a routine's bytes.

use crate::common::inputs::{damaged_routine, instr_word, length, room, TRIAL};
use crate::common::{cases, Tally};
use hemdroas::{model, native, Answer};

const NUMBERS: [u32; 6] = [0, 2, 3, 4, 5, 9];

pub fn write(tally: &mut Tally, words: &[u64], bytes: &[u8]) -> (Answer, Vec<u8>) {
    let mut expected = bytes.to_vec();
    let answer = model::write(words, &mut expected);
    let mut bytes = bytes.to_vec();
    let given = native::write(words, &mut bytes);
    assert_eq!(given, answer, "writing {words:x?}");
    assert_eq!(bytes, expected, "bytes of {words:x?}");
    tally.count("write", answer.number());
    (answer, expected)
}

/// Every kind of instruction alone, with each single bit of its word flipped, and
/// with each bit flipped beside a field at its limit.
pub fn each_bit_of_an_instruction() -> Vec<u64> {
    let mut words: Vec<u64> = (0..256)
        .map(|kind| instr_word(kind, 0, 0, 0, 0, 0))
        .collect();
    for kind in 0..14 {
        let bare = instr_word(kind, 0, 0, 0, 0, 0);
        for bit in 8..64 {
            for more in [0, 0x0_0f00, 0x0_f000, 0xf_0000, 0x3f << 32] {
                words.push(bare ^ 1 << bit ^ more);
            }
        }
    }
    words
}

#[test]
fn writing() {
    let (mut tally, mut rng) = Tally::new("writing", 2);
    for word in each_bit_of_an_instruction() {
        let _ = write(&mut tally, &[0, word, 0], &[0x5a; 40]);
    }
    for _ in 0..cases(20_000) {
        let n = length(&mut rng);
        let words = damaged_routine(&mut rng, &TRIAL, n);
        let mut large = vec![0; 2 + 10 * words.len()];
        let needed = match native::write(&words, &mut large) {
            Answer::Taken(size) => size as usize,
            _ => rng.below(large.len()),
        };
        let room = room(&mut rng, needed);
        let mark = rng.byte();
        if let (Answer::Taken(size), bytes) = write(&mut tally, &words, &vec![mark; room]) {
            // Words that writing takes are read again as the same words.
            let mut again = vec![0; words.len()];
            let count = native::read(&bytes[..size as usize], &mut again);
            assert_eq!((count, &again), (Answer::Taken(words.len() as u32), &words));
        }
    }
    tally.conclude(&[("write", &NUMBERS)]);
}
