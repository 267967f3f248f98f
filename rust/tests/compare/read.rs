//! Reading a routine's bytes.

use crate::common::inputs::{announced, output, room, some_bytes};
use crate::common::{cases, Tally};
use hemdroas::names::MOST_INSTRUCTIONS;
use hemdroas::{model, native, Answer};

const NUMBERS: [u32; 8] = [0, 1, 2, 3, 4, 5, 6, 9];

pub fn read(tally: &mut Tally, bytes: &[u8], words: &[u64]) -> (Answer, Vec<u64>) {
    let mut expected = words.to_vec();
    let answer = model::read(bytes, &mut expected);
    let mut words = words.to_vec();
    let given = native::read(bytes, &mut words);
    assert_eq!(given, answer, "reading {bytes:02x?}");
    assert_eq!(words, expected, "words of {bytes:02x?}");
    tally.count("read", answer.number());
    (answer, expected)
}

#[test]
fn reading() {
    let (mut tally, mut rng) = Tally::new("reading", 1);
    for _ in 0..cases(30_000) {
        let bytes = some_bytes(&mut rng);
        let needed = announced(&bytes).min(MOST_INSTRUCTIONS + 2);
        let room = room(&mut rng, needed);
        let words = output(&mut rng, room);
        if let (Answer::Taken(count), words) = read(&mut tally, &bytes, &words) {
            // Bytes that reading takes are written again as the same bytes.
            let mut again = vec![0; bytes.len()];
            let size = native::write(&words[..count as usize], &mut again);
            assert_eq!((size, &again), (Answer::Taken(bytes.len() as u32), &bytes));
        }
    }
    tally.conclude(&[("read", &NUMBERS)]);
}
