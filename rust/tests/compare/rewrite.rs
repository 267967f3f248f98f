//! Rewriting.

use crate::check::check;
use crate::common::inputs::{altered_layout, damaged_routine, length, output, right_layout, room};
use crate::common::{cases, Tally};
use crate::write::each_bit_of_an_instruction;
use hemdroas::model::{self, bundles};
use hemdroas::{native, Answer, Layout};

const NUMBERS: [u32; 9] = [0, 2, 3, 4, 5, 7, 8, 9, 13];

pub fn rewrite(
    tally: &mut Tally,
    layout: &Layout,
    words: &[u64],
    commands: &[u64],
) -> (Answer, Vec<u64>) {
    let mut expected = commands.to_vec();
    let answer = model::rewrite(layout, words, &mut expected);
    let mut commands = commands.to_vec();
    let given = native::rewrite(layout, words, &mut commands);
    assert_eq!(given, answer, "rewriting {words:x?} under {layout:?}");
    assert_eq!(
        commands, expected,
        "commands of {words:x?} under {layout:?}"
    );
    tally.count("rewrite", answer.number());
    (answer, expected)
}

#[test]
fn rewriting() {
    let (mut tally, mut rng) = Tally::new("rewriting", 3);
    let layout = right_layout(&mut rng, 4);
    for word in each_bit_of_an_instruction() {
        let _ = rewrite(&mut tally, &layout, &[0, word, 0], &[!0; 17]);
    }
    for _ in 0..cases(20_000) {
        let n = length(&mut rng);
        let mut layout = right_layout(&mut rng, bundles(n));
        let words = damaged_routine(&mut rng, &layout, n);
        match rng.below(12) {
            0 => layout = altered_layout(&mut rng, &layout),
            1 => layout.base ^= 1 << rng.below(13),
            _ => {}
        }
        let room = room(&mut rng, 4 * bundles(n));
        let commands = output(&mut rng, room);
        let (answer, commands) = rewrite(&mut tally, &layout, &words, &commands);
        if let Answer::Taken(size) = answer {
            let checked = check(&mut tally, &layout, &commands[..size as usize]);
            assert_eq!(checked, Answer::Taken(0), "what is rewritten passes");
        }
    }
    tally.conclude(&[("rewrite", &NUMBERS)]);
}
