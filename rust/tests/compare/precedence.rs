//! Policies from pairs of events.

use crate::common::inputs::{room, SomePolicy};
use crate::common::{cases, Rng, Tally};
use crate::install::made_installs;
use hemdroas::{model, native, Answer, Made};
use std::collections::BTreeSet;

const NUMBERS: [u32; 3] = [0, 9, 17];

pub fn precedence(tally: &mut Tally, pairs: &[u8], table: &[u8]) -> (Made, Vec<u8>) {
    let (mut expected, mut given) = (table.to_vec(), table.to_vec());
    let made = model::precedence(pairs, &mut expected);
    let theirs = native::precedence(pairs, &mut given);
    assert_eq!(theirs, made, "a policy from {pairs:?}");
    assert_eq!(given, expected, "table of {pairs:?}");
    tally.note(
        "policies that never allow some event",
        u64::from(made.never != 0),
    );
    tally.count("precedence", made.answer.number());
    (made, expected)
}

/// The bytes of the table for a right list of pairs.
fn table_bytes(pairs: &[u8]) -> usize {
    let named: BTreeSet<&u8> = pairs.iter().collect();
    16 << named.len().min(4)
}

/// All lists of 0 to 3 pairs, with and without an odd event, over five events and
/// one above 15. The table is one byte short, just right, or longer; the longest
/// lists try only one of these.
fn each_list_of_pairs(tally: &mut Tally, rng: &mut Rng) {
    let events = [0, 4, 9, 12, 15, 16];
    let mut lists = vec![Vec::new()];
    for length in 0..=6 {
        for list in &lists {
            let bytes = table_bytes(list);
            let rooms = [0, bytes - 1, bytes, bytes + 19];
            let from = rng.below(4);
            let rooms = if length < 6 {
                &rooms
            } else {
                &rooms[from..=from]
            };
            for &room in rooms {
                let mark = rng.byte();
                let _ = precedence(tally, list, &vec![mark; room]);
            }
        }
        if length < 6 {
            lists = lists
                .iter()
                .flat_map(|list| events.map(|event| [list, &[event][..]].concat()))
                .collect();
        }
    }
}

/// Every number as an event, as first and as second, alone and in a pair.
fn each_event_of_a_pair(tally: &mut Tally, rng: &mut Rng) {
    for event in 0..=255 {
        for other in 0..=16 {
            for pairs in [&[event, other][..], &[other, event], &[event]] {
                let mark = rng.byte();
                let _ = precedence(tally, pairs, &[mark; 64]);
            }
        }
    }
}

/// Longer lists of few events, with rings, sometimes spoiled. The policy that is
/// made is installed.
fn lists_of_pairs(tally: &mut Tally, rng: &mut Rng) {
    for _ in 0..cases(20_000) {
        let most = if rng.chance(15) { 6 } else { 4 };
        let events: Vec<u8> = (0..rng.between(1, most))
            .map(|_| rng.below(16) as u8)
            .collect();
        let mut pairs: Vec<u8> = (0..2 * rng.between(0, 9))
            .map(|_| rng.pick(&events))
            .collect();
        match rng.below(20) {
            0 => pairs.push(rng.pick(&events)),
            1 if !pairs.is_empty() => {
                let at = rng.below(pairs.len());
                pairs[at] = rng.pick(&[16, 17, 31, 32, 128, 240, 255]);
            }
            _ => {}
        }
        let room = room(rng, table_bytes(&pairs));
        let mark = rng.byte();
        let (made, mut table) = precedence(tally, &pairs, &vec![mark; room]);
        if let (Answer::Taken(bytes), true) = (made.answer, rng.chance(10)) {
            table.truncate(bytes as usize);
            let (states, start) = (made.states, 0);
            let policy = SomePolicy {
                states,
                start,
                table,
            };
            made_installs(tally, rng, &policy);
        }
    }
}

#[test]
fn making_policies_from_pairs() {
    let (mut tally, mut rng) = Tally::new("policies from pairs", 11);
    each_list_of_pairs(&mut tally, &mut rng);
    each_event_of_a_pair(&mut tally, &mut rng);
    lists_of_pairs(&mut tally, &mut rng);
    tally.conclude(&[("precedence", &NUMBERS)]);
}
