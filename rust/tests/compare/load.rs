//! Loading.

use crate::common::inputs::{
    announced, any_record, base_for, output, right_layout, room, some_bytes,
};
use crate::common::{cases, Tally};
use crate::install::{some_installation, Installation};
use hemdroas::model::{self, bundles};
use hemdroas::names::MOST_INSTRUCTIONS;
use hemdroas::{native, Answer, Layout, Policy, Record};

/// What loading can answer. The checker passes all that was rewritten, so bad bundle
/// (11) and bad count (12) are missing.
const NUMBERS: [u32; 13] = [0, 1, 2, 3, 4, 5, 6, 7, 8, 9, 10, 13, 14];

/// What a load is lent.
#[derive(Clone, Debug, PartialEq)]
pub struct Lent {
    pub commands: Vec<u64>,
    pub memory: Vec<u32>,
    pub record: Record,
}

pub fn load(
    tally: &mut Tally,
    layout: &Layout,
    policy: &Policy,
    landings: &[u32],
    bytes: &[u8],
    lent: &Lent,
) -> Answer {
    let mut left = lent.clone();
    let (commands, memory) = (&mut left.commands, &mut left.memory);
    let (answer, machine) = model::load(layout, policy, landings, bytes, commands, memory);
    left.record = machine.to_record();

    let mut theirs = lent.clone();
    let Lent {
        commands,
        memory,
        record,
    } = &mut theirs;
    let given = native::load_record(layout, policy, landings, bytes, commands, memory, record);
    let input = || format!("{bytes:02x?}, {policy:?} and {landings:?} under {layout:?}");
    assert_eq!(given, answer, "loading {}", input());
    assert_eq!(theirs, left, "what was lent to the load of {}", input());
    tally.count("load", answer.number());
    answer
}

#[test]
fn loading() {
    let (mut tally, mut rng) = Tally::new("loading", 8);
    for _ in 0..cases(30_000) {
        let bytes = some_bytes(&mut rng);
        let bundles = bundles(announced(&bytes).min(MOST_INSTRUCTIONS));
        let mut layout = right_layout(&mut rng, bundles);
        if rng.chance(10) {
            layout.base = base_for(&mut rng, 1);
        }
        let Installation {
            layout,
            policy,
            landings,
            cells,
        } = some_installation(&mut rng, layout);
        let room = room(&mut rng, 4 * bundles);
        let lent = Lent {
            commands: output(&mut rng, room),
            memory: rng.cells(cells),
            record: any_record(&mut rng),
        };
        let lend = policy.lend();
        let answer = load(&mut tally, &layout, &lend, &landings, &bytes, &lent);
        let memory_alone = answer.number() == 7 && model::layout_right(&layout);
        tally.note("refused for the memory alone", u64::from(memory_alone));
    }
    tally.conclude(&[("load", &NUMBERS)]);
}
