//! Installing.

use crate::common::inputs::{
    altered_layout, any_record, landings, layout_of_states, policy, right_layout, SomePolicy,
};
use crate::common::{cases, Rng, Tally};
use hemdroas::{model, native, Answer, Layout, Policy, Record};

const NUMBERS: [u32; 4] = [0, 7, 10, 14];

/// Installs into `memory`, and gives the record.
pub fn install(
    tally: &mut Tally,
    layout: &Layout,
    policy: &Policy,
    landings: &[u32],
    memory: &mut Vec<u32>,
    record: Record,
) -> (Answer, Record) {
    let (mut cells, mut given) = (memory.clone(), record);
    let (answer, machine) = model::install(layout, policy, landings, memory);
    let input = || format!("{policy:?} and {landings:?} under {layout:?}");
    let theirs = native::install_record(layout, policy, landings, &mut cells, &mut given);
    assert_eq!(theirs, answer, "installing {}", input());
    assert_eq!(given, machine.to_record(), "record of {}", input());
    assert_eq!(cells, *memory, "memory of {}", input());
    tally.count("install", answer.number());
    (answer, given)
}

/// Installs a policy that was made.
pub fn made_installs(tally: &mut Tally, rng: &mut Rng, policy: &SomePolicy) {
    let layout = layout_of_states(rng, 1, policy.states);
    let mut memory = rng.cells(layout.size as usize);
    let record = any_record(rng);
    let (answer, _) = install(tally, &layout, &policy.lend(), &[], &mut memory, record);
    assert_eq!(answer, Answer::Taken(0), "installing {policy:?}");
}

/// What is installed, where, and in how many cells.
pub struct Installation {
    pub layout: Layout,
    pub policy: SomePolicy,
    pub landings: Vec<u32>,
    pub cells: usize,
}

/// An entry too large, two equal ones, or two in the wrong order; at either end of
/// the list or inside.
fn damage_landings(rng: &mut Rng, landings: &mut Vec<u32>) {
    let length = landings.len();
    match rng.below(5) {
        0 => landings.push(rng.pick(&[1023, 1024, 1025, 65_536 + 5, 1 << 31, u32::MAX])),
        1 if length > 0 => {
            let at = rng.below(length);
            landings[at] = rng.pick(&[0, 1023, 1024, u32::MAX]);
        }
        2 if length > 0 => {
            let at = rng.below(length);
            landings.insert(at, landings[at]);
        }
        3 if length > 1 => {
            let at = rng.below(length - 1);
            landings.swap(at, at + 1);
        }
        _ => landings.push(rng.under(1024)),
    }
}

/// A policy and landings for a layout, with up to two things spoiled.
pub fn some_installation(rng: &mut Rng, mut layout: Layout) -> Installation {
    let mut policy = policy(rng, layout.states, 80);
    let mut landings = landings(rng);
    let mut cells = layout.size as usize;
    let states = layout.states;
    let (fewer, more) = (states.wrapping_sub(1), states.wrapping_add(1));
    for _ in 0..rng.below(3) {
        let table = &mut policy.table;
        match rng.below(11) {
            0 => policy.start = rng.pick(&[fewer, states, more, 255, u32::MAX]),
            1 => policy.states = rng.pick(&[fewer, more, 0, 16, u32::MAX]),
            2 => table.truncate(rng.below(table.len() + 1)),
            3 => table.resize(table.len() + rng.between(1, 17), 0),
            4 if !table.is_empty() => {
                let at = rng.below(table.len());
                table[at] = rng.pick(&[fewer as u8, states as u8, 254, 255, 16, 17]);
            }
            5 if !table.is_empty() => {
                let last = table.len() - 1;
                table[last] = rng.byte();
            }
            6 => layout = altered_layout(rng, &layout),
            7 | 8 => damage_landings(rng, &mut landings),
            9 => cells = rng.pick(&[cells.saturating_sub(1), cells + 1, 0, 4096]),
            _ => {}
        }
    }
    Installation {
        layout,
        policy,
        landings,
        cells,
    }
}

/// Each number of states, with bytes at the bounds at each place of the table.
fn each_byte_of_a_table(tally: &mut Tally, rng: &mut Rng) {
    for states in 1..=16 {
        let layout = layout_of_states(rng, 1, states);
        let right = policy(rng, states, 50);
        for at in 0..right.table.len() {
            let near = states as u8;
            for byte in [near - 1, near, 16, 127, 128, 254, 255] {
                let mut policy = right.clone();
                policy.table[at] = byte;
                let mut memory = rng.cells(layout.size as usize);
                let record = any_record(rng);
                let _ = install(tally, &layout, &policy.lend(), &[], &mut memory, record);
            }
        }
    }
}

#[test]
fn installing() {
    let (mut tally, mut rng) = Tally::new("installing", 7);
    each_byte_of_a_table(&mut tally, &mut rng);
    for _ in 0..cases(15_000) {
        let layout = right_layout(&mut rng, 1);
        let Installation {
            layout,
            policy,
            landings,
            cells,
        } = some_installation(&mut rng, layout);
        let mut memory = rng.cells(cells);
        let record = any_record(&mut rng);
        let policy = policy.lend();
        let _ = install(&mut tally, &layout, &policy, &landings, &mut memory, record);
    }
    tally.conclude(&[("install", &NUMBERS)]);
}
