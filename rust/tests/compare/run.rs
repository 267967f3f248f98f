//! Running and previewing.

use crate::check::check;
use crate::common::inputs::{
    altered_layout, any_command, any_record, damage_word, is_free, landings, layout_and_routine,
    number, policy, rewritten, right_layout, shaped_list,
};
use crate::common::{cases, Rng, Tally};
use crate::install::install;
use hemdroas::model::{self, Command};
use hemdroas::names::{EVENTS, MOST_CELLS, REGISTERS};
use hemdroas::{native, Answer, Ending, Layout, Record, RunAnswer, Status};

const NUMBERS: [u32; 8] = [7, 20, 21, 22, 23, 24, 25, 26];

/// What a run is lent beside its list.
#[derive(Clone, Debug, PartialEq)]
pub struct Lent {
    pub record: Record,
    pub memory: Vec<u32>,
    pub log: Vec<u32>,
}

const ABOVE: &str = "run and preview of a status above 4";

/// Previews, then runs. A preview is 'equal to a run on a copy of memory and
/// record'; 'the real memory and record remain untouched'.
pub fn run(
    tally: &mut Tally,
    layout: &Layout,
    commands: &[u64],
    lent: &mut Lent,
    budget: u32,
    readings: &[u32],
) -> RunAnswer {
    let input = || {
        let record = lent.record;
        format!("{commands:x?} from {record:?} under {layout:?}, {budget}, {readings:?}")
    };
    let mut left = lent.clone();
    let (memory, log) = (&mut left.memory, &mut left.log);
    let answer = left
        .record
        .run(|machine| model::run(layout, commands, machine, memory, budget, readings, log));

    let mut theirs = lent.clone();
    let Lent {
        record,
        memory,
        log,
    } = &mut theirs;
    let given = native::run_record(layout, commands, record, memory, budget, readings, log);
    assert_eq!(given, answer, "running {}", input());
    assert_eq!(theirs, left, "what was lent to {}", input());

    let mut seen = lent.clone();
    let mut after = Record([0xc0ff_ee00; Record::LENGTH]);
    let lent_work = vec![0xc0ff_ee00; lent.memory.len()];
    let mut work = lent_work.clone();
    let given = native::preview_record(
        layout,
        commands,
        &seen.record,
        &seen.memory,
        &mut work,
        budget,
        readings,
        &mut seen.log,
        &mut after,
    );
    assert_eq!(given, answer, "previewing {}", input());
    assert_eq!((after, &seen.log), (left.record, &left.log), "previewed");
    assert_eq!(seen.record, lent.record, "a preview keeps the record");
    assert_eq!(seen.memory, lent.memory, "a preview keeps the memory");
    let foreseen = match answer.ending {
        Ending::Refused => &lent_work,
        _ => &left.memory,
    };
    assert_eq!(&work, foreseen, "what a preview leaves in its work");

    let number = answer.ending.number();
    if lent.record.0[Record::STATUS] > Status::Strayed.number() {
        // It counts as faulted, and stays as it was.
        let zeros = (answer.steps, answer.pairs, answer.readings);
        assert_eq!((&left, zeros), (&*lent, (0, 0, 0)), "{}", input());
        tally.count(ABOVE, number);
    }
    tally.count("run", number);
    tally.count("preview", number);
    tally.add("steps", u64::from(answer.steps));
    tally.add("pairs", u64::from(answer.pairs));
    tally.add("readings", u64::from(answer.readings));
    *lent = left;
    answer
}

pub fn some_budget(rng: &mut Rng) -> u32 {
    let budget = match rng.below(10) {
        0 => 0,
        1 => 1,
        2..=4 => rng.between(2, 12),
        5..=8 => rng.between(13, 400),
        _ => rng.between(401, 3000),
    };
    budget as u32
}

pub fn some_log(rng: &mut Rng) -> Vec<u32> {
    let length = match rng.below(6) {
        0 => rng.below(4),
        1 | 2 => rng.between(2, 12),
        _ => rng.between(12, 200),
    };
    let mark = rng.word();
    vec![mark; length]
}

pub fn some_readings(rng: &mut Rng) -> Vec<u32> {
    let length = match rng.below(6) {
        0 => rng.below(3),
        1 | 2 => rng.between(1, 8),
        _ => rng.between(8, 100),
    };
    rng.cells(length)
}

/// Runs with any budget and readings.
pub fn run_on(
    tally: &mut Tally,
    rng: &mut Rng,
    layout: &Layout,
    list: &[u64],
    lent: &mut Lent,
) -> RunAnswer {
    let budget = some_budget(rng);
    let readings = some_readings(rng);
    run(tally, layout, list, lent, budget, &readings)
}

/// A memory, and a record at the first command whose registers are mostly addresses
/// of cells.
fn at_first_command(rng: &mut Rng, layout: &Layout, log: usize) -> Lent {
    let mut memory = rng.cells(layout.size as usize);
    memory[layout.cell as usize] = rng.under(layout.states);
    let mut record = Record([0; Record::LENGTH]);
    for register in &mut record.0[..REGISTERS] {
        *register = match rng.below(4) {
            0 => number(rng, layout),
            _ => rng.under(layout.size),
        };
    }
    record.0[Record::PC] = layout.base;
    Lent {
        record,
        memory,
        log: vec![7; log],
    }
}

/// One step of each kind of command with each single bit of its word flipped, and
/// with field v at its bounds.
fn each_bit_of_a_command(tally: &mut Tally, rng: &mut Rng) {
    let layout = right_layout(rng, 1);
    for kind in 0..256 {
        for bit in 8..64 {
            for v in [0, 15, 31, u64::from(u32::MAX)] {
                let word = (kind | v << 32) ^ 1 << bit;
                let mut lent = at_first_command(rng, &layout, 4);
                let _ = run(tally, &layout, &[word], &mut lent, 1, &[70]);
                if kind > 20 {
                    break;
                }
            }
        }
    }
}

/// Each event with each pause at its bound.
fn each_pause(tally: &mut Tally, rng: &mut Rng) {
    let layout = right_layout(rng, 1);
    for v in 0..=EVENTS {
        for log in 0..6 {
            for readings in 0..3 {
                for budget in 0..4 {
                    let list = [Command::Event { v }.word(); 3];
                    let mut lent = at_first_command(rng, &layout, log);
                    let readings = &[1800, 1950][..readings];
                    let _ = run(tally, &layout, &list, &mut lent, budget, readings);
                }
            }
        }
    }
}

/// LOOK at the last cell, past it, and where 32 bits would wrap.
fn each_look(tally: &mut Tally, rng: &mut Rng) {
    let layout = right_layout(rng, 1);
    for state in 0..600_u32 {
        for turn in [0, 1 << 28, 1 << 31] {
            let mut lent = at_first_command(rng, &layout, 0);
            lent.memory[layout.cell as usize] = state + turn;
            let v = rng.under(EVENTS);
            let list = [Command::Look { d: 3, v }.word()];
            let _ = run(tally, &layout, &list, &mut lent, 1, &[]);
        }
    }
}

/// Any commands, most of them right.
fn hand_made_list(rng: &mut Rng, layout: &Layout) -> Vec<u64> {
    let length = match rng.below(12) {
        0 => rng.below(3),
        11 => rng.between(40, 300),
        _ => rng.between(3, 40),
    };
    let mut list: Vec<u64> = (0..length)
        .map(|_| any_command(rng, layout, length))
        .collect();
    if length > 0 && rng.chance(20) {
        let at = rng.below(length);
        list[at] = damage_word(rng, list[at]);
    }
    list
}

/// A record for a list, its pc mostly inside it.
fn hand_made_record(rng: &mut Rng, layout: &Layout, length: usize) -> Record {
    let at = |offset: usize| layout.base.wrapping_add(offset as u32);
    let mut record = Record([0; Record::LENGTH]);
    for register in &mut record.0[..REGISTERS] {
        *register = match rng.below(8) {
            0 => number(rng, layout),
            1 => at(rng.below(length + 1)),
            _ => rng.under(layout.size),
        };
    }
    record.0[Record::PC] = match rng.below(20) {
        0 => number(rng, layout),
        1 => layout.base.wrapping_sub(1),
        2 => at(length),
        3 => u32::MAX - rng.under(2),
        _ => at(rng.below(length.max(1))),
    };
    record.0[Record::STATUS] = match rng.below(20) {
        0 => rng.between(1, 4) as u32,
        1 => rng.pick(&[4, 5, 6, 255, 256, 1 << 16, 1 << 31, u32::MAX]),
        _ => 0,
    };
    record
}

/// Lists, records and memories made by hand.
fn hand_made_runs(tally: &mut Tally, rng: &mut Rng) {
    for _ in 0..cases(40_000) {
        let mut layout = right_layout(rng, 1);
        // A run does not need a multiple of 4.
        if rng.chance(20) {
            layout.base = layout.base.wrapping_add(rng.under(8));
        }
        let list = hand_made_list(rng, &layout);
        let mut memory = rng.cells(layout.size as usize);
        // A state that LOOK can use, as under every installed layout.
        if rng.chance(70) {
            memory[layout.cell as usize] = rng.under(layout.states + 1);
        }
        let record = hand_made_record(rng, &layout, list.len());
        match rng.below(30) {
            0 => layout = altered_layout(rng, &layout),
            1 => {
                let cells = memory.len();
                memory.resize(rng.pick(&[cells - 1, cells + 1, 0, 2 * cells]), 0);
            }
            _ => {}
        }
        let log = some_log(rng);
        let mut lent = Lent {
            record,
            memory,
            log,
        };
        // Again from where the last run stopped.
        for _ in 0..rng.between(1, 2) {
            let _ = run_on(tally, rng, &layout, &list, &mut lent);
        }
    }
}

/// Memories near the largest size.
fn long_memories(tally: &mut Tally, rng: &mut Rng) {
    for _ in 0..cases(2_000) {
        let mut layout = right_layout(rng, 1);
        layout.size = rng.between(4095, 4098) as u32;
        let list = hand_made_list(rng, &layout);
        let mut lent = Lent {
            record: any_record(rng),
            memory: rng.cells(layout.size as usize),
            log: some_log(rng),
        };
        lent.record.0[Record::PC] = layout.base;
        lent.record.0[Record::STATUS] = 0;
        let answer = run_on(tally, rng, &layout, &list, &mut lent);
        let long = layout.size > MOST_CELLS;
        assert_eq!(answer.ending == Ending::Refused, long);
        tally.note("memories of more than 4,096 cells", u64::from(long));
    }
}

/// Passed lists, installed and run several times. The host writes free cells in
/// between.
fn runs_in_a_row(tally: &mut Tally, rng: &mut Rng) {
    for _ in 0..cases(12_000) {
        let (layout, list) = if rng.chance(70) {
            let (layout, words) = layout_and_routine(rng);
            (layout, rewritten(&layout, &words))
        } else {
            let bundles = 1 << rng.below(6);
            let layout = right_layout(rng, bundles);
            (layout, shaped_list(rng, &layout, bundles))
        };
        assert_eq!(check(tally, &layout, &list), Answer::Taken(0));
        let arrows = rng.between(60, 100);
        let policy = policy(rng, layout.states, arrows);
        let landings = landings(rng);
        let mut memory = rng.cells(layout.size as usize);
        let before = any_record(rng);
        let lend = policy.lend();
        let (answer, record) = install(tally, &layout, &lend, &landings, &mut memory, before);
        assert_eq!(answer, Answer::Taken(0));
        let mut lent = Lent {
            record,
            memory,
            log: Vec::new(),
        };
        for _ in 0..rng.between(1, 6) {
            lent.log = some_log(rng);
            let answer = run_on(tally, rng, &layout, &list, &mut lent);
            assert_ne!(answer.ending, Ending::Fault, "a passed list never faults");
            for _ in 0..rng.below(4) {
                let cell = rng.under(layout.size);
                if is_free(&layout, cell) {
                    lent.memory[cell as usize] = rng.word();
                }
            }
        }
    }
}

#[test]
fn running() {
    let (mut tally, mut rng) = Tally::new("running", 9);
    each_bit_of_a_command(&mut tally, &mut rng);
    each_pause(&mut tally, &mut rng);
    each_look(&mut tally, &mut rng);
    hand_made_runs(&mut tally, &mut rng);
    long_memories(&mut tally, &mut rng);
    let above = (ABOVE, &[7, 22][..]);
    tally.conclude(&[("run", &NUMBERS), ("preview", &NUMBERS), above]);
}

#[test]
fn running_passed_lists() {
    let (mut tally, mut rng) = Tally::new("running passed lists", 10);
    runs_in_a_row(&mut tally, &mut rng);
    let passed: [u32; 6] = [20, 21, 23, 24, 25, 26];
    tally.conclude(&[("run", &passed), ("preview", &passed)]);
}
