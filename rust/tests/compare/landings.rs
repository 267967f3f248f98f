//! Landings: request [1].

use crate::common::inputs::{all_landings, any_record, policy, right_layout};
use crate::common::{cases, Rng, Tally};
use crate::install::install;
use crate::run::{run, Lent};
use hemdroas::model::Command;
use hemdroas::names::{CELL_BITS, LANDING_CELLS, REGISTERS};
use hemdroas::{Ending, Layout, Record};

/// Each landing alone, all, one too many; and lists that rise, stay or fall, at
/// the end, after rising entries and before them.
fn lists() -> Vec<Vec<u32>> {
    let mut lists = vec![vec![], all_landings(), (0..1025).collect()];
    lists.extend((0..1024).map(|landing| vec![landing]));
    lists.extend((0..64).map(|k| vec![k, 16 * k, 16 * k, 1023]));
    lists.extend((0..64).map(|k| vec![k, 64, 1023, 1024 << (k / 4)]));
    for near in [0, 1, 31, 32, 33, 1021, 1022, 1023, 1024, 1 << 31, u32::MAX] {
        lists.push(vec![near]);
        for other in [0, 1, 5, 31, 32, 1022, 1023, 1024, u32::MAX] {
            lists.push(vec![other, near]);
            lists.push(vec![0, 1, 2, other, near]);
            lists.push(vec![other, near, 1020, 1023]);
        }
    }
    lists
}

/// Each cause of bad landing list (14), and lists that are just right. The old
/// contents of the cells make no difference.
#[test]
fn landing_lists() {
    let (mut tally, mut rng) = Tally::new("landing lists", 13);
    for list in lists() {
        let equal = list.windows(2).any(|next| next[0] == next[1]);
        let falling = list.windows(2).any(|next| next[0] > next[1]);
        let above = list.iter().any(|&landing| landing > 1023);
        for _ in 0..cases(3) {
            let layout = right_layout(&mut rng, 1);
            let policy = policy(&mut rng, layout.states, 80);
            let mut memory = rng.cells(layout.size as usize);
            let record = any_record(&mut rng);
            let lend = policy.lend();
            let (answer, _) = install(&mut tally, &layout, &lend, &list, &mut memory, record);
            let refused = equal || falling || above;
            assert_eq!(answer.number(), if refused { 14 } else { 0 }, "{list:?}");
        }
        // Alone, so that nothing else can have caused the answer.
        tally.note(
            "14 for two alike",
            cases(3) * u64::from(equal && !falling && !above),
        );
        tally.note(
            "14 for two falling",
            cases(3) * u64::from(falling && !equal && !above),
        );
        tally.note(
            "14 for an entry above 1,023",
            cases(3) * u64::from(above && !equal && !falling),
        );
    }
    tally.conclude(&[("install", &[0, 14])]);
}

const CAUSES: [&str; 4] = [
    "26 below the base",
    "26 between two bundles",
    "26 past instruction 1,023",
    "26 for a bit that is clear",
];

/// Why a jump's target is no landing, if it is none.
fn cause(layout: &Layout, memory: &[u32], target: u32) -> Option<&'static str> {
    let Some(offset) = target.checked_sub(layout.base) else {
        return Some(CAUSES[0]);
    };
    let j = offset / 4;
    if offset % 4 != 0 {
        Some(CAUSES[1])
    } else if j > 1023 {
        Some(CAUSES[2])
    } else if memory[(layout.landings + j / CELL_BITS) as usize] >> (j % CELL_BITS) & 1 == 0 {
        Some(CAUSES[3])
    } else {
        None
    }
}

const LATER: &str = "26 again in a later run";
const UNTAKEN: &str = "not taken, to no landing";
const LANDS: &str = "to a landing";

/// A base and a target near it, with the instruction that it would be.
fn some_target(rng: &mut Rng, base: u32) -> (u32, u32) {
    let j = match rng.below(6) {
        0 => rng.between(1022, 1026) as u32,
        1 => rng.under(2048),
        2 => rng.word() >> 2,
        _ => rng.under(8),
    };
    let target = match rng.below(4) {
        0 => base.wrapping_sub(4 * (1 + j % 1024)),
        1 => base.wrapping_add(4 * j + 1 + rng.under(3)),
        _ => base.wrapping_add(4 * j),
    };
    (target, j)
}

/// Jumps through a register, taken and not, to landings and to each kind of target
/// that is none. The machine then runs on from where it is. A jump to a landing is
/// taken even past the list's end.
#[test]
fn jumps() {
    let (mut tally, mut rng) = Tally::new("jumps", 14);
    for what in CAUSES.into_iter().chain([LATER, UNTAKEN, LANDS]) {
        tally.note(what, 0);
    }
    for turn in 0..cases(20_000) {
        let mut layout = right_layout(&mut rng, 1);
        if rng.chance(50) {
            layout.base = rng.pick(&[0, 3, 65_536, u32::MAX - 4095, u32::MAX - 100, 4096]);
        }
        let (target, j) = some_target(&mut rng, layout.base);
        let (d, a, b, c) = (
            rng.below(REGISTERS),
            rng.below(REGISTERS),
            rng.below(REGISTERS),
            rng.under(4),
        );
        let (d, a, b) = (d as u32, a as u32, b as u32);
        let length = rng.between(1, 12);
        let at = rng.below(length);
        let mut list = vec![Command::Nop.word(); length];
        list[at] = Command::GoReg { d, a, b, c }.word();

        let mut record = Record([0; Record::LENGTH]);
        for register in &mut record.0[..REGISTERS] {
            *register = rng.pick(&[0, 1, target, u32::MAX]);
        }
        record.0[d as usize] = target;
        record.0[Record::PC] = layout.base.wrapping_add(at as u32);
        // All bits are set or none, sometimes except the target's.
        let mut memory = rng.cells(layout.size as usize);
        let cells = layout.landings as usize..(layout.landings + LANDING_CELLS) as usize;
        memory[cells.clone()].fill(if turn % 2 == 0 { u32::MAX } else { 0 });
        if rng.chance(50) {
            memory[cells][(j / CELL_BITS % LANDING_CELLS) as usize] ^= 1 << (j % CELL_BITS);
        }
        let mut lent = Lent {
            record,
            memory,
            log: Vec::new(),
        };
        let before = lent.clone();
        let answer = run(&mut tally, &layout, &list, &mut lent, 1, &[]);
        let cause = cause(&layout, &before.memory, target);
        match (answer.ending, cause) {
            (Ending::NoLanding, Some(cause)) => {
                tally.note(cause, 1);
                let mut stopped = before;
                stopped.record.0[Record::STATUS] = 4;
                assert_eq!(lent, stopped, "only the status changes");
                assert_eq!(answer.steps, 1, "the jump is a step");
                let again = run(&mut tally, &layout, &list, &mut lent, 9, &[]);
                assert_eq!((again.ending, again.steps), (Ending::NoLanding, 0));
                tally.note(LATER, 1);
            }
            (Ending::NoLanding, None) => panic!("{target} is a landing under {layout:?}"),
            (_, Some(_)) => tally.note(UNTAKEN, 1),
            (_, None) => tally.note(LANDS, 1),
        }
    }
    tally.conclude(&[]);
}
