//! Isolation, tested by running passed lists several times. Cells outside the sandbox
//! stay as the host left them, and table and landings as installed. The state cell
//! follows the policy. Nothing depends on free cells or on old log contents.

use crate::common::inputs::{
    altered_layout, any_command, damage_word, is_free, landings, layout_and_routine, policy,
    shaped_bundle, shaped_list, SomePolicy,
};
use crate::common::{cases, Rng, Tally};
use hemdroas::model::{bundles, Command};
use hemdroas::names::{CELL_BITS, LANDING_CELLS};
use hemdroas::native::{check, install, rewrite, run};
use hemdroas::{Answer, Ending, Layout, Machine, RunAnswer, Status};

/// What one run is given. Budgets, readings and log lengths are the same in both
/// worlds.
struct Given {
    budget: u32,
    readings: Vec<u32>,
    log: usize,
}

/// What a run shows.
#[derive(Debug, PartialEq)]
struct Seen {
    answer: RunAnswer,
    pairs: Vec<u32>,
    machine: Machine,
    state: u32,
    sandbox: Vec<u32>,
}

/// Installs and runs a list in a memory with its own free cells, and tests that
/// every cell is protected.
#[allow(clippy::too_many_arguments)]
fn world(
    rng: &mut Rng,
    tally: &mut Tally,
    layout: &Layout,
    list: &[u64],
    policy: &SomePolicy,
    landings: &[u32],
    sandbox: &[u32],
    given: &[Given],
) -> Vec<Seen> {
    let inside = layout.low as usize..=layout.high as usize;
    let mut memory: Vec<u32> = (0..layout.size).map(|_| rng.word()).collect();
    memory[inside.clone()].copy_from_slice(sandbox);
    let mut canaries = memory.clone();

    let (answer, mut machine) = install(layout, &policy.lend(), landings, &mut memory);
    assert_eq!(answer, Answer::Taken(0));
    canaries[layout.cell as usize] = policy.start;
    for (at, &to) in policy.table.iter().enumerate() {
        canaries[layout.table as usize + at] = u32::from(to);
    }
    let bits = layout.landings as usize..(layout.landings + LANDING_CELLS) as usize;
    canaries[bits.clone()].fill(0);
    for landing in landings {
        canaries[bits.clone()][(landing / CELL_BITS) as usize] |= 1 << (landing % CELL_BITS);
    }
    assert_eq!(memory, canaries, "installing writes nothing else");

    let mut events = Vec::new();
    let mut seen = Vec::new();
    for given in given {
        let old: Vec<u32> = (0..given.log).map(|_| rng.word()).collect();
        let mut log = old.clone();
        let before = memory[inside.clone()].to_vec();
        let answer = run(
            layout,
            list,
            &mut machine,
            &mut memory,
            given.budget,
            &given.readings,
            &mut log,
        );
        let written = 2 * answer.pairs as usize;
        assert_eq!(log[written..], old[written..], "the log past its pairs");
        // All cells but sandbox and state cell are as before.
        canaries[inside.clone()].copy_from_slice(&memory[inside.clone()]);
        canaries[layout.cell as usize] = memory[layout.cell as usize];
        assert_eq!(memory, canaries, "under {layout:?}, list {list:x?}");
        assert_ne!(answer.ending, Ending::Fault, "a passed list never faults");

        // No order is recorded above its ceiling.
        for pair in log[..written].chunks_exact(2) {
            if let Some(&ceiling) = layout.ceilings.get(pair[0] as usize) {
                assert!(pair[1] <= ceiling, "{pair:?} under {layout:?}");
                tally.note("orders at their ceiling", u64::from(pair[1] == ceiling));
            }
        }

        // The policy allows the recorded events, and the state cell has the state after
        // them, also at pauses. On the fourth command of an event bundle, which only
        // spent (25) shows, the last event is missing.
        events.extend(log[..written].chunks_exact(2).map(|pair| pair[0]));
        let behind =
            machine.status == Status::Running && is_keep(list[(machine.pc - layout.base) as usize]);
        tally.note(BEHIND, u64::from(behind));
        let paused = matches!(answer.ending, Ending::LogFull | Ending::Silent);
        tally.note(PAUSED, u64::from(paused));
        assert!(!behind || answer.ending == Ending::Spent);
        let state = memory[layout.cell as usize];
        let kept = events.len() - usize::from(behind);
        assert_eq!(follow(policy, policy.start, &events[..kept]), state);
        let _ = follow(policy, state, &events[kept..]);

        // Lists that do nothing would be isolated too, so the endings are counted.
        tally.count("run", answer.ending.number());
        tally.note("steps", u64::from(answer.steps));
        tally.note("pairs", u64::from(answer.pairs));
        let after = &memory[inside.clone()];
        let altered = before.iter().zip(after).filter(|(x, y)| x != y).count();
        tally.note("cells altered", altered as u64);
        seen.push(Seen {
            answer,
            pairs: log[..written].to_vec(),
            machine,
            state,
            sandbox: memory[inside.clone()].to_vec(),
        });

        // The host writes free cells, different ones in each world.
        for _ in 0..rng.below(8) {
            let cell = rng.under(layout.size);
            if is_free(layout, cell) {
                memory[cell as usize] = rng.word();
                canaries[cell as usize] = memory[cell as usize];
            }
        }
    }
    seen
}

/// Runs a passed list in two worlds that differ in free cells and old logs.
fn two_worlds(rng: &mut Rng, tally: &mut Tally, layout: &Layout, list: &[u64]) {
    let arrows = rng.between(75, 100);
    let policy = policy(rng, layout.states, arrows);
    let landings = landings(rng);
    let length = (layout.high - layout.low + 1) as usize;
    let sandbox = rng.cells(length);
    let given: Vec<Given> = (0..rng.between(2, 7))
        .map(|_| {
            let budget = match rng.below(5) {
                0 => rng.below(8),
                1 => rng.between(300, 2000),
                _ => rng.between(8, 300),
            };
            let readings = rng.pick(&[0, 1, 5, 60]);
            Given {
                budget: budget as u32,
                readings: rng.cells(readings),
                log: rng.pick(&[0, 1, 2, 5, 40, 300]),
            }
        })
        .collect();
    let mut enter = || {
        world(
            rng, tally, layout, list, &policy, &landings, &sandbox, &given,
        )
    };
    let (one, other) = (enter(), enter());
    assert_eq!(one, other, "two worlds under {layout:?}, list {list:x?}");
    tally.note("lists", 1);
}

const PAUSED: &str = "pauses for log or probe, with the state cell looked at";
const BEHIND: &str = "budgets spent between EVENT and KEEP";

fn is_keep(word: u64) -> bool {
    matches!(Command::of_word(word), Some(Command::Keep { .. }))
}

/// The state after events that are all allowed.
fn follow(policy: &SomePolicy, from: u32, events: &[u32]) -> u32 {
    events.iter().fold(from, |state, &event| {
        let to = policy.lend().after(state, event);
        to.unwrap_or_else(|| panic!("no arrow for {event} in state {state}"))
    })
}

/// The endings of passed lists: all but fault (22).
const ENDINGS: [u32; 6] = [20, 21, 23, 24, 25, 26];

fn rewritten(layout: &Layout, words: &[u64]) -> Vec<u64> {
    let mut list = vec![0; 4 * bundles(words.len())];
    let size = list.len() as u32;
    assert_eq!(rewrite(layout, words, &mut list), Answer::Taken(size));
    list
}

#[test]
fn rewritten_routines_are_isolated() {
    let (mut tally, mut rng) = Tally::new("isolation, rewritten routines", 21);
    for _ in 0..cases(12_000) {
        let (layout, words) = layout_and_routine(&mut rng);
        let list = rewritten(&layout, &words);
        assert_eq!(check(&layout, &list), Answer::Taken(0));
        two_worlds(&mut rng, &mut tally, &layout, &list);
    }
    tally.conclude(&[("run", &ENDINGS)]);
}

#[test]
fn whatever_layout_is_taken_isolates() {
    let (mut tally, mut rng) = Tally::new("isolation, altered layouts", 22);
    let mut taken = 0;
    while taken < cases(8000) {
        let (right, words) = layout_and_routine(&mut rng);
        let layout = altered_layout(&mut rng, &right);
        if layout == right {
            continue;
        }
        let mut list = vec![0; 4 * bundles(words.len())];
        let refused = !rewrite(&layout, &words, &mut list).is_taken();
        tally.note("layouts refused", u64::from(refused));
        if !refused {
            taken += 1;
            assert_eq!(check(&layout, &list), Answer::Taken(0));
            two_worlds(&mut rng, &mut tally, &layout, &list);
        }
    }
    tally.conclude(&[("run", &ENDINGS)]);
}

/// Alters a list somewhere, in ways that a checker might overlook.
fn mutate(rng: &mut Rng, layout: &Layout, list: &mut [u64]) {
    let size = list.len();
    let (x, y) = (rng.below(size), rng.below(size));
    match rng.below(12) {
        0 | 1 => list[x] ^= 1 << rng.below(64),
        2 | 3 => list[x] ^= 1 << rng.between(8, 23),
        4 => list[x] ^= 1 << rng.between(32, 44),
        5 => list[x] = damage_word(rng, list[x]),
        6 => list[x] = any_command(rng, layout, size),
        7 => list.swap(x, y),
        8 => list[x] = list[y],
        9 => {
            // The first command of one bundle replaces that of another.
            list[x & !3] = list[y & !3];
        }
        10 => {
            let target = layout.base.wrapping_add(rng.below(size + 2) as u32);
            list[x] = list[x] & 0xffff_ffff | u64::from(target) << 32;
        }
        _ => {
            let bundle = shaped_bundle(rng, layout, size / 4);
            let from = x & !3;
            list[from..from + 4].copy_from_slice(&bundle);
        }
    }
}

#[test]
fn mutated_lists_that_pass_are_isolated() {
    let (mut tally, mut rng) = Tally::new("isolation, mutated lists", 23);
    for _ in 0..cases(12_000) {
        let (layout, words) = layout_and_routine(&mut rng);
        let mut list = if rng.chance(70) {
            rewritten(&layout, &words)
        } else {
            shaped_list(&mut rng, &layout, bundles(words.len()))
        };
        let original = list.clone();
        for _ in 0..60 {
            let before = list.clone();
            mutate(&mut rng, &layout, &mut list);
            if list == before {
                continue;
            }
            let passes = check(&layout, &list).is_taken();
            tally.note("mutations passed", u64::from(passes));
            tally.note("mutations refused", u64::from(!passes));
            if !passes {
                list = before;
            }
        }
        if list != original {
            two_worlds(&mut rng, &mut tally, &layout, &list);
        }
    }
    tally.conclude(&[("run", &ENDINGS)]);
}
