//! Routines that always finish, request [13]: the two checks, and forward routines
//! run to their end.

use crate::common::inputs::{
    altered_layout, any_command, any_record, damage_word, damaged_routine, instr_word, landings,
    length, policy, rewritten, right_layout, routine, shaped_bundle, shaped_list,
};
use crate::common::{cases, Rng, Tally};
use crate::install::install;
use crate::run::{run, Lent};
use hemdroas::model::words::fields;
use hemdroas::model::{self, most_steps, Instr};
use hemdroas::names::{BUNDLE_LENGTH, MOST_INSTRUCTIONS};
use hemdroas::{native, Answer, Ending, Layout, Refusal, RunAnswer, Status};

const OF_WORDS: [u32; 7] = [0, 2, 3, 4, 5, 8, 18];
const OF_LISTS: [u32; 6] = [0, 7, 11, 12, 13, 18];

pub fn forward(tally: &mut Tally, words: &[u64]) -> Answer {
    let answer = model::forward(words);
    let given = native::forward(words);
    assert_eq!(given, answer, "checking {words:x?}");
    tally.count("forward", answer.number());
    answer
}

fn check_forward(tally: &mut Tally, layout: &Layout, commands: &[u64]) -> Answer {
    let answer = model::check_forward(layout, commands);
    let given = native::check_forward(layout, commands);
    assert_eq!(given, answer, "checking {commands:x?} under {layout:?}");
    tally.count("check_forward", answer.number());
    answer
}

/// Makes an instruction of a routine of `n` forward: a GOX becomes an order, and a
/// GOIF goes to a higher instruction.
fn turned_forward(rng: &mut Rng, place: usize, n: usize, word: u64) -> u64 {
    match Instr::of_kind(fields(word)) {
        Some(Instr::GoX { .. }) => Instr::Event { v: rng.under(8) }.word(),
        Some(Instr::GoIf { a, b, c, .. }) => {
            let v = rng.between(place + 1, n) as u32;
            Instr::GoIf { a, b, c, v }.word()
        }
        _ => word,
    }
}

/// A forward routine.
fn forward_routine(rng: &mut Rng, layout: &Layout, n: usize) -> Vec<u64> {
    let words = routine(rng, layout, n);
    let turned = words.iter().enumerate();
    turned
        .map(|(place, &word)| turned_forward(rng, place, n, word))
        .collect()
}

/// Every routine of up to three of these words. There are right ones of each sort, a
/// GOIF of each condition to each place and past the end, and one for each refusal.
fn small_routines() -> Vec<Vec<u64>> {
    let mut words = vec![
        Instr::Halt.word(),
        Instr::Set { d: 1, v: 7 }.word(),
        Instr::Event { v: 3 }.word(),
        instr_word(11, 1, 2, 3, 0, 0),
        instr_word(13, 0, 0, 0, 0, 0),
        instr_word(0, 0, 0, 0, 0, 1),
        instr_word(12, 0, 0, 0, 0, 16),
    ];
    words.extend((0..5).map(|v| instr_word(10, 0, 1, 2, 0, v)));
    words.extend((0..5).map(|v| instr_word(10, 0, 1, 2, 3, v)));
    let mut all = vec![vec![]];
    let mut longest = all.clone();
    for _ in 0..3 {
        longest = longest
            .iter()
            .flat_map(|start: &Vec<u64>| {
                words
                    .iter()
                    .map(|&word| start.iter().copied().chain([word]).collect())
            })
            .collect();
        all.extend(longest.iter().cloned());
    }
    all
}

/// Puts a GOX, or a jump to its own instruction or a lower one, into a routine.
fn break_class(rng: &mut Rng, words: &mut [u64]) {
    let place = rng.below(words.len());
    words[place] = if rng.chance(40) {
        instr_word(11, 1, 2, 3, rng.under(4), 0)
    } else {
        let back = if rng.chance(50) {
            place
        } else {
            rng.between(0, place)
        };
        instr_word(10, 0, 1, 2, rng.under(4), back as u32)
    };
}

#[test]
fn words_of_the_class() {
    let (mut tally, mut rng) = Tally::new("forward words", 17);
    for words in small_routines() {
        let _ = forward(&mut tally, &words);
    }
    for _ in 0..cases(20_000) {
        let n = length(&mut rng);
        let layout = right_layout(&mut rng, model::bundles(n));
        let mut words = if rng.chance(30) {
            damaged_routine(&mut rng, &layout, n)
        } else {
            forward_routine(&mut rng, &layout, n)
        };
        if n > 0 && rng.chance(50) {
            break_class(&mut rng, &mut words);
        }
        if n > 0 && rng.chance(20) {
            let place = rng.below(words.len());
            words[place] = damage_word(&mut rng, words[place]);
        }
        let answer = forward(&mut tally, &words);
        if answer.is_taken() || answer.number() == Refusal::NotForward.number() {
            let commands = rewritten(&layout, &words);
            let of_list = check_forward(&mut tally, &layout, &commands);
            assert_eq!(of_list, answer, "the two checks of {words:x?}");
        }
    }
    for length in [MOST_INSTRUCTIONS, MOST_INSTRUCTIONS + 1] {
        for _ in 0..cases(200) {
            let mut words = vec![Instr::Set { d: 1, v: 7 }.word(); length];
            if rng.chance(50) {
                break_class(&mut rng, &mut words);
            }
            let _ = forward(&mut tally, &words);
        }
    }
    tally.conclude(&[("forward", &OF_WORDS), ("check_forward", &[0, 18])]);
}

/// Alters a list or its layout.
fn alter(rng: &mut Rng, layout: &mut Layout, bundles: usize, list: &mut Vec<u64>) {
    let at = rng.below(list.len());
    match rng.below(7) {
        0 | 1 => list[at] = damage_word(rng, list[at]),
        2 => list[at] = any_command(rng, layout, list.len()),
        3 => {
            let from = at / BUNDLE_LENGTH * BUNDLE_LENGTH;
            let bundle = shaped_bundle(rng, layout, bundles);
            list[from..from + BUNDLE_LENGTH].copy_from_slice(&bundle);
        }
        4 => list.truncate(at),
        5 => *layout = altered_layout(rng, layout),
        _ => layout.base ^= 1 << rng.below(13),
    }
}

#[test]
fn lists_of_the_class() {
    let (mut tally, mut rng) = Tally::new("forward lists", 18);
    for _ in 0..cases(20_000) {
        let sizes = if rng.chance(2) { 11 } else { 6 };
        let bundles = 1 << rng.below(sizes);
        let mut layout = right_layout(&mut rng, bundles);
        let mut list = if rng.chance(50) {
            shaped_list(&mut rng, &layout, bundles)
        } else {
            let words = forward_routine(&mut rng, &layout, bundles - 1);
            rewritten(&layout, &words)
        };
        if rng.chance(50) {
            alter(&mut rng, &mut layout, bundles, &mut list);
        }
        let answer = check_forward(&mut tally, &layout, &list);
        let checked = native::check(&layout, &list);
        if !checked.is_taken() {
            assert_eq!(answer, checked, "the checker's refusals come first");
        }
    }
    tally.conclude(&[("check_forward", &OF_LISTS)]);
}

/// An installed forward routine, and how many steps its runs took.
struct Installed {
    layout: Layout,
    list: Vec<u64>,
    lent: Lent,
    /// '4 × (N − 1) + 1 counted steps over all its runs'
    most: u64,
    steps: u64,
}

/// A forward routine of at most so many instructions, under a layout of its own.
/// Some only send events, so that they reach the bound.
fn installed(tally: &mut Tally, rng: &mut Rng, longest: usize, arrows: usize) -> Installed {
    let n = if rng.chance(30) {
        (1 << rng.below(6)) - 1
    } else {
        length(rng).min(longest)
    };
    let bundles = model::bundles(n);
    let layout = right_layout(rng, bundles);
    let words = if rng.chance(25) {
        (0..n)
            .map(|_| Instr::Event { v: rng.under(16) }.word())
            .collect()
    } else {
        forward_routine(rng, &layout, n)
    };
    let list = rewritten(&layout, &words);
    assert_eq!(forward(tally, &words), Answer::Taken(0));
    assert_eq!(check_forward(tally, &layout, &list), Answer::Taken(0));
    let (policy, landings) = (policy(rng, layout.states, arrows), landings(rng));
    let mut memory = rng.cells(layout.size as usize);
    let record = any_record(rng);
    let lend = policy.lend();
    let (answer, record) = install(tally, &layout, &lend, &landings, &mut memory, record);
    assert_eq!(answer, Answer::Taken(0));
    let lent = Lent {
        record,
        memory,
        log: Vec::new(),
    };
    Installed {
        layout,
        list,
        lent,
        most: most_steps(bundles),
        steps: 0,
    }
}

impl Installed {
    /// Runs it once more, and tests the bound.
    fn run(
        &mut self,
        tally: &mut Tally,
        rng: &mut Rng,
        budget: u32,
        readings: usize,
        log: usize,
    ) -> RunAnswer {
        self.lent.log = rng.cells(log);
        let readings = rng.cells(readings);
        let (layout, list) = (&self.layout, &self.list);
        let answer = run(tally, layout, list, &mut self.lent, budget, &readings);
        self.steps += u64::from(answer.steps);
        assert!(
            self.steps <= self.most,
            "{} steps of {list:x?}, not more than {}",
            self.steps,
            self.most
        );
        answer
    }

    fn is_over(&self) -> bool {
        let status = self.lent.record.to_machine().status;
        matches!(status, Status::Ended | Status::Stopped)
    }

    /// Whether a routine of more than one instruction reached the bound.
    fn note_bound(&self, tally: &mut Tally) {
        let reached = self.steps == self.most && self.most > 5;
        tally.note("longer routines that reached the bound", u64::from(reached));
    }
}

/// Several runs with small logs, few readings and small budgets. Some get too
/// little to continue, and need not take a step. A run with a free pair, a reading
/// and a budget takes a step.
#[test]
fn resumed_until_over() {
    let (mut tally, mut rng) = Tally::new("forward routines, resumed", 19);
    for _ in 0..cases(5_000) {
        let arrows = rng.pick(&[60, 100, 100]);
        let mut installed = installed(&mut tally, &mut rng, 300, arrows);
        let (mut runs, mut resumed) = (0, 0);
        while !installed.is_over() {
            let starved = rng.chance(20);
            let most = rng.pick(&[6, 40]);
            let budget = rng.between(1, most) as u32;
            let (readings, log) = if starved {
                (0, rng.below(2))
            } else {
                (rng.between(1, 3), rng.between(2, 6))
            };
            let answer = installed.run(&mut tally, &mut rng, budget, readings, log);
            if !starved {
                assert!(answer.steps >= 1, "a run that can go on takes a step");
                resumed += 1;
            }
            let paused = matches!(answer.ending, Ending::LogFull | Ending::Silent);
            assert!(paused || installed.is_over() || answer.steps == budget);
            assert!(resumed <= installed.most, "{resumed} runs that could go on");
            runs += 1;
        }
        tally.note("routines that took several runs", u64::from(runs > 1));
        installed.note_bound(&mut tally);
    }
    tally.conclude(&[("run", &[20, 21, 23, 24, 25])]);
}

/// One run with budget, log and readings for all that can be left does not pause,
/// at first or after another run.
#[test]
fn over_at_once() {
    let (mut tally, mut rng) = Tally::new("forward routines, at once", 20);
    for _ in 0..cases(4_000) {
        let mut installed = installed(&mut tally, &mut rng, MOST_INSTRUCTIONS, 95);
        if rng.chance(50) {
            let (readings, log) = (rng.below(3), rng.below(5));
            let _ = installed.run(&mut tally, &mut rng, 7, readings, log);
        }
        let instructions = installed.list.len() / BUNDLE_LENGTH - 1;
        let budget = installed.most as u32;
        let answer = installed.run(&mut tally, &mut rng, budget, instructions, 2 * instructions);
        assert!(matches!(answer.ending, Ending::Done | Ending::NoArrow));
        assert!(installed.is_over());
        tally.count("last run", answer.ending.number());
        installed.note_bound(&mut tally);
    }
    tally.conclude(&[("last run", &[20, 21])]);
}
