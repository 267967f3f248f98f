//! How often each function gave each answer.

use super::{say, seed, Rng};
use std::collections::BTreeMap;

/// Each number of a function must be seen at least so often.
const LEAST: u64 = 100;

/// The compared cases of one part.
pub struct Tally {
    part: &'static str,
    seed: u64,
    seen: BTreeMap<(&'static str, u32), u64>,
    sums: BTreeMap<&'static str, u64>,
    notes: BTreeMap<&'static str, u64>,
}

impl Tally {
    /// The counts of a part, all 0, and its random numbers; `own` tells its
    /// seed from the other parts'.
    pub fn new(part: &'static str, own: u64) -> (Tally, Rng) {
        let seed = seed(own);
        let tally = Tally {
            part,
            seed,
            seen: BTreeMap::new(),
            sums: BTreeMap::new(),
            notes: BTreeMap::new(),
        };
        (tally, Rng::new(seed))
    }

    /// One case more in which a function answered so.
    pub fn count(&mut self, function: &'static str, number: u32) {
        *self.seen.entry((function, number)).or_default() += 1;
    }

    /// More of something to print.
    pub fn add(&mut self, what: &'static str, more: u64) {
        *self.sums.entry(what).or_default() += more;
    }

    /// More of something that the cases must have had often enough, or none of
    /// it yet.
    pub fn note(&mut self, what: &'static str, more: u64) {
        *self.notes.entry(what).or_default() += more;
    }

    fn numbers_of(&self, function: &str) -> Vec<(u32, u64)> {
        let seen = self.seen.iter().filter(|((name, _), _)| *name == function);
        seen.map(|(&(_, number), &times)| (number, times)).collect()
    }

    /// Prints the counts, and asks that each function of `all` has given each of
    /// its numbers often enough and no other, and that nothing noted is rare.
    pub fn conclude(&self, all: &[(&str, &[u32])]) {
        let mut lines = format!("{}, seed {}", self.part, self.seed);
        let mut functions: Vec<&str> = self.seen.keys().map(|(function, _)| *function).collect();
        functions.dedup();
        for function in functions {
            let numbers = self.numbers_of(function);
            let cases: u64 = numbers.iter().map(|(_, times)| times).sum();
            lines += &format!("\n  {function}, {cases} cases:");
            for (number, times) in numbers {
                lines += &format!(" {number}: {times}");
            }
        }
        for (what, times) in self.sums.iter().chain(&self.notes) {
            lines += &format!("\n  {what}: {times}");
        }
        say(&lines);

        for (function, numbers) in all {
            let seen = self.numbers_of(function);
            let given: Vec<u32> = seen.iter().map(|&(number, _)| number).collect();
            assert_eq!(given, *numbers, "the numbers that {function} gave");
            for (number, times) in seen {
                assert!(times >= LEAST, "{function} gave {number} {times} times");
            }
        }
        for (what, &times) in &self.notes {
            assert!(times >= LEAST, "{what}: {times}");
        }
    }
}
