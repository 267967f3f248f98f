//! What the tests share: random numbers, counts of compared cases, and random
//! inputs.
//!
//! A night's run, with other seeds and a thousand times the cases:
//! `HEMDROAS_SEED=$(date +%s) HEMDROAS_CASES=1000 cargo test --release --offline --features native`
#![allow(dead_code)]

pub mod inputs;
pub mod rng;
pub mod tally;
pub mod world;

use std::io::Write;

pub use rng::Rng;
#[allow(unused_imports)]
pub use tally::Tally;

/// The number in an environment variable, or the usual one.
fn variable(name: &str, usual: u64) -> u64 {
    match std::env::var(name) {
        Ok(text) => text
            .parse()
            .unwrap_or_else(|_| panic!("{name} is a decimal number")),
        Err(_) => usual,
    }
}

/// The seed of a test: its own number, counted from HEMDROAS_SEED.
pub fn seed(own: u64) -> u64 {
    variable("HEMDROAS_SEED", 0).wrapping_add(own)
}

/// So many random cases, times HEMDROAS_CASES.
pub fn cases(usual: u64) -> u64 {
    usual * variable("HEMDROAS_CASES", 1)
}

/// Prints past the test harness, which would hold back what passes.
pub fn say(lines: &str) {
    let mut out = std::io::stdout().lock();
    writeln!(out, "{lines}").expect("standard output takes a line");
}
