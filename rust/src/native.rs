//! Safe wrappers of the C library (`include/hemdroas.h`).
//!
//! A wrapper panics if the library answers a number that the header does not
//! define: then it is not the library that this package was written for.
//!
//! Lengths have 64 bits on every machine, as in the header. A pointer to a record
//! points to an array of the header's length.

#![deny(clippy::undocumented_unsafe_blocks)]

mod determinise;
mod engine;
mod forward;
mod install;
mod merge;
mod precedence;
mod routines;
mod run;

pub use determinise::determinise;
pub use engine::{engine, engine_continue, engine_continue_record, engine_record};
pub use forward::{check_forward, forward};
pub use install::{install, install_record, load, load_record, word_right};
pub use merge::merge;
pub use precedence::precedence;
pub use routines::{check, read, rewrite, write};
pub use run::{preview, preview_record, run, run_record};

use crate::{Answer, Ending, Refusal, RunAnswer};

fn length<T>(slice: &[T]) -> u64 {
    slice.len() as u64
}

fn answer([number, place]: [u32; 2]) -> Answer {
    if number == 0 {
        return Answer::Taken(place);
    }
    match Refusal::from_number(number) {
        Some(refusal) => Answer::Refused { refusal, place },
        None => panic!("the library answered {number}, which is no refusal"),
    }
}

fn run_answer([number, steps, pairs, readings]: [u32; 4]) -> RunAnswer {
    match Ending::from_number(number) {
        Some(ending) => RunAnswer {
            ending,
            steps,
            pairs,
            readings,
        },
        None => panic!("the library answered {number}, which is no ending"),
    }
}
