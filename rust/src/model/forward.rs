//! Request [13], routines that always finish.

use super::bundles::address;
use super::check::check;
use super::commands::Command;
use super::instructions::{judge_routine, Instr};
use super::outputs::{answer, Refused};
use crate::names::BUNDLE_LENGTH;
use crate::{Answer, Layout, Refusal};

/// 'No GOX and every GOIF going to a higher instruction than its own.'
fn is_forward(place: usize, instr: Instr) -> bool {
    match instr {
        Instr::GoX { .. } => false,
        Instr::GoIf { v, .. } => v as usize > place,
        _ => true,
    }
}

/// The same for a bundle's command: a GOIF goes to an address, and only a GOX has
/// a GOXR.
fn is_forward_command(layout: &Layout, place: usize, word: u64) -> bool {
    match Command::of_word(word) {
        Some(Command::GoReg { .. }) => false,
        Some(Command::GoIf { v, .. }) => u64::from(v) > address(layout, place),
        _ => true,
    }
}

/// 'The lowest instruction or bundle that breaks the class is its place.'
fn lowest(mut forward: impl Iterator<Item = bool>) -> Result<(), Refused> {
    match forward.position(|forward| !forward) {
        Some(place) => Err((Refusal::NotForward, place)),
        None => Ok(()),
    }
}

/// '18 comes last, whatever the places: after 5, 3, 2, 4, 8 for words.'
fn of_words(words: &[u64]) -> Result<(), Refused> {
    let instrs = judge_routine(words)?;
    let places = instrs.iter().enumerate();
    lowest(places.map(|(place, &instr)| is_forward(place, instr)))
}

/// Checks that a routine's words are forward.
pub fn forward(words: &[u64]) -> Answer {
    answer(of_words(words).map(|()| 0))
}

/// 'After all the checker's refusals for lists.'
pub fn check_forward(layout: &Layout, commands: &[u64]) -> Answer {
    let checked = check(layout, commands);
    if !checked.is_taken() {
        return checked;
    }
    let bundles = commands.chunks(BUNDLE_LENGTH).enumerate();
    let forward = bundles.map(|(place, words)| {
        words
            .iter()
            .all(|&word| is_forward_command(layout, place, word))
    });
    answer(lowest(forward).map(|()| 0))
}

/// '4 × (N − 1) + 1', the most steps of a forward list of N bundles.
pub fn most_steps(bundles: usize) -> u64 {
    (BUNDLE_LENGTH * (bundles - 1) + 1) as u64
}
