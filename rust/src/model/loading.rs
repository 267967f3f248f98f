//! Loads a routine: turns its bytes into commands and an installed machine.

use super::{check, install, read, rewrite};
use crate::names::{MOST_COMMANDS, MOST_INSTRUCTIONS};
use crate::{Answer, Layout, Machine, Policy};

/// 'The first reject of reading, rewriting, checking, installing, or 0'. The
/// commands go to the start of the list. A refusal leaves list and memory as they
/// were.
pub fn load(
    layout: &Layout,
    policy: &Policy,
    landings: &[u32],
    bytes: &[u8],
    commands: &mut [u64],
    memory: &mut [u32],
) -> (Answer, Machine) {
    let mut words = [0; MOST_INSTRUCTIONS];
    let answer = read(bytes, &mut words);
    let Answer::Taken(n) = answer else {
        return (answer, Machine::REFUSED);
    };
    let mut list = [0; MOST_COMMANDS];
    let room = commands.len().min(MOST_COMMANDS);
    let rewritten = rewrite(layout, &words[..n as usize], &mut list[..room]);
    let Answer::Taken(size) = rewritten else {
        return (rewritten, Machine::REFUSED);
    };
    let list = &list[..size as usize];
    let answer = check(layout, list);
    if !answer.is_taken() {
        return (answer, Machine::REFUSED);
    }
    let (answer, machine) = install(layout, policy, landings, memory);
    if !answer.is_taken() {
        return (answer, machine);
    }
    commands[..list.len()].copy_from_slice(list);
    (rewritten, machine)
}
