//! Installs policies and loads routines.

use super::{answer, length};
use crate::{Answer, Layout, LayoutArray, Machine, Policy, Record};

#[rustfmt::skip]
extern "C" {
    fn hemdroas_word_right(states: u32, word: u32) -> u32;
    fn hemdroas_install(layout: *const LayoutArray, states: u32, start: u32, table: *const u8, len: u64,
                        landings: *const u32, count: u64, memory: *mut u32, cells: u64,
                        machine: *mut [u32; Record::LENGTH], answer: *mut [u32; 2]);
    fn hemdroas_load(layout: *const LayoutArray, states: u32, start: u32, table: *const u8, len: u64,
                     landings: *const u32, count: u64, bytes: *const u8, n: u64, commands: *mut u64, room: u64,
                     memory: *mut u32, cells: u64, machine: *mut [u32; Record::LENGTH], answer: *mut [u32; 2]);
}

/// Tests four bytes of a policy's table as one word: whether `states` is 1 to 16
/// and each byte is a state or no arrow.
#[inline]
pub fn word_right(states: u32, word: u32) -> bool {
    // SAFETY: the call takes two numbers and no pointer.
    match unsafe { hemdroas_word_right(states, word) } {
        0 => false,
        1 => true,
        number => panic!("the library answered {number}, which is neither yes nor no"),
    }
}

/// Writes the policy and the landings, a rising list, into memory, and yields a
/// machine at the first command. After a refusal it yields [`Machine::REFUSED`].
pub fn install(
    layout: &Layout,
    policy: &Policy,
    landings: &[u32],
    memory: &mut [u32],
) -> (Answer, Machine) {
    let mut record = Machine::REFUSED.to_record();
    let answer = install_record(layout, policy, landings, memory, &mut record);
    (answer, record.to_machine())
}

/// [`install`] into a record of the C interface.
pub fn install_record(
    layout: &Layout,
    policy: &Policy,
    landings: &[u32],
    memory: &mut [u32],
    record: &mut Record,
) -> Answer {
    let mut pair = [0; 2];
    // SAFETY: every slice is live and has the length given; memory, record and `pair` are borrowed for this call alone.
    unsafe {
        hemdroas_install(
            &layout.to_array(),
            policy.states,
            policy.start,
            policy.table.as_ptr(),
            length(policy.table),
            landings.as_ptr(),
            length(landings),
            memory.as_mut_ptr(),
            length(memory),
            &mut record.0,
            &mut pair,
        );
    }
    answer(pair)
}

/// Loads a routine: reads its bytes, rewrites, checks and installs. It yields a
/// machine at the first command, or [`Machine::REFUSED`] after a refusal.
pub fn load(
    layout: &Layout,
    policy: &Policy,
    landings: &[u32],
    bytes: &[u8],
    commands: &mut [u64],
    memory: &mut [u32],
) -> (Answer, Machine) {
    let mut record = Machine::REFUSED.to_record();
    let answer = load_record(
        layout,
        policy,
        landings,
        bytes,
        commands,
        memory,
        &mut record,
    );
    (answer, record.to_machine())
}

/// [`load`] into a record of the C interface.
pub fn load_record(
    layout: &Layout,
    policy: &Policy,
    landings: &[u32],
    bytes: &[u8],
    commands: &mut [u64],
    memory: &mut [u32],
    record: &mut Record,
) -> Answer {
    let mut pair = [0; 2];
    // SAFETY: every slice is live and has the length given; commands, memory, record and `pair` are borrowed for this call alone.
    unsafe {
        hemdroas_load(
            &layout.to_array(),
            policy.states,
            policy.start,
            policy.table.as_ptr(),
            length(policy.table),
            landings.as_ptr(),
            length(landings),
            bytes.as_ptr(),
            length(bytes),
            commands.as_mut_ptr(),
            length(commands),
            memory.as_mut_ptr(),
            length(memory),
            &mut record.0,
            &mut pair,
        );
    }
    answer(pair)
}
