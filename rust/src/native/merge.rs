//! Merges two policies.

use super::{answer, length};
use crate::{Merged, Side};

/// A policy's numbers: states, start and eight ceilings.
type Ten = [u32; 10];

#[rustfmt::skip]
extern "C" {
    fn hemdroas_merge(one: *const Ten, table1: *const u8, len1: u64, other: *const Ten, table2: *const u8, len2: u64,
                      table: *mut u8, room: u64, merged: *mut Ten, answer: *mut [u32; 2]);
}

fn ten(side: &Side) -> Ten {
    let [a, b, c, d, e, f, g, h] = side.ceilings;
    let (states, start) = (side.policy.states, side.policy.start);
    [states, start, a, b, c, d, e, f, g, h]
}

/// Merges two policies into one that allows what both allow: writes its table to
/// the start of `table`, and answers its states, start and ceilings.
pub fn merge(one: &Side, other: &Side, table: &mut [u8]) -> Merged {
    let (table1, table2) = (one.policy.table, other.policy.table);
    let (mut merged, mut pair) = ([0; 10], [0; 2]);
    // SAFETY: the three tables are live slices of the lengths given; table, `merged` and `pair` are borrowed for this call alone.
    unsafe {
        hemdroas_merge(
            &ten(one),
            table1.as_ptr(),
            length(table1),
            &ten(other),
            table2.as_ptr(),
            length(table2),
            table.as_mut_ptr(),
            length(table),
            &mut merged,
            &mut pair,
        );
    }
    let [states, start, ceilings @ ..] = merged;
    Merged {
        answer: answer(pair),
        states,
        start,
        ceilings,
    }
}
