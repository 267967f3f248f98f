//! Makes policies from pairs of events.

use super::{answer, length};
use crate::Made;

#[rustfmt::skip]
extern "C" {
    fn hemdroas_precedence(pairs: *const u8, n: u64, table: *mut u8, room: u64, made: *mut [u32; 4]);
}

fn made([number, place, states, never]: [u32; 4]) -> Made {
    match u16::try_from(never) {
        Ok(never) => Made {
            answer: answer([number, place]),
            states,
            never,
        },
        Err(_) => panic!("the library answered {never}, which is no map of 16 events"),
    }
}

/// Makes a policy from pairs of events, in which the first must come before the
/// second. Writes its table to the start of `table`, and answers its states, of
/// which 0 is the start, and the events that it never allows.
pub fn precedence(pairs: &[u8], table: &mut [u8]) -> Made {
    let mut four = [0; 4];
    // SAFETY: pairs and table are live slices of the lengths given; table and `four` are borrowed for this call alone.
    unsafe {
        hemdroas_precedence(
            pairs.as_ptr(),
            length(pairs),
            table.as_mut_ptr(),
            length(table),
            &mut four,
        );
    }
    made(four)
}
