//! Makes policies from drawings with several arrows for one event.

use super::{answer, length};
use crate::{Determinised, Drawing};

#[rustfmt::skip]
extern "C" {
    fn hemdroas_determinise(states: u32, starts: u32, arrows: *const u16, n: u64,
                            table: *mut u8, room: u64, made: *mut [u32; 4]);
}

/// Makes the policy of a drawing: writes its table to the start of `table`, and
/// answers its states and its start.
pub fn determinise(drawing: &Drawing, table: &mut [u8]) -> Determinised {
    let mut four = [0; 4];
    // SAFETY: arrows and table are live slices of the lengths given; table and `four` are borrowed for this call alone.
    unsafe {
        hemdroas_determinise(
            drawing.states,
            drawing.starts,
            drawing.arrows.as_ptr(),
            length(drawing.arrows),
            table.as_mut_ptr(),
            length(table),
            &mut four,
        );
    }
    let [number, place, states, start] = four;
    Determinised {
        answer: answer([number, place]),
        states,
        start,
    }
}
