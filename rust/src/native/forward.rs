//! Checks for forward routines, which always finish.

use super::{answer, length};
use crate::{Answer, Layout, LayoutArray};

#[rustfmt::skip]
extern "C" {
    fn hemdroas_forward(words: *const u64, n: u64, answer: *mut [u32; 2]);
    fn hemdroas_check_forward(layout: *const LayoutArray, commands: *const u64, n: u64, answer: *mut [u32; 2]);
}

/// Checks that a routine's words are forward: no GOX, and each GOIF goes to a
/// higher instruction.
pub fn forward(words: &[u64]) -> Answer {
    let mut pair = [0; 2];
    // SAFETY: words are a live slice of the length given; the call writes `pair` alone.
    unsafe {
        hemdroas_forward(words.as_ptr(), length(words), &mut pair);
    }
    answer(pair)
}

/// Checks a command list, and that its bundles are forward.
pub fn check_forward(layout: &Layout, commands: &[u64]) -> Answer {
    let mut pair = [0; 2];
    // SAFETY: layout and commands are live, commands of the length given; the call writes `pair` alone.
    unsafe {
        hemdroas_check_forward(
            &layout.to_array(),
            commands.as_ptr(),
            length(commands),
            &mut pair,
        );
    }
    answer(pair)
}
