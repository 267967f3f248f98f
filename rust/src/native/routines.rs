//! Reads, writes, rewrites and checks routines.

use super::{answer, length};
use crate::{Answer, Layout, LayoutArray};

#[rustfmt::skip]
extern "C" {
    fn hemdroas_read(bytes: *const u8, n: u64, words: *mut u64, room: u64, answer: *mut [u32; 2]);
    fn hemdroas_write(words: *const u64, n: u64, bytes: *mut u8, room: u64, answer: *mut [u32; 2]);
    fn hemdroas_rewrite(layout: *const LayoutArray, words: *const u64, n: u64, commands: *mut u64, room: u64, answer: *mut [u32; 2]);
    fn hemdroas_check(layout: *const LayoutArray, commands: *const u64, n: u64, answer: *mut [u32; 2]);
}

/// Reads a routine's bytes into words.
pub fn read(bytes: &[u8], words: &mut [u64]) -> Answer {
    let mut pair = [0; 2];
    // SAFETY: bytes and words are live slices of the lengths given; words and `pair` are borrowed for this call alone.
    unsafe {
        hemdroas_read(
            bytes.as_ptr(),
            length(bytes),
            words.as_mut_ptr(),
            length(words),
            &mut pair,
        );
    }
    answer(pair)
}

/// Writes words as a routine's bytes.
pub fn write(words: &[u64], bytes: &mut [u8]) -> Answer {
    let mut pair = [0; 2];
    // SAFETY: words and bytes are live slices of the lengths given; bytes and `pair` are borrowed for this call alone.
    unsafe {
        hemdroas_write(
            words.as_ptr(),
            length(words),
            bytes.as_mut_ptr(),
            length(bytes),
            &mut pair,
        );
    }
    answer(pair)
}

/// Rewrites a routine's words into commands.
pub fn rewrite(layout: &Layout, words: &[u64], commands: &mut [u64]) -> Answer {
    let mut pair = [0; 2];
    // SAFETY: layout, words and commands are live and of the lengths given; commands and `pair` are borrowed for this call alone.
    unsafe {
        hemdroas_rewrite(
            &layout.to_array(),
            words.as_ptr(),
            length(words),
            commands.as_mut_ptr(),
            length(commands),
            &mut pair,
        );
    }
    answer(pair)
}

/// Checks a command list, whoever wrote it.
pub fn check(layout: &Layout, commands: &[u64]) -> Answer {
    let mut pair = [0; 2];
    // SAFETY: layout and commands are live, commands of the length given; the call writes `pair` alone.
    unsafe {
        hemdroas_check(
            &layout.to_array(),
            commands.as_ptr(),
            length(commands),
            &mut pair,
        );
    }
    answer(pair)
}
