//! Bundles: how many a routine has, their addresses, and the one that ends a list.

use super::commands::Command;
use crate::names::BUNDLE_LENGTH;
use crate::Layout;

/// The commands of a bundle.
pub type Bundle = [Command; BUNDLE_LENGTH];

/// 'HALT t t t', with t = NOP.
pub const HALT: Bundle = alone(Command::Halt);

/// A command, then t t t.
pub const fn alone(command: Command) -> Bundle {
    [command, Command::Nop, Command::Nop, Command::Nop]
}

/// 'PCL = B.'
pub fn pcl(layout: &Layout) -> u32 {
    layout.base
}

/// 'PCH = B + 4N − 1', summed without wrap; B is a multiple of 4N.
pub fn pch(layout: &Layout, bundles: usize) -> u32 {
    (layout.base as usize + BUNDLE_LENGTH * bundles - 1) as u32
}

/// 'Instruction g becomes four commands at addresses B + 4g to B + 4g + 3.'
/// Returns the first of these, summed without wrap.
pub fn address(layout: &Layout, g: usize) -> u64 {
    u64::from(layout.base) + (BUNDLE_LENGTH * g) as u64
}

/// 'N is the smallest power of two greater than n.'
pub fn bundles(instructions: usize) -> usize {
    let mut powers = (0..).map(|power| 1 << power);
    powers
        .find(|&power: &usize| power > instructions)
        .expect("powers of two have no end")
}

/// Whether a list may have so many bundles: 'N a power of two from 1 to 1,024'.
pub fn count_right(bundles: usize) -> bool {
    (0..=10).any(|power| bundles == 1 << power)
}

/// 'B must be a multiple of 4N.'
pub fn base_right(layout: &Layout, commands: usize) -> bool {
    (layout.base as usize).is_multiple_of(commands)
}
