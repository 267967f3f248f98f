//! The machine's commands.

use super::words::{fields, word, Fields};
use crate::names::{REGISTERS, TOP_CONDITION, TOP_EVENT, TOP_SHIFT};

/// 'Command kinds': each with its fields.
#[derive(Clone, Copy, PartialEq, Eq)]
#[allow(missing_docs)]
pub enum Command {
    Nop,
    Halt,
    Set { d: u32, v: u32 },
    Move { d: u32, a: u32 },
    Add { d: u32, a: u32, b: u32 },
    Sub { d: u32, a: u32, b: u32 },
    And { d: u32, a: u32, b: u32 },
    Or { d: u32, a: u32, b: u32 },
    Sar { d: u32, a: u32, v: u32 },
    AndI { d: u32, a: u32, v: u32 },
    OrI { d: u32, a: u32, v: u32 },
    Shl { d: u32, a: u32, v: u32 },
    Load { d: u32, a: u32 },
    Store { a: u32, b: u32 },
    GoIf { a: u32, b: u32, c: u32, v: u32 },
    GoReg { d: u32, a: u32, b: u32, c: u32 },
    Look { d: u32, v: u32 },
    StopIf { d: u32 },
    Keep { d: u32 },
    Event { v: u32 },
}

impl Command {
    /// The command of a kind, from the fields that the kind has; `None` for a kind
    /// above 19.
    pub fn of_kind(fields: Fields) -> Option<Command> {
        let Fields { d, a, b, c, v, .. } = fields;
        Some(match fields.kind {
            0 => Command::Nop,
            1 => Command::Halt,
            2 => Command::Set { d, v },
            3 => Command::Move { d, a },
            4 => Command::Add { d, a, b },
            5 => Command::Sub { d, a, b },
            6 => Command::And { d, a, b },
            7 => Command::Or { d, a, b },
            8 => Command::Sar { d, a, v },
            9 => Command::AndI { d, a, v },
            10 => Command::OrI { d, a, v },
            11 => Command::Shl { d, a, v },
            12 => Command::Load { d, a },
            13 => Command::Store { a, b },
            14 => Command::GoIf { a, b, c, v },
            15 => Command::GoReg { d, a, b, c },
            16 => Command::Look { d, v },
            17 => Command::StopIf { d },
            18 => Command::Keep { d },
            19 => Command::Event { v },
            _ => return None,
        })
    }

    /// 'Fields that a kind lacks are zero.'
    #[rustfmt::skip]
    fn fields(self) -> Fields {
        let none = Fields::default();
        match self {
            Command::Nop => Fields { kind: 0, ..none },
            Command::Halt => Fields { kind: 1, ..none },
            Command::Set { d, v } => Fields { kind: 2, d, v, ..none },
            Command::Move { d, a } => Fields { kind: 3, d, a, ..none },
            Command::Add { d, a, b } => Fields { kind: 4, d, a, b, ..none },
            Command::Sub { d, a, b } => Fields { kind: 5, d, a, b, ..none },
            Command::And { d, a, b } => Fields { kind: 6, d, a, b, ..none },
            Command::Or { d, a, b } => Fields { kind: 7, d, a, b, ..none },
            Command::Sar { d, a, v } => Fields { kind: 8, d, a, v, ..none },
            Command::AndI { d, a, v } => Fields { kind: 9, d, a, v, ..none },
            Command::OrI { d, a, v } => Fields { kind: 10, d, a, v, ..none },
            Command::Shl { d, a, v } => Fields { kind: 11, d, a, v, ..none },
            Command::Load { d, a } => Fields { kind: 12, d, a, ..none },
            Command::Store { a, b } => Fields { kind: 13, a, b, ..none },
            Command::GoIf { a, b, c, v } => Fields { kind: 14, a, b, c, v, ..none },
            Command::GoReg { d, a, b, c } => Fields { kind: 15, d, a, b, c, ..none },
            Command::Look { d, v } => Fields { kind: 16, d, v, ..none },
            Command::StopIf { d } => Fields { kind: 17, d, ..none },
            Command::Keep { d } => Fields { kind: 18, d, ..none },
            Command::Event { v } => Fields { kind: 19, v, ..none },
        }
    }

    /// The command's word.
    pub fn word(self) -> u64 {
        word(self.fields())
    }

    /// 'Register above 8, c above 3, v above its kind's bound': 31 for SAR and
    /// SHL, 15 for LOOK and EVENT. Since request [6] every register of four bits is
    /// in range.
    fn is_off_range(self) -> bool {
        let Fields { d, a, b, c, .. } = self.fields();
        let out_of_bound = match self {
            Command::Sar { v, .. } | Command::Shl { v, .. } => v > TOP_SHIFT,
            Command::Look { v, .. } | Command::Event { v } => v > TOP_EVENT,
            _ => false,
        };
        [d, a, b]
            .iter()
            .any(|&register| register as usize >= REGISTERS)
            || c > TOP_CONDITION
            || out_of_bound
    }

    /// `None` for 'a word that is no command (stray bit, kind above 19, register
    /// above 8', now 15, 'c above 3, v above its kind's bound)'.
    pub fn of_word(word: u64) -> Option<Command> {
        let fields = fields(word);
        let command = Command::of_kind(fields)?;
        let stray = command.fields() != fields;
        (!stray && !command.is_off_range()).then_some(command)
    }
}
