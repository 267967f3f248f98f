//! The guest's instructions.

use super::arithmetic::{add, and, or, sar, sub};
use super::outputs::{refuse, Refused};
use super::words::{fields, word, Fields};
use crate::names::{GUEST_REGISTERS, MOST_INSTRUCTIONS, TOP_CONDITION, TOP_EVENT, TOP_SHIFT};
use crate::Refusal;

/// The table of the guest rule: each kind with its fields.
#[derive(Clone, Copy, PartialEq, Eq)]
#[allow(missing_docs)]
pub enum Instr {
    Halt,
    Set { d: u32, v: u32 },
    Move { d: u32, a: u32 },
    Add { d: u32, a: u32, b: u32 },
    Sub { d: u32, a: u32, b: u32 },
    And { d: u32, a: u32, b: u32 },
    Or { d: u32, a: u32, b: u32 },
    Sar { d: u32, a: u32, v: u32 },
    Load { d: u32, a: u32 },
    Store { a: u32, b: u32 },
    GoIf { a: u32, b: u32, c: u32, v: u32 },
    GoX { d: u32, a: u32, b: u32, c: u32 },
    Event { v: u32 },
}

impl Instr {
    /// The instruction of a kind, from the fields that the kind has; `None` for a
    /// kind above 12.
    pub fn of_kind(fields: Fields) -> Option<Instr> {
        let Fields { d, a, b, c, v, .. } = fields;
        Some(match fields.kind {
            0 => Instr::Halt,
            1 => Instr::Set { d, v },
            2 => Instr::Move { d, a },
            3 => Instr::Add { d, a, b },
            4 => Instr::Sub { d, a, b },
            5 => Instr::And { d, a, b },
            6 => Instr::Or { d, a, b },
            7 => Instr::Sar { d, a, v },
            8 => Instr::Load { d, a },
            9 => Instr::Store { a, b },
            10 => Instr::GoIf { a, b, c, v },
            11 => Instr::GoX { d, a, b, c },
            12 => Instr::Event { v },
            _ => return None,
        })
    }

    /// 'Fields that a kind lacks are zero.'
    #[rustfmt::skip]
    pub fn fields(self) -> Fields {
        let none = Fields::default();
        match self {
            Instr::Halt => Fields { kind: 0, ..none },
            Instr::Set { d, v } => Fields { kind: 1, d, v, ..none },
            Instr::Move { d, a } => Fields { kind: 2, d, a, ..none },
            Instr::Add { d, a, b } => Fields { kind: 3, d, a, b, ..none },
            Instr::Sub { d, a, b } => Fields { kind: 4, d, a, b, ..none },
            Instr::And { d, a, b } => Fields { kind: 5, d, a, b, ..none },
            Instr::Or { d, a, b } => Fields { kind: 6, d, a, b, ..none },
            Instr::Sar { d, a, v } => Fields { kind: 7, d, a, v, ..none },
            Instr::Load { d, a } => Fields { kind: 8, d, a, ..none },
            Instr::Store { a, b } => Fields { kind: 9, a, b, ..none },
            Instr::GoIf { a, b, c, v } => Fields { kind: 10, a, b, c, v, ..none },
            Instr::GoX { d, a, b, c } => Fields { kind: 11, d, a, b, c, ..none },
            Instr::Event { v } => Fields { kind: 12, v, ..none },
        }
    }

    /// The instruction's word.
    pub fn word(self) -> u64 {
        word(self.fields())
    }

    /// '4: register above 7, c above 3, SAR v above 31, EVENT v above 15'; request
    /// [6]: '4 begins at register 15'.
    fn is_off_range(self) -> bool {
        let Fields { d, a, b, c, .. } = self.fields();
        let out_of_bound = match self {
            Instr::Sar { v, .. } => v > TOP_SHIFT,
            Instr::Event { v } => v > TOP_EVENT,
            _ => false,
        };
        [d, a, b]
            .iter()
            .any(|&register| register >= GUEST_REGISTERS)
            || c > TOP_CONDITION
            || out_of_bound
    }
}

/// The register that one of the kinds 1 to 7 sets, and its new value: 'rd becomes
/// v', 'rd becomes ra', and so on.
pub fn outcome(instr: Instr, regs: &[u32; GUEST_REGISTERS as usize]) -> (u32, u32) {
    let get = |register: u32| regs[register as usize];
    match instr {
        Instr::Set { d, v } => (d, v),
        Instr::Move { d, a } => (d, get(a)),
        Instr::Add { d, a, b } => (d, add(get(a), get(b))),
        Instr::Sub { d, a, b } => (d, sub(get(a), get(b))),
        Instr::And { d, a, b } => (d, and(get(a), get(b))),
        Instr::Or { d, a, b } => (d, or(get(a), get(b))),
        Instr::Sar { d, a, v } => (d, sar(get(a), v)),
        _ => unreachable!("the other kinds do more than that"),
    }
}

/// '3: kind above 12', '2: present field not the kind's; stray bit in a word',
/// then off grade (4).
pub fn judge_fields(fields: Fields) -> Result<Instr, Refusal> {
    let Some(instr) = Instr::of_kind(fields) else {
        return Err(Refusal::UnknownKind);
    };
    if instr.fields() != fields {
        return Err(Refusal::Foreign);
    }
    if instr.is_off_range() {
        return Err(Refusal::OffRange);
    }
    Ok(instr)
}

/// 'Per word 3, 2, 4.'
pub fn judge(word: u64) -> Result<Instr, Refusal> {
    judge_fields(fields(word))
}

/// 'Per word 3, 2, 4, 8': '8: GOIF v above n.'
pub fn judge_in_routine(word: u64, n: usize) -> Result<Instr, Refusal> {
    let instr = judge(word)?;
    match instr {
        Instr::GoIf { v, .. } if v as usize > n => Err(Refusal::BadLanding),
        _ => Ok(instr),
    }
}

/// A routine's instructions: '5; per word 3, 2, 4, 8'. 'Among instructions the
/// lowest place comes first.'
pub fn judge_routine(words: &[u64]) -> Result<Vec<Instr>, Refused> {
    let n = words.len();
    if n > MOST_INSTRUCTIONS {
        return refuse(Refusal::Oversize);
    }
    let judged = words.iter().enumerate();
    judged
        .map(|(place, &word)| judge_in_routine(word, n).map_err(|refusal| (refusal, place)))
        .collect()
}
