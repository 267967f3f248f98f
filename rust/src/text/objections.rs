//! Explains why an instruction is refused. The library decides whether it is.

use super::Field;
use crate::model::words::fields;
use crate::model::Instr;
use crate::names::{GUEST_REGISTERS, TOP_EVENT, TOP_SHIFT};
use crate::Refusal;

/// What is wrong with one field of an instruction.
#[derive(Clone, Debug, PartialEq, Eq)]
pub struct Objection {
    /// The field, or none for the whole instruction.
    pub field: Option<Field>,
    /// The refusal that it brings.
    pub refusal: Refusal,
    /// What is wrong.
    pub message: String,
}

fn objection(field: Field, refusal: Refusal, message: String) -> Objection {
    Objection {
        field: Some(field),
        refusal,
        message,
    }
}

/// What is wrong with an instruction. The routine has so many instructions. The
/// number may be written as a negative one.
pub fn objections(word: u64, count: usize, is_signed: bool) -> Vec<Objection> {
    let all = fields(word);
    let written = |v: u32| match is_signed {
        true => (v as i32).to_string(),
        false => v.to_string(),
    };
    let named = [(Field::D, all.d), (Field::A, all.a), (Field::B, all.b)];
    let top = GUEST_REGISTERS - 1;
    let mut found: Vec<Objection> = named
        .into_iter()
        .filter(|&(_, register)| register >= GUEST_REGISTERS)
        .map(|(field, register)| {
            let message = format!("r{register} is hidden: a routine has r0 to r{top}");
            objection(field, Refusal::OffRange, message)
        })
        .collect();
    let (refusal, message) = match Instr::of_kind(all) {
        Some(Instr::Sar { v, .. }) if v > TOP_SHIFT => (
            Refusal::OffRange,
            format!("SAR by {}: it shifts by 0 to {TOP_SHIFT}", written(v)),
        ),
        Some(Instr::Event { v }) if v > TOP_EVENT => (
            Refusal::OffRange,
            format!("{} is no event: they are 0 to {TOP_EVENT}", written(v)),
        ),
        Some(Instr::GoIf { v, .. }) if v as usize > count => (
            Refusal::BadLanding,
            match is_signed {
                true => format!("{} is no instruction", written(v)),
                false => format!("{v} is past the routine's end, which is {count}"),
            },
        ),
        _ => return found,
    };
    found.push(objection(Field::V, refusal, message));
    found
}

/// What keeps an instruction at a place from the class that always finishes.
pub fn backward(word: u64, place: u32) -> Option<Objection> {
    let (field, message) = match Instr::of_kind(fields(word)) {
        Some(Instr::GoX { .. }) => (Field::D, "a GOX may go back"),
        Some(Instr::GoIf { v, .. }) if v == place => (Field::V, "it goes to itself"),
        Some(Instr::GoIf { v, .. }) if v < place => (Field::V, "it goes back"),
        _ => return None,
    };
    let message = format!("{message}, so the routine may never finish");
    Some(objection(field, Refusal::NotForward, message))
}
