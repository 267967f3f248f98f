//! Explains why reading refused a routine's bytes. The library decides.

use super::kinds::{Field, KINDS};
use crate::names::{GUEST_REGISTERS, MOST_INSTRUCTIONS, TOP_CONDITION, TOP_EVENT, TOP_SHIFT};
use crate::Refusal;

/// The bytes of the count.
const COUNT: usize = 2;

/// A map has a bit for each of six fields.
const MAPS: u8 = 64;

/// The bit of the number, which has four bytes where the others have one.
const NUMBER: u8 = 5;

/// The fields after the kind, in the order of their bits from 1 on.
const FIELDS: [(Field, &str); 5] = [
    (Field::D, "d"),
    (Field::A, "a"),
    (Field::B, "b"),
    (Field::C, "c"),
    (Field::V, "v"),
];

/// An instruction's bytes: its map and the bytes after it.
struct Bytes<'a> {
    map: u8,
    fields: &'a [u8],
}

impl Bytes<'_> {
    /// The bytes of the fields that a map has.
    fn length(map: u8) -> usize {
        let has_number = usize::from(map >> NUMBER & 1);
        map.count_ones() as usize + 3 * has_number
    }

    /// A field by its bit, if the map has it.
    fn field(&self, bit: u8) -> Option<u32> {
        if self.map >> bit & 1 == 0 {
            return None;
        }
        let from = Bytes::length(self.map & ((1 << bit) - 1));
        let bytes = self.fields.get(from..)?;
        match bit {
            NUMBER => Some(u32::from_le_bytes(bytes.get(..4)?.try_into().ok()?)),
            _ => bytes.first().copied().map(u32::from),
        }
    }

    fn kind(&self) -> u32 {
        self.field(0).unwrap_or(0)
    }

    /// A field that should not be there.
    fn foreign(&self) -> Option<String> {
        if self.map >= MAPS {
            return Some(format!(
                "its map is {}, and maps are below {MAPS}",
                self.map
            ));
        }
        if self.field(0) == Some(0) {
            return Some("its kind is present and 0".to_string());
        }
        let kind = KINDS.get(self.kind() as usize)?;
        let own = kind.forms.last()?;
        FIELDS.iter().zip(1..).find_map(|((field, name), bit)| {
            let value = self.field(bit)?;
            match (own.contains(field), value) {
                (false, _) => Some(format!("{} has no field {name}", kind.name)),
                (true, 0) => Some(format!("its field {name} is present and 0")),
                _ => None,
            }
        })
    }

    /// A field that is out of its range.
    fn off_range(&self) -> Option<String> {
        let top = GUEST_REGISTERS - 1;
        let register = (1..4)
            .filter_map(|bit| self.field(bit))
            .find(|&register| register > top);
        if let Some(register) = register {
            return Some(format!("register {register}: a routine has r0 to r{top}"));
        }
        let condition = self.field(4).filter(|&condition| condition > TOP_CONDITION);
        if let Some(condition) = condition {
            return Some(format!(
                "condition {condition}: they are 0 to {TOP_CONDITION}"
            ));
        }
        let (number, name) = (self.field(NUMBER)?, KINDS.get(self.kind() as usize)?.name);
        match name {
            "SAR" => Some(format!("SAR by {number}: it shifts by 0 to {TOP_SHIFT}")),
            _ => Some(format!("{number} is no event: they are 0 to {TOP_EVENT}")),
        }
    }
}

/// Where instruction `place` begins, if all before it are whole.
fn begin(bytes: &[u8], place: u32) -> Option<usize> {
    (0..place).try_fold(COUNT, |at, _| Some(at + 1 + Bytes::length(*bytes.get(at)?)))
}

/// Why reading refused bytes, at an instruction.
pub fn refused_bytes(bytes: &[u8], refusal: Refusal, place: u32) -> Option<String> {
    let count = u16::from_le_bytes([*bytes.first()?, *bytes.get(1)?]);
    let at = begin(bytes, place)?;
    let instruction = bytes.get(at..).and_then(|rest| rest.split_first());
    let instruction = instruction.map(|(&map, fields)| Bytes { map, fields });
    match refusal {
        Refusal::Short => Some(format!("the count is {count}, and the bytes end early")),
        Refusal::Oversize => Some(format!(
            "the count is {count}, and a routine has at most {MOST_INSTRUCTIONS} instructions"
        )),
        Refusal::Trailing => {
            let end = begin(bytes, count.into())?;
            let more = bytes.len().checked_sub(end)?;
            Some(format!(
                "{more} bytes more follow the last instruction"
            ))
        }
        Refusal::UnknownKind => {
            let kind = instruction?.kind();
            Some(format!("kind {kind}: they are 0 to {}", KINDS.len() - 1))
        }
        Refusal::Foreign => instruction?.foreign(),
        Refusal::OffRange => instruction?.off_range(),
        _ => None,
    }
}
