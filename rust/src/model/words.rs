//! Packs and unpacks the fields of a word.

/// The fields of an instruction or command word.
#[derive(Clone, Copy, Debug, PartialEq, Eq, Default)]
#[allow(missing_docs)]
pub struct Fields {
    pub kind: u32,
    pub d: u32,
    pub a: u32,
    pub b: u32,
    pub c: u32,
    /// Bits 24–31, which are zero in every instruction and command.
    pub zero: u32,
    pub v: u32,
}

/// Bits `first` to `last` of a word, as a number.
fn bits(word: u64, first: u32, last: u32) -> u32 {
    let above = u128::from(word) / (1 << first);
    (above % (1 << (last - first + 1))) as u32
}

/// 'An instruction or command is a 64-bit word: kind in bits 0–7, d 8–11,
/// a 12–15, b 16–19, c 20–23, zero 24–31, v 32–63.'
pub fn fields(word: u64) -> Fields {
    Fields {
        kind: bits(word, 0, 7),
        d: bits(word, 8, 11),
        a: bits(word, 12, 15),
        b: bits(word, 16, 19),
        c: bits(word, 20, 23),
        zero: bits(word, 24, 31),
        v: bits(word, 32, 63),
    }
}

/// Packs fields that fit their bits.
pub fn word(fields: Fields) -> u64 {
    let at = |field: u32, first: u32| u64::from(field) * (1 << first);
    at(fields.kind, 0)
        + at(fields.d, 8)
        + at(fields.a, 12)
        + at(fields.b, 16)
        + at(fields.c, 20)
        + at(fields.zero, 24)
        + at(fields.v, 32)
}
