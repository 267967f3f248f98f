//! The kinds of instructions, as they are written.

/// A field of an instruction.
#[derive(Clone, Copy, Debug, PartialEq, Eq)]
#[allow(missing_docs)]
pub enum Field {
    D,
    A,
    B,
    C,
    V,
}

use Field::{A, B, C, D, V};

/// How a kind is written: its name, the fields of its operands, and an example.
pub(super) struct Kind {
    pub name: &'static str,
    /// The short form, if there is one, stands first: its condition is `always`.
    pub forms: &'static [&'static [Field]],
    pub example: &'static str,
}

#[rustfmt::skip]
/// The kinds, in the order of their numbers.
pub(super) const KINDS: [Kind; 13] = [
    Kind { name: "HALT", forms: &[&[]], example: "HALT" },
    Kind { name: "SET", forms: &[&[D, V]], example: "SET r1, 200" },
    Kind { name: "MOVE", forms: &[&[D, A]], example: "MOVE r1, r2" },
    Kind { name: "ADD", forms: &[&[D, A, B]], example: "ADD r3, r1, r2" },
    Kind { name: "SUB", forms: &[&[D, A, B]], example: "SUB r3, r1, r2" },
    Kind { name: "AND", forms: &[&[D, A, B]], example: "AND r3, r1, r2" },
    Kind { name: "OR", forms: &[&[D, A, B]], example: "OR r3, r1, r2" },
    Kind { name: "SAR", forms: &[&[D, A, V]], example: "SAR r1, r2, 3" },
    Kind { name: "LOAD", forms: &[&[D, A]], example: "LOAD r1, r2" },
    Kind { name: "STORE", forms: &[&[A, B]], example: "STORE r1, r2" },
    Kind { name: "GOIF", forms: &[&[C, V], &[A, B, C, V]], example: "GOIF r1, r2, below, loop' or 'GOIF always, loop" },
    Kind { name: "GOX", forms: &[&[D, C], &[D, A, B, C]], example: "GOX r3, r1, r2, below' or 'GOX r3, always" },
    Kind { name: "EVENT", forms: &[&[V]], example: "EVENT gas' or 'EVENT 0" },
];

/// The kind whose number is a jump's target.
pub(super) const GOIF: &str = "GOIF";

/// The kind whose number is an event.
pub(super) const EVENT: &str = "EVENT";

/// The kind that takes any number.
pub(super) const SET: &str = "SET";

/// The conditions, in the order of their numbers.
pub(super) const CONDITIONS: [&str; 4] = ["always", "equal", "below", "less"];

/// A condition's name.
pub fn condition_name(c: u32) -> &'static str {
    CONDITIONS.get(c as usize).copied().unwrap_or("?")
}
