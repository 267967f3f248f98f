//! Registers 0 to 14 for the guest, 15 hidden: request [6].

use crate::check::check;
use crate::common::inputs::{instr_word, right_layout};
use crate::common::{cases, Tally};
use crate::engine::{self, engine};
use crate::forward::forward;
use crate::old_lists::renamed;
use crate::read::read;
use crate::rewrite::rewrite;
use crate::run::{run, Lent};
use crate::write::write;
use hemdroas::model::words::{fields, word, Fields};
use hemdroas::model::{Command, Instr};
use hemdroas::names::{GUEST_REGISTERS, HIDDEN, REGISTERS};
use hemdroas::{Answer, Engine, Layout, Record, Refusal};

/// A register field of a word.
fn field<'a>(fields: &'a mut Fields, name: &str) -> &'a mut u32 {
    match name {
        "d" => &mut fields.d,
        "a" => &mut fields.a,
        _ => &mut fields.b,
    }
}

/// The tally's names for a register in a field.
const TAKEN: [(&str, &str); 3] = [
    ("d", "register 14 taken in field d"),
    ("a", "register 14 taken in field a"),
    ("b", "register 14 taken in field b"),
];
const REFUSED: [(&str, &str); 3] = [
    ("d", "register 15 refused with 4 in field d"),
    ("a", "register 15 refused with 4 in field a"),
    ("b", "register 15 refused with 4 in field b"),
];

/// The bytes of a routine of one instruction, whose fields may be any byte.
fn bytes_of(fields: Fields) -> Vec<u8> {
    let Fields {
        kind,
        d,
        a,
        b,
        c,
        v,
        ..
    } = fields;
    let mut map = 0;
    let mut bytes = vec![1, 0, 0];
    for (bit, field) in [kind, d, a, b, c].into_iter().enumerate() {
        if field != 0 {
            map |= 1 << bit;
            bytes.push(field as u8);
        }
    }
    if v != 0 {
        map |= 1 << 5;
        bytes.extend(v.to_le_bytes());
    }
    bytes[2] = map;
    bytes
}

/// A list that names register 14 passes; with register 15 in its place it is
/// refused.
fn checked(tally: &mut Tally, layout: &Layout, mut list: Vec<u64>) {
    assert_eq!(check(tally, layout, &list), Answer::Taken(0), "{list:x?}");
    for command in &mut list {
        *command = renamed(*command, |register| match register {
            14 => HIDDEN,
            other => other,
        });
    }
    let refused = Answer::refused(Refusal::BadBundle, 0);
    assert_eq!(check(tally, layout, &list), refused, "{list:x?}");
}

/// Tries every kind of instruction with each register in each of its fields. It is
/// written, rewritten, checked, run by the engine and read from bytes. In bytes a
/// field can be above 15.
#[test]
fn registers_of_instructions() {
    let (mut tally, mut rng) = Tally::new("registers of instructions", 25);
    let layout = right_layout(&mut rng, 2);
    for _ in 0..cases(20) {
        for kind in 0..=12 {
            for ((name, taken), (_, refused)) in TAKEN.into_iter().zip(REFUSED) {
                // Register 1 in a field that the kind lacks would be a stray bit.
                let ones = fields(instr_word(kind, 1, 1, 1, rng.under(4), 1));
                let mut right = Instr::of_kind(ones).expect("kinds 0 to 12").fields();
                if *field(&mut right, name) == 0 {
                    continue;
                }
                for register in (0..=16).chain([127, 128, 143, 255]) {
                    *field(&mut right, name) = register;
                    let number = if register < GUEST_REGISTERS { 0 } else { 4 };
                    let (answer, _) = read(&mut tally, &bytes_of(right), &[7; 2]);
                    assert_eq!(answer.number(), number, "reading {right:?}");
                    if register > HIDDEN {
                        continue;
                    }
                    let words = [word(right)];
                    let (answer, _) = write(&mut tally, &words, &[7; 20]);
                    assert_eq!(answer.number(), number, "writing {right:?}");
                    let (answer, list) = rewrite(&mut tally, &layout, &words, &[7; 8]);
                    assert_eq!(answer.number(), number, "rewriting {right:?}");
                    let answer = forward(&mut tally, &words);
                    assert_eq!(answer.number() == 4, number == 4, "checking {right:?}");
                    let mut lent = engine::Lent {
                        record: Engine::FIRST.to_record(),
                        memory: rng.cells(layout.size as usize),
                        log: Vec::new(),
                    };
                    let answer = engine(&mut tally, &layout, &words, &mut lent, 1, &[]);
                    assert_eq!(answer.number() == 4, number == 4, "running {right:?}");
                    if register == GUEST_REGISTERS - 1 {
                        checked(&mut tally, &layout, list);
                    }
                    tally.note(taken, u64::from(register == GUEST_REGISTERS - 1));
                    tally.note(refused, u64::from(register == HIDDEN));
                }
            }
        }
    }
    let both = &[0, 4];
    let checks = ("check", &[0, 11][..]);
    tally.conclude(&[("read", both), ("write", both), ("rewrite", both), checks]);
}

/// One step of every kind of command with each register in each of its fields. A
/// machine has all sixteen registers.
#[test]
fn registers_of_commands() {
    let (mut tally, mut rng) = Tally::new("registers of commands", 26);
    let layout = right_layout(&mut rng, 1);
    for _ in 0..cases(3) {
        for kind in 0..=19 {
            for name in ["d", "a", "b"] {
                for register in 0..REGISTERS as u32 {
                    let mut some = fields(instr_word(kind, 1, 2, 3, rng.under(4), 5));
                    *field(&mut some, name) = register;
                    let list = [Command::of_kind(some).expect("kinds 0 to 19").word()];
                    let mut lent = Lent {
                        record: Record(std::array::from_fn(|_| rng.under(layout.size))),
                        memory: rng.cells(layout.size as usize),
                        log: vec![7; 2],
                    };
                    lent.memory[layout.cell as usize] = 0;
                    lent.record.0[Record::PC] = layout.base;
                    lent.record.0[Record::STATUS] = 0;
                    let answer = run(&mut tally, &layout, &list, &mut lent, 1, &[70]);
                    assert_ne!(answer.ending.number(), 22, "{list:x?} is a command");
                }
            }
        }
    }
    tally.conclude(&[]);
}
