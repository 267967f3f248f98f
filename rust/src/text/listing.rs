//! Routines and commands as text.

use super::kinds::{condition_name, Field, EVENT, GOIF, KINDS, SET};
use super::{Names, Routine, Shown};
use crate::model::words::{fields, Fields};
use crate::model::{Command, Instr};
use std::collections::BTreeMap;

/// A word of the guest as text, with the text of its number.
fn statement(fields: Fields, number: &str) -> String {
    let kind = &KINDS[fields.kind as usize];
    let plain = (fields.a, fields.b, fields.c) == (0, 0, 0);
    let form = match kind.forms {
        [short, _] if plain => short,
        [.., whole] => whole,
        [] => return kind.name.to_string(),
    };
    let operand = |field: &Field| match field {
        Field::D => format!("r{}", fields.d),
        Field::A => format!("r{}", fields.a),
        Field::B => format!("r{}", fields.b),
        Field::C => condition_name(fields.c).to_string(),
        Field::V => number.to_string(),
    };
    let operands: Vec<String> = form.iter().map(operand).collect();
    format!("{} {}", kind.name, operands.join(", "))
        .trim_end()
        .to_string()
}

/// How a routine is listed.
pub struct Listed<'a> {
    /// The words.
    pub words: &'a [u64],
    /// The text that they come from, if they come from one.
    pub text: Option<&'a Routine>,
    /// The names of events.
    pub names: &'a Names,
    /// Whether numbers from 2^31 on are shown as negative ones.
    pub signed: bool,
}

impl Listed<'_> {
    /// The labels of each instruction: those of the text, or one for each target.
    pub fn labels(&self) -> BTreeMap<u32, Vec<String>> {
        let mut labels: BTreeMap<u32, Vec<String>> = BTreeMap::new();
        if let Some(text) = self.text {
            for (name, place) in &text.labels {
                labels.entry(*place).or_default().push(name.clone());
            }
            return labels;
        }
        for &word in self.words {
            match Instr::of_kind(fields(word)) {
                Some(Instr::GoIf { v, .. }) if v as usize <= self.words.len() => {
                    labels.insert(v, vec![self.target(v)]);
                }
                _ => (),
            }
        }
        labels
    }

    /// A label for a target that has none. It is no event's name.
    fn target(&self, v: u32) -> String {
        let mut label = format!("at{v}");
        while self.names.event(&label).is_ok() {
            label.push('_');
        }
        label
    }

    fn number(&self, place: usize, fields: Fields) -> String {
        let shown = self.text.and_then(|text| text.sources.get(place));
        let shown = shown.map_or(&Shown::Plain, |source| &source.shown);
        let (v, name) = (fields.v, KINDS[fields.kind as usize].name);
        match shown {
            Shown::Label(label) => label.clone(),
            _ if name == EVENT => self.names.word(v),
            Shown::Signed => (v as i32).to_string(),
            Shown::Hex => format!("0x{v:X}"),
            Shown::Plain
                if name == GOIF && self.text.is_none() && v as usize <= self.words.len() =>
            {
                self.target(v)
            }
            Shown::Plain if name == SET && self.signed => (v as i32).to_string(),
            Shown::Plain => v.to_string(),
        }
    }

    /// An instruction, by its place.
    pub fn instruction(&self, place: usize) -> String {
        let word = self.words[place];
        let fields = fields(word);
        match Instr::of_kind(fields) {
            Some(_) => statement(fields, &self.number(place, fields)),
            None => format!("0x{word:016x}"),
        }
    }
}

/// A routine's text, numbered, with the given comments under each instruction. If
/// the words are instructions, [`super::assemble`] makes the same words from it.
pub fn listing(listed: &Listed, under: impl Fn(usize) -> Vec<String>) -> String {
    let count = listed.words.len();
    let labels = listed.labels();
    let landings = listed.text.map_or(&[][..], |text| &text.landings);
    let instructions: Vec<String> = (0..count).map(|place| listed.instruction(place)).collect();
    let width = instructions.iter().map(String::len).max().unwrap_or(0);
    let mut text = String::new();
    for place in 0..=count {
        let number = place as u32;
        let heads = labels.get(&number).into_iter().flatten();
        let heads: String = heads.map(|label| format!("{label}:\n")).collect();
        text += &match (landings.contains(&number), heads.is_empty()) {
            (true, true) => "landing\n".to_string(),
            (true, false) => format!("landing {heads}"),
            (false, _) => heads,
        };
        if let Some(instruction) = instructions.get(place) {
            text += &format!("    {instruction:<width$}  # {place}\n");
        }
        for comment in under(place) {
            text += &format!("#     {comment}\n");
        }
    }
    match text.is_empty() {
        // An empty file is no routine.
        true => "# no instructions\n".to_string(),
        false => text,
    }
}

/// A word of the guest as text, with labels for its target as a listing has them.
pub fn instruction(words: &[u64], place: usize, names: &Names) -> String {
    let listed = Listed {
        words,
        text: None,
        names,
        signed: false,
    };
    listed.instruction(place)
}

/// A command as text. The target of a jump is an address.
pub fn command(word: u64, names: &Names) -> String {
    let when = condition_name;
    match Command::of_word(word) {
        None => format!("0x{word:016x}"),
        Some(Command::Nop) => "NOP".to_string(),
        Some(Command::Halt) => "HALT".to_string(),
        Some(Command::Set { d, v }) => format!("SET r{d}, {v}"),
        Some(Command::Move { d, a }) => format!("MOVE r{d}, r{a}"),
        Some(Command::Add { d, a, b }) => format!("ADD r{d}, r{a}, r{b}"),
        Some(Command::Sub { d, a, b }) => format!("SUB r{d}, r{a}, r{b}"),
        Some(Command::And { d, a, b }) => format!("AND r{d}, r{a}, r{b}"),
        Some(Command::Or { d, a, b }) => format!("OR r{d}, r{a}, r{b}"),
        Some(Command::Sar { d, a, v }) => format!("SAR r{d}, r{a}, {v}"),
        Some(Command::AndI { d, a, v }) => format!("ANDI r{d}, r{a}, {v}"),
        Some(Command::OrI { d, a, v }) => format!("ORI r{d}, r{a}, {v}"),
        Some(Command::Shl { d, a, v }) => format!("SHL r{d}, r{a}, {v}"),
        Some(Command::Load { d, a }) => format!("LOAD r{d}, r{a}"),
        Some(Command::Store { a, b }) => format!("STORE r{a}, r{b}"),
        Some(Command::GoIf { a, b, c, v }) => format!("GOIF r{a}, r{b}, {}, {v}", when(c)),
        Some(Command::GoReg { d, a, b, c }) => format!("GOXR r{d}, r{a}, r{b}, {}", when(c)),
        Some(Command::Look { d, v }) => format!("LOOK r{d}, {}", names.word(v)),
        Some(Command::StopIf { d }) => format!("STOPIF r{d}"),
        Some(Command::Keep { d }) => format!("KEEP r{d}"),
        Some(Command::Event { v }) => format!("EVENT {}", names.word(v)),
    }
}
