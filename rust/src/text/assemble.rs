//! Routines from text: one instruction a line, in the rules' names.

use super::kinds::{Field, Kind, CONDITIONS, EVENT, GOIF, KINDS};
use super::objections::objections;
use super::said::{is_name, lines, no_name, quoted, Fault, Faults, Parsed, Place, Said};
use super::{hint, number, Names};
use crate::model::words::{word, Fields};
use crate::names::REGISTERS;
use crate::Refusal;
use std::collections::{BTreeSet, HashMap};

/// The word that marks a landing.
const LANDING: &str = "landing";

/// How a text wrote an instruction's number.
#[derive(Clone, Debug, PartialEq, Eq)]
pub enum Shown {
    /// As a decimal number, as an event's name, or not at all.
    Plain,
    /// As a negative number.
    Signed,
    /// As a hexadecimal number.
    Hex,
    /// As a label.
    Label(String),
}

/// An instruction's part of a text.
#[derive(Clone, Debug, PartialEq, Eq)]
pub struct Source {
    /// The instruction, without its labels.
    pub place: Place,
    /// Its operands, each with its field.
    pub operands: Vec<(Field, Place)>,
    /// How its number is written.
    pub shown: Shown,
}

impl Source {
    /// Where a field stands, or the whole instruction.
    pub fn field(&self, field: Option<Field>) -> Place {
        let found = self
            .operands
            .iter()
            .find(|(known, _)| Some(*known) == field);
        found.map_or(self.place, |&(_, place)| place)
    }
}

/// A routine that was written as text.
#[derive(Clone, Debug, Default, PartialEq, Eq)]
pub struct Routine {
    /// The instructions.
    pub words: Vec<u64>,
    /// The text of each instruction.
    pub sources: Vec<Source>,
    /// The labels, each with its instruction, in the order of the text.
    pub labels: Vec<(String, u32)>,
    /// The instructions that the text marks as landings, rising.
    pub landings: Vec<u32>,
}

impl Routine {
    /// The line of each instruction, counted from 1.
    pub fn lines(&self) -> Vec<usize> {
        self.sources
            .iter()
            .map(|source| source.place.line)
            .collect()
    }

    /// What the library refuses the words for, with the places in the text.
    pub fn doubts(&self) -> Vec<Fault> {
        let count = self.words.len();
        let all = self.words.iter().zip(&self.sources).zip(0..);
        all.flat_map(|((&word, source), place)| {
            let is_signed = source.shown == Shown::Signed;
            let found = objections(word, count, is_signed).into_iter();
            found.map(move |found| Fault {
                refusal: Some((found.refusal, place)),
                ..Fault::new(source.field(found.field), found.message)
            })
        })
        .collect()
    }
}

/// Labels, each with its instruction.
type Labels<'a> = HashMap<&'a str, u32>;

/// What the words of a routine may mean.
struct Meanings<'a> {
    names: &'a Names,
    labels: Labels<'a>,
}

fn register(said: Said) -> Result<u32, Fault> {
    let digits = said.text.strip_prefix(['r', 'R']);
    let named = digits.and_then(|digits| number(digits).ok());
    match named {
        // Register 15 has a place in a word: the library refuses it.
        Some(register) if (register as usize) < REGISTERS => Ok(register),
        _ if said.text.is_empty() => Err(said.fault("a register is missing")),
        _ if number(said.text).is_ok() => {
            let message = format!("{} is a number; a register stands here", quoted(said.text));
            Err(said.fault(message + ", which SET gives a number"))
        }
        _ => Err(said.fault(format!(
            "{} is no register: they are r0 to r14",
            quoted(said.text)
        ))),
    }
}

fn condition(said: Said, is_short: bool) -> Result<u32, Fault> {
    match CONDITIONS.iter().position(|&name| name == said.text) {
        Some(0) => Ok(0),
        Some(_) if is_short => Err(said.fault(format!(
            "{} compares two registers, and none stands before it",
            quoted(said.text)
        ))),
        Some(condition) => Ok(condition as u32),
        None => {
            let known = CONDITIONS.join(", ");
            let near = hint(said.text, CONDITIONS.into_iter());
            Err(said.fault(format!(
                "{} is no condition: they are {known}{near}",
                quoted(said.text)
            )))
        }
    }
}

/// Whether a number may begin with a character.
fn is_numeric(c: char) -> bool {
    c.is_ascii_digit() || c == '-'
}

/// Whether a word looks like a register's name.
fn is_register(word: &str) -> bool {
    let digits = word.strip_prefix(['r', 'R']);
    digits.is_some_and(|digits| !digits.is_empty() && digits.bytes().all(|c| c.is_ascii_digit()))
}

impl Meanings<'_> {
    /// An instruction's number: a number, a label, or for EVENT an event's name.
    fn value(&self, kind: &Kind, said: Said, faults: &mut Faults) -> Result<(u32, Shown), Fault> {
        let word = said.text;
        if !is_name(word) {
            let shown = match (word.starts_with('-'), word.starts_with("0x")) {
                (true, _) => Shown::Signed,
                (_, true) => Shown::Hex,
                _ => Shown::Plain,
            };
            return match number(word) {
                Ok(value) => Ok((value, shown)),
                Err(_) if faults.is_given(word) => Ok((0, Shown::Plain)),
                Err(_) if kind.name == EVENT && !word.starts_with(is_numeric) => {
                    Err(said.fault(format!("{} is no event's name or number", quoted(word))))
                }
                Err(message) => Err(said.fault(message)),
            };
        }
        if let (true, Ok(event)) = (kind.name == EVENT, self.names.event(word)) {
            return Ok((event, Shown::Plain));
        }
        match self.labels.get(word) {
            Some(&instruction) => Ok((instruction, Shown::Label(word.to_string()))),
            None if faults.is_lost(word) && !is_register(word) => Ok((0, Shown::Plain)),
            None => Err(said.fault(self.unknown(kind, word, faults))),
        }
    }

    /// The message about a name that is not known.
    fn unknown(&self, kind: &Kind, word: &str, faults: &mut Faults) -> String {
        let near = match is_register(word) || kind.name == EVENT {
            true => String::new(),
            false => faults.hint(word, self.labels.keys().copied()),
        };
        match kind.name {
            EVENT if is_register(word) => {
                format!("{} is a register; an event stands here", quoted(word))
            }
            EVENT => match self.names.event(word) {
                Err(message) => message,
                Ok(_) => String::new(),
            },
            GOIF if is_register(word) => {
                format!("{} is a register; a label stands here", quoted(word))
            }
            GOIF => format!("no line has the label {}{near}", quoted(word)),
            _ if is_register(word) => {
                format!("{} is a register; a number stands here", quoted(word))
            }
            _ => format!("{} is neither a number nor a label{near}", quoted(word)),
        }
    }

    /// The fields of operands, and how the number is written.
    fn fields(
        &self,
        kind: &Kind,
        form: &[Field],
        operands: &[Said],
        faults: &mut Faults,
    ) -> (Fields, Shown) {
        let mut fields = Fields::default();
        let mut shown = Shown::Plain;
        let is_short = form.len() < most_operands(kind);
        for (field, &said) in form.iter().zip(operands) {
            let found = match field {
                Field::D | Field::A | Field::B => register(said),
                Field::C => condition(said, is_short),
                Field::V => self.value(kind, said, faults).map(|(value, how)| {
                    shown = how;
                    value
                }),
            };
            let value = faults.keep(found).unwrap_or(0);
            match field {
                Field::D => fields.d = value,
                Field::A => fields.a = value,
                Field::B => fields.b = value,
                Field::C => fields.c = value,
                Field::V => fields.v = value,
            }
        }
        (fields, shown)
    }

    /// The word of one statement.
    fn instruction(&self, said: Said, faults: &mut Faults) -> Option<(u64, Source)> {
        let (name, rest) = match said.split_once(char::is_whitespace) {
            Some((name, rest)) => (name, Some(rest)),
            None => (said, None),
        };
        let same = |kind: &Kind| kind.name.eq_ignore_ascii_case(name.text);
        let Some(number) = KINDS.iter().position(same) else {
            faults.add(name.fault(no_instruction(name.text, rest.is_none())));
            return None;
        };
        let kind = &KINDS[number];
        let operands = rest.map_or(Vec::new(), |rest| rest.split(','));
        let strays = strays(kind, &operands);
        if !strays.is_empty() {
            strays.into_iter().for_each(|fault| faults.add(fault));
            return None;
        }
        let form = faults.keep(form_of(kind, name, &operands))?;
        let (fields, shown) = self.fields(kind, form, &operands, faults);
        let places = operands.iter().map(Said::place);
        let source = Source {
            place: said.place(),
            operands: form.iter().copied().zip(places).collect(),
            shown,
        };
        let kind = number as u32;
        Some((word(Fields { kind, ..fields }), source))
    }
}

/// Whether a word names an instruction.
fn is_kind(word: &str) -> bool {
    KINDS
        .iter()
        .any(|kind| kind.name.eq_ignore_ascii_case(word))
}

/// Whether a word begins a comment in other languages.
fn begins_comment(word: &str) -> bool {
    [";", "//", "/*"].iter().any(|mark| word.starts_with(mark))
}

/// The message about a line that begins with no instruction.
fn no_instruction(word: &str, is_alone: bool) -> String {
    let known = KINDS.iter().map(|kind| kind.name);
    let near = hint(word, known.chain([LANDING]));
    let near = match near.is_empty() {
        false => near,
        true if begins_comment(word) || word.starts_with('\'') => {
            "; a comment begins with #".to_string()
        }
        true if is_alone && is_name(word) => "; a label ends with a colon".to_string(),
        true => String::new(),
    };
    format!("{} is no instruction{near}", quoted(word))
}

/// What is wrong with a word that follows another without a comma, if so many
/// operands may still come.
fn stray(kind: &Kind, (before, word): (Said, Said), missing: usize) -> String {
    let joined = format!("{}{}", before.text, word.text);
    let is_torn = |text: &str| is_register(text) || number(text).is_ok();
    let said = quoted(word.text);
    match missing {
        _ if is_kind(word.text) => {
            format!("{said} begins a second instruction: write one a line")
        }
        _ if is_torn(&joined) && !is_torn(before.text) => {
            format!("a blank is too many: write {}", quoted(&joined))
        }
        0 => format!("{said} is one word too many, as in '{}'", kind.example),
        _ => format!("a comma is missing before {said}, as in '{}'", kind.example),
    }
}

/// What is wrong with the words of operands: they begin a comment, or no comma
/// separates them. All missing commas are reported, unless there are too many words.
fn strays(kind: &Kind, operands: &[Said]) -> Vec<Fault> {
    let words: Vec<Vec<Said>> = operands.iter().map(Said::words).collect();
    let comment = words
        .iter()
        .flatten()
        .find(|word| begins_comment(word.text));
    if let Some(word) = comment {
        let message = format!("a comment begins with #, not with {}", quoted(word.text));
        return vec![word.fault(message)];
    }
    // An instruction without operands must have no words after it.
    let words = words.iter().filter(|_| most_operands(kind) > 0);
    let pairs: Vec<&[Said]> = words.flat_map(|words| words.windows(2)).collect();
    let missing = most_operands(kind).saturating_sub(operands.len());
    let shown = if pairs.len() <= missing {
        pairs.len()
    } else {
        1
    };
    let fault = |pair: &&[Said]| pair[1].fault(stray(kind, (pair[0], pair[1]), missing));
    pairs.iter().take(shown).map(fault).collect()
}

/// The most operands of a kind.
fn most_operands(kind: &Kind) -> usize {
    kind.forms[kind.forms.len() - 1].len()
}

/// The form that has as many operands, or what is wrong with them.
fn form_of(kind: &Kind, name: Said, operands: &[Said]) -> Result<&'static [Field], Fault> {
    let found = kind.forms.iter().find(|form| form.len() == operands.len());
    if let Some(form) = found {
        return Ok(form);
    }
    if let Some(empty) = operands.iter().find(|operand| operand.text.is_empty()) {
        return Err(empty.fault(format!(
            "a comma is too many: it goes as in '{}'",
            kind.example
        )));
    }
    let most = most_operands(kind);
    let message = match operands.get(most) {
        Some(_) if most == 0 => format!("{} takes no operand", kind.name),
        Some(more) => format!(
            "{} is one operand too many, as in '{}'",
            quoted(more.text),
            kind.example
        ),
        None => format!("an operand is missing, as in '{}'", kind.example),
    };
    let at = operands.get(most).or(operands.last()).unwrap_or(&name);
    Err(at.fault(message))
}

/// The statements of a text, and the labels and landings before them.
#[derive(Default)]
struct Statements<'a> {
    statements: Vec<Said<'a>>,
    labels: Vec<(&'a str, u32)>,
    known: Labels<'a>,
    /// The line of each label.
    lines: HashMap<&'a str, usize>,
    landings: BTreeSet<u32>,
}

impl<'a> Statements<'a> {
    /// Takes a label.
    fn label(&mut self, label: Said<'a>, names: &Names) -> Result<(), Fault> {
        let instruction = self.next();
        if label.text.is_empty() {
            return Err(label.fault("a label is missing before the colon"));
        }
        if is_name(label.text) && names.event(label.text).is_ok() {
            return Err(label.fault(format!(
                "{} is the name of an event: choose another label",
                quoted(label.text)
            )));
        }
        if !is_name(label.text) || is_register(label.text) || label.text == LANDING {
            return Err(label.fault(no_name(label.text, "label")));
        }
        if let Some(first) = self.lines.get(label.text) {
            let message = format!("the label {} stands twice", quoted(label.text));
            return Err(label.fault(format!("{message}, first in line {first}")));
        }
        self.lines.insert(label.text, label.place().line);
        self.known.insert(label.text, instruction);
        self.labels.push((label.text, instruction));
        Ok(())
    }

    /// The instruction that the next statement will be.
    fn next(&self) -> u32 {
        self.statements.len() as u32
    }

    /// Takes a line: marks and labels in any order, and then a statement.
    fn line(&mut self, mut said: Said<'a>, names: &Names, faults: &mut Faults) {
        let is_mark = |word: &Said| word.text.eq_ignore_ascii_case(LANDING);
        loop {
            let words = said.words();
            if words.first().is_some_and(is_mark) {
                self.landings.insert(self.next());
                let behind = said.split_once(char::is_whitespace);
                said = match behind {
                    Some((_, rest)) => rest,
                    None => return,
                };
            } else if let Some((label, rest)) = said.split_once(|c| c == ':') {
                if faults.keep(self.label(label, names)).is_none() {
                    faults.lose(label.text);
                }
                said = rest;
            } else {
                break;
            }
        }
        if let [word] = said.words()[..] {
            // It may be a label without its colon.
            if !is_kind(word.text) {
                faults.lose(word.text);
            }
        }
        if !said.text.is_empty() {
            self.statements.push(said);
        }
    }
}

/// What the library refuses of the lines that could be read. If other lines could
/// not, the routine's end is not known, so jumps are not judged.
fn other_doubts(routine: &Routine, is_torn: bool) -> impl Iterator<Item = Fault> {
    let is_sure = move |doubt: &Fault| match doubt.refusal {
        Some((Refusal::BadLanding, _)) => !is_torn,
        _ => true,
    };
    let sure = routine.doubts().into_iter().filter(is_sure);
    sure.map(|doubt| Fault {
        refusal: None,
        ..doubt
    })
}

/// The words of a routine's text: an instruction a line, labels before a colon,
/// `landing` before a landing, comments after #.
pub fn assemble(text: &[u8], names: &Names) -> Parsed<Routine> {
    let mut faults = Faults::default();
    let mut said = Statements::default();
    for line in lines(text, &mut faults) {
        said.line(line, names, &mut faults);
    }
    let labels = said.known;
    let meanings = Meanings { names, labels };
    let listed = said.labels.into_iter();
    let mut routine = Routine {
        labels: listed.map(|(name, at)| (name.to_string(), at)).collect(),
        landings: said.landings.into_iter().collect(),
        ..Routine::default()
    };
    for statement in said.statements {
        let found = meanings.instruction(statement, &mut faults);
        // A line that cannot be read counts as an instruction, so the others keep their places.
        let (word, source) = found.unwrap_or_else(|| unread(statement));
        routine.words.push(word);
        routine.sources.push(source);
    }
    if !faults.is_empty() {
        let is_torn = faults.is_torn;
        other_doubts(&routine, is_torn).for_each(|doubt| faults.add(doubt));
    }
    faults.or(Some(routine))
}

/// A HALT for a statement that cannot be read.
fn unread(said: Said) -> (u64, Source) {
    let source = Source {
        place: said.place(),
        operands: Vec::new(),
        shown: Shown::Plain,
    };
    (word(Fields::default()), source)
}
