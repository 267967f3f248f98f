//! Texts by lines and words, each with its place, and what is wrong with them.

use super::{hint, number};
use crate::Refusal;
use std::collections::HashSet;

/// The most characters of a line, in bytes.
pub const LONGEST_LINE: usize = 1000;

/// The most characters of a name, in bytes.
pub(super) const LONGEST_NAME: usize = 60;

/// The most hints that are sought for one text, since each looks at all known words.
const MOST_HINTS: usize = 100;

/// The most characters of a word that a message quotes.
const LONGEST_QUOTE: usize = 40;

/// A part of a line: line and column are counted from 1, in characters. Line 0
/// stands for the whole text.
#[derive(Clone, Copy, Debug, Default, PartialEq, Eq, PartialOrd, Ord)]
pub struct Place {
    /// The line.
    pub line: usize,
    /// The column of the first character.
    pub column: usize,
    /// How many characters.
    pub length: usize,
}

/// What is wrong with a text, and where.
#[derive(Clone, Debug, PartialEq, Eq)]
pub struct Fault {
    /// Where.
    pub place: Place,
    /// What is wrong.
    pub message: String,
    /// The refusal that the library gives for it, and the instruction, if it
    /// is one of those.
    pub refusal: Option<(Refusal, u32)>,
    /// The name that is not known, if that is what is wrong.
    pub unknown: Option<String>,
}

impl Fault {
    /// What is wrong at a place.
    pub fn new(place: Place, message: impl Into<String>) -> Fault {
        Fault {
            place,
            message: message.into(),
            refusal: None,
            unknown: None,
        }
    }
}

/// Something read from text, or all that is wrong with the text.
pub type Parsed<T> = Result<T, Vec<Fault>>;

/// The faults of a text, as they are found.
#[derive(Default)]
pub(super) struct Faults {
    found: Vec<Fault>,
    /// Whether a line could not be read: what seems to be missing may stand there.
    pub is_torn: bool,
    /// Names that a wrong line was to give.
    lost: HashSet<String>,
    /// How many hints were sought.
    hints: usize,
}

impl Faults {
    /// Adds a fault, unless it follows from another.
    pub fn add(&mut self, fault: Fault) {
        let follows = |name: &String| self.is_lost(name);
        if !fault.unknown.as_ref().is_some_and(follows) {
            self.found.push(fault);
        }
    }

    /// Keeps a name that a wrong line would have defined, so that uses of it are not
    /// reported. The name may be followed by a mark.
    pub fn lose(&mut self, name: &str) {
        let plain = name.trim_end_matches([':', ',', ';']);
        let names = [name, plain].into_iter().filter(|name| !name.is_empty());
        self.lost.extend(names.map(str::to_string));
    }

    /// Whether a wrong line was to give a name.
    pub fn is_given(&self, name: &str) -> bool {
        self.lost.contains(name)
    }

    /// The same, or whether a line that could not be read may be that line.
    pub fn is_lost(&self, name: &str) -> bool {
        self.is_torn || self.is_given(name)
    }

    /// A hint at the known word that somebody may have meant, for the first of a text.
    pub fn hint<'a>(&mut self, word: &str, known: impl Iterator<Item = &'a str>) -> String {
        self.hints += 1;
        match self.hints <= MOST_HINTS {
            true => hint(word, known),
            false => String::new(),
        }
    }

    /// Adds that something is missing, unless a line that could not be read may
    /// hold it.
    pub fn miss(&mut self, fault: Fault) {
        if !self.is_torn {
            self.add(fault);
        }
    }

    /// What was read, or nothing and one fault more.
    pub fn keep<T>(&mut self, result: Result<T, Fault>) -> Option<T> {
        result.map_err(|fault| self.add(fault)).ok()
    }

    /// Whether nothing is wrong.
    pub fn is_empty(&self) -> bool {
        self.found.is_empty()
    }

    /// The faults by their places.
    pub fn sorted(mut self) -> Vec<Fault> {
        // What is wrong with the whole text comes last.
        self.found
            .sort_by_key(|fault| (fault.place.line == 0, fault.place));
        self.found
    }

    /// What was read, if nothing is wrong; else the faults by their places.
    pub fn or<T>(self, value: Option<T>) -> Parsed<T> {
        match value {
            Some(value) if self.is_empty() => Ok(value),
            _ => Err(self.sorted()),
        }
    }
}

/// A part of a line, with its place.
#[derive(Clone, Copy, Debug)]
pub(super) struct Said<'a> {
    pub text: &'a str,
    line: usize,
    column: usize,
}

impl<'a> Said<'a> {
    /// Its place.
    pub fn place(&self) -> Place {
        Place {
            line: self.line,
            column: self.column,
            length: self.text.chars().count().max(1),
        }
    }

    /// What is wrong here.
    pub fn fault(&self, message: impl Into<String>) -> Fault {
        Fault::new(self.place(), message)
    }

    /// A result about these words, with their place if it is a message.
    pub fn check<T>(&self, result: Result<T, String>) -> Result<T, Fault> {
        result.map_err(|message| self.fault(message))
    }

    /// The event that these words name, as it was found.
    pub fn event(&self, found: Result<u32, String>) -> Result<u32, Fault> {
        found.map_err(|message| Fault {
            unknown: number(self.text).is_err().then(|| self.text.to_string()),
            ..self.fault(message)
        })
    }

    /// The bytes from one place to another.
    fn part(&self, from: usize, to: usize) -> Said<'a> {
        Said {
            text: &self.text[from..to],
            line: self.line,
            column: self.column + self.text[..from].chars().count(),
        }
    }

    /// Without the blanks around it.
    pub fn trim(&self) -> Said<'a> {
        let from = self.text.len() - self.text.trim_start().len();
        let to = from + self.text.trim().len();
        self.part(from, to)
    }

    /// The parts before and after a character, without blanks around them.
    pub fn split_once(&self, separator: impl Fn(char) -> bool) -> Option<(Said<'a>, Said<'a>)> {
        let at = self.text.find(&separator)?;
        let behind = at + self.text[at..].chars().next().map_or(0, char::len_utf8);
        let parts = (self.part(0, at), self.part(behind, self.text.len()));
        Some((parts.0.trim(), parts.1.trim()))
    }

    /// The parts between a character, without blanks around them.
    pub fn split(&self, separator: char) -> Vec<Said<'a>> {
        let mut parts = Vec::new();
        let mut rest = *self;
        while let Some((part, behind)) = rest.split_once(|c| c == separator) {
            parts.push(part);
            rest = behind;
        }
        parts.push(rest.trim());
        parts
    }

    /// The words.
    pub fn words(&self) -> Vec<Said<'a>> {
        let mut words = Vec::new();
        let mut rest = self.trim();
        while let Some((word, behind)) = rest.split_once(char::is_whitespace) {
            words.push(word);
            rest = behind;
        }
        if !rest.text.is_empty() {
            words.push(rest);
        }
        words
    }
}

/// The text of a line, or the column and the message of what is wrong with it.
fn plain(line: usize, bytes: &[u8]) -> Result<&str, (usize, String)> {
    let fault = |column, message: &str| Err((column, message.to_string()));
    if bytes.len() > LONGEST_LINE {
        return fault(1, &format!("longer than {LONGEST_LINE} characters"));
    }
    if line == 1 && (bytes.starts_with(&[0xff, 0xfe]) || bytes.starts_with(&[0xfe, 0xff])) {
        return fault(1, "UTF-16 text: save the file as UTF-8");
    }
    let bytes = bytes.strip_suffix(b"\r").unwrap_or(bytes);
    let text = match std::str::from_utf8(bytes) {
        Ok(text) => text,
        Err(error) => {
            let good = String::from_utf8_lossy(&bytes[..error.valid_up_to()]);
            let column = good.chars().count() + 1;
            return fault(column, "not UTF-8 text: save the file as UTF-8");
        }
    };
    if line == 1 && text.starts_with('\u{feff}') {
        return fault(1, "a byte-order mark: save the file as UTF-8 without one");
    }
    let is_control = |(_, c): &(usize, char)| c.is_control() && *c != '\t';
    match text.chars().enumerate().find(is_control) {
        Some((before, found)) => {
            let code = u32::from(found);
            fault(
                before + 1,
                &format!("a control character, U+{code:04X}: delete it"),
            )
        }
        None => Ok(text),
    }
}

/// Whether a character takes no room, so that nobody sees it.
pub fn is_unseen(c: char) -> bool {
    matches!(c, '\u{ad}' | '\u{200b}'..='\u{200f}' | '\u{202a}'..='\u{202e}')
        || matches!(c, '\u{2060}'..='\u{206f}' | '\u{feff}')
}

/// What a line says before its comment.
fn statement(line: usize, bytes: &[u8]) -> Result<Said<'_>, Fault> {
    let fault = |(column, message): (usize, String)| {
        let length = 1;
        let place = Place {
            line,
            column,
            length,
        };
        Fault::new(place, message)
    };
    let text = plain(line, bytes).map_err(fault)?;
    let text = text.split('#').next().unwrap_or("");
    let unseen = text.chars().zip(1..).find(|&(c, _)| is_unseen(c));
    if let Some((found, column)) = unseen {
        let code = u32::from(found);
        let message = format!("a character that nobody sees, U+{code:04X}: delete it");
        return Err(fault((column, message)));
    }
    let column = 1;
    Ok(Said { text, line, column }.trim())
}

/// The lines that hold more than a comment.
pub(super) fn lines<'a>(text: &'a [u8], faults: &mut Faults) -> Vec<Said<'a>> {
    let mut said = Vec::new();
    for (index, bytes) in text.split(|&byte| byte == b'\n').enumerate() {
        said.extend(faults.keep(statement(index + 1, bytes)));
    }
    faults.is_torn = !faults.is_empty();
    said.retain(|said| !said.text.is_empty());
    said
}

/// A word as messages quote it: whole if it is short.
pub(super) fn quoted(word: &str) -> String {
    match word.char_indices().nth(LONGEST_QUOTE) {
        Some((end, _)) => format!("'{}...'", &word[..end]),
        None => format!("'{word}'"),
    }
}

/// Whether a word has the letters of a name.
fn has_letters(word: &str) -> bool {
    let is_first = |c: char| c.is_ascii_alphabetic() || c == '_';
    let is_later = |c: char| c.is_ascii_alphanumeric() || "_-.+".contains(c);
    word.starts_with(is_first) && word.chars().all(is_later)
}

/// Whether a word can be the name of a label, an event or a state.
pub(super) fn is_name(word: &str) -> bool {
    word.len() <= LONGEST_NAME && has_letters(word)
}

/// The message about a word that cannot be a name.
pub(super) fn no_name(word: &str, what: &str) -> String {
    match word.len() > LONGEST_NAME && has_letters(word) {
        true => format!("{} is longer than {LONGEST_NAME} characters", quoted(word)),
        false => format!("{} cannot be a {what}", quoted(word)),
    }
}
