//! A line as it is typed: keys, what they do to it, and the lines before.

/// A key, or what it asks for.
#[derive(Clone, Copy, Debug, PartialEq, Eq)]
pub enum Key {
    Letter(char),
    Left,
    Right,
    First,
    Last,
    Earlier,
    Later,
    Backspace,
    Delete,
    /// Control-U, -K and -W erase what is before the cursor, what is after it, and the
    /// word before it.
    CutBefore,
    CutBehind,
    CutWord,
    Enter,
    /// Control-C.
    Leave,
    /// Control-D, which leaves an empty line.
    End,
    Unknown,
}

/// The key that a sequence after the escape key means.
fn escaped(bytes: &mut impl Iterator<Item = u8>) -> Option<Key> {
    let (first, last) = match bytes.next()? {
        b'[' => sequence(bytes)?,
        b'O' => (None, bytes.next()?),
        _ => return Some(Key::Unknown),
    };
    Some(match (last, first) {
        (b'A', _) => Key::Earlier,
        (b'B', _) => Key::Later,
        (b'C', _) => Key::Right,
        (b'D', _) => Key::Left,
        (b'H', _) | (b'~', Some(b'1' | b'7')) => Key::First,
        (b'F', _) | (b'~', Some(b'4' | b'8')) => Key::Last,
        (b'~', Some(b'3')) => Key::Delete,
        _ => Key::Unknown,
    })
}

/// The first byte of a sequence's numbers, if it has any, and its last byte. The
/// numbers also tell whether Control or Shift was held.
fn sequence(bytes: &mut impl Iterator<Item = u8>) -> Option<(Option<u8>, u8)> {
    let mut first = None;
    loop {
        let byte = bytes.next()?;
        match byte {
            b'0'..=b'?' | b' '..=b'/' => first = first.or(Some(byte)),
            // The console's function keys have one byte more.
            b'[' => return bytes.next().map(|_| (first, b'[')),
            _ => return Some((first, byte)),
        }
    }
}

/// The letter whose first byte this is.
fn letter(first: u8, bytes: &mut impl Iterator<Item = u8>) -> Option<Key> {
    let more = match first {
        0xc0..=0xdf => 1,
        0xe0..=0xef => 2,
        0xf0..=0xff => 3,
        _ => 0,
    };
    let mut all = vec![first];
    for _ in 0..more {
        all.push(bytes.next()?);
    }
    let text = std::str::from_utf8(&all).ok();
    let letter = text.and_then(|text| text.chars().next());
    Some(letter.map_or(Key::Unknown, Key::Letter))
}

/// What a letter asks for with Control.
fn control(letter: u8) -> Key {
    match letter {
        b'A' => Key::First,
        b'B' => Key::Left,
        b'C' => Key::Leave,
        b'D' => Key::End,
        b'E' => Key::Last,
        b'F' => Key::Right,
        b'H' => Key::Backspace,
        b'J' | b'M' => Key::Enter,
        b'K' => Key::CutBehind,
        b'N' => Key::Later,
        b'P' => Key::Earlier,
        b'U' => Key::CutBefore,
        b'W' => Key::CutWord,
        _ => Key::Unknown,
    }
}

/// The byte of the escape key, and that of the key that erases.
const ESCAPE: u8 = 0x1b;
const ERASE: u8 = 0x7f;

/// The bit that Control takes from a letter.
const TAKEN: u8 = 0x40;

/// The next key of a terminal's bytes; none at their end.
pub fn key(bytes: &mut impl Iterator<Item = u8>) -> Option<Key> {
    match bytes.next()? {
        ESCAPE => escaped(bytes),
        ERASE => Some(Key::Backspace),
        byte if byte < b' ' => Some(control(byte | TAKEN)),
        byte => letter(byte, bytes),
    }
}

/// How a line came to its end.
#[derive(Debug, PartialEq, Eq)]
pub enum Typed {
    Line(String),
    Left,
}

/// A line that is being typed.
pub struct Editor<'a> {
    pub line: Vec<char>,
    pub at: usize,
    /// The lines before, the last one last.
    before: &'a [String],
    /// The index of the one that is shown. Past the last one, an empty line is shown.
    shown: usize,
}

impl<'a> Editor<'a> {
    pub fn new(before: &'a [String]) -> Editor<'a> {
        Editor {
            line: Vec::new(),
            at: 0,
            before,
            shown: before.len(),
        }
    }

    /// Shows one of the lines before. Past the last one, shows an empty line.
    fn show(&mut self, shown: usize) {
        self.shown = shown.min(self.before.len());
        let line = self.before.get(self.shown);
        self.line = line.map_or(Vec::new(), |line| line.chars().collect());
        self.at = self.line.len();
    }

    /// Cuts letters out.
    fn cut(&mut self, from: usize, to: usize) {
        self.line.drain(from..to.min(self.line.len()));
        self.at = from;
    }

    /// Where the word before begins.
    fn word(&self) -> usize {
        let before = &self.line[..self.at];
        let end = before
            .iter()
            .rposition(|c| *c != ' ')
            .map_or(0, |last| last + 1);
        before[..end]
            .iter()
            .rposition(|c| *c == ' ')
            .map_or(0, |blank| blank + 1)
    }

    /// Does what a key asks for. Returns how the line ended, if it did.
    pub fn press(&mut self, key: Key) -> Option<Typed> {
        let (at, end) = (self.at, self.line.len());
        match key {
            Key::Letter(letter) => {
                self.line.insert(at, letter);
                self.at += 1;
            }
            Key::Left => self.at = at.saturating_sub(1),
            Key::Right => self.at = (at + 1).min(end),
            Key::First => self.at = 0,
            Key::Last => self.at = end,
            Key::Earlier => self.show(self.shown.saturating_sub(1)),
            Key::Later => self.show(self.shown + 1),
            Key::Backspace => self.cut(at.saturating_sub(1), at),
            Key::Delete | Key::End if at < end => self.cut(at, at + 1),
            Key::CutBefore => self.cut(0, at),
            Key::CutBehind => self.cut(at, end),
            Key::CutWord => self.cut(self.word(), at),
            Key::Enter => return Some(Typed::Line(self.line.iter().collect())),
            Key::Leave => return Some(Typed::Left),
            Key::End if end == 0 => return Some(Typed::Left),
            Key::End | Key::Delete | Key::Unknown => (),
        }
        None
    }

    /// What a terminal is sent to show the line after its question. If the line is too
    /// long, only the part around the cursor is shown.
    pub fn drawn(&self, question: &str, width: usize) -> String {
        let room = width.saturating_sub(question.chars().count() + 1).max(8);
        let from = self.at.saturating_sub(room);
        let part: String = self.line.iter().skip(from).take(room).collect();
        let column = question.chars().count() + self.at - from;
        format!("\r{question}{part}\x1b[K\r\x1b[{column}C")
    }
}
