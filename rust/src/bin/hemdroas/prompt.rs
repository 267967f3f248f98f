//! Asking for a line. Questions go to standard error.

use super::editing::{key, Editor, Typed};
use super::files;
use super::problem::Problem;
use super::terminal::Keys;
use std::cell::RefCell;
use std::io::{self, BufRead, IsTerminal, Read};

/// The most bytes of a line that is typed.
const LONGEST_LINE: u64 = 1 << 16;

/// The columns of a terminal that does not say how many it has.
const COLUMNS: usize = 80;

thread_local! {
    /// The lines that were typed at a terminal.
    static TYPED: RefCell<Vec<String>> = const { RefCell::new(Vec::new()) };
}

/// A line of a terminal that gives keys; none if the person leaves.
fn edit(question: &str, keys: &Keys) -> Option<String> {
    // The last column is left free: a line that fills it may wrap.
    let width = keys.columns().unwrap_or(COLUMNS) - 1;
    let before = TYPED.with_borrow(|typed| typed.clone());
    let mut editor = Editor::new(&before);
    let mut bytes = io::stdin().lock().bytes().map_while(Result::ok);
    let typed = loop {
        files::complain(&editor.drawn(question, width));
        let Some(key) = key(&mut bytes) else {
            break Typed::Left;
        };
        if let Some(typed) = editor.press(key) {
            break typed;
        }
    };
    files::complain("\n");
    match typed {
        Typed::Left => None,
        Typed::Line(line) => {
            if !line.trim().is_empty() {
                TYPED.with_borrow_mut(|typed| typed.push(line.clone()));
            }
            Some(line)
        }
    }
}

/// A line as it comes; none at the end of standard input.
fn plain(question: &str) -> Result<Option<String>, Problem> {
    files::complain(question);
    let mut line = Vec::new();
    let mut limited = io::stdin().lock().take(LONGEST_LINE);
    let read = limited.read_until(b'\n', &mut line);
    if !matches!(read, Ok(1..)) {
        files::complain("\n");
    }
    if read.map_err(|error| files::failed("standard input", error))? == 0 {
        return Ok(None);
    }
    // A control character is replaced by a mark, so that a terminal does not obey it.
    let line = String::from_utf8_lossy(&line);
    let is_odd = |c: char| c.is_control() && c != '\t';
    let line = line.trim().replace(is_odd, "\u{fffd}");
    // A line that was not typed at a terminal is shown, so that the answer starts a line.
    if !io::stdin().is_terminal() {
        files::complain(&format!("{line}\n"));
    }
    Ok(Some(line))
}

/// Asks for a line; none if the person leaves.
pub fn ask(question: &str) -> Result<Option<String>, Problem> {
    let is_dumb = std::env::var("TERM").map_or(true, |name| name == "dumb");
    let has_keys = io::stdin().is_terminal() && io::stderr().is_terminal() && !is_dumb;
    match has_keys.then(Keys::new).flatten() {
        Some(keys) => Ok(edit(question, &keys).map(|line| line.trim().to_string())),
        None => plain(question),
    }
}

/// Words with commas or blanks between them.
pub fn words(listed: &str) -> impl Iterator<Item = String> + '_ {
    let words = listed.split([',', ' ', '\t']).map(str::trim);
    words.filter(|word| !word.is_empty()).map(str::to_string)
}

/// Two readings with a comma between them, if they may be one with a decimal comma.
fn doubtful(word: &str, scale: u32) -> Option<(&str, &str)> {
    let is_whole = |part: &str| !part.is_empty() && part.bytes().all(|c| c.is_ascii_digit());
    let parts: Vec<&str> = word.split(',').collect();
    let pairs = parts.windows(2).map(|pair| (pair[0], pair[1]));
    let decimals = scale.ilog10() as usize;
    pairs
        .filter(|(whole, _)| is_whole(whole.strip_prefix('-').unwrap_or(whole)))
        .find(|(_, rest)| is_whole(rest) && (decimals == 0 || rest.len() <= decimals))
}

/// The doubtful commas of a line of readings.
fn doubts(line: &str, scale: u32) -> impl Iterator<Item = (&str, &str)> {
    let words = line.split_whitespace();
    words.filter_map(move |word| doubtful(word, scale))
}

/// Refuses a line in which a comma may be a decimal point, if the event has decimals.
pub fn sure(line: &str, scale: u32) -> Result<(), String> {
    match doubts(line, scale).next().filter(|_| scale > 1) {
        Some((whole, rest)) => Err(format!(
            "'{whole},{rest}' may be one reading or two: write {whole}.{rest}, or {whole} {rest}"
        )),
        None => Ok(()),
    }
}

/// The readings of a line that was typed for an event. If the event has decimals, a
/// comma that may be a decimal point is refused. If not, it separates two readings,
/// and a message says so.
pub fn typed_readings(line: &str, scale: u32) -> Result<Vec<String>, String> {
    sure(line, scale)?;
    for (whole, rest) in doubts(line, scale) {
        files::complain(&format!(
            "'{whole},{rest}' is taken as two readings, {whole} and {rest}\n"
        ));
    }
    Ok(words(line).collect())
}
