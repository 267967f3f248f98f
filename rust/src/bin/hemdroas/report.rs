//! Errors and warnings about a file, as compilers print them.

use super::json::{object, Json};
use hemdroas::text::{is_unseen, Fault, Place};
use hemdroas::Refusal;
use std::rc::Rc;

/// A line is shown if it is not longer than this, and has no more unprintable
/// characters than this.
const LONGEST_SHOWN: usize = 200;
const MOST_ODD: usize = 3;

/// Whether something keeps a file from being taken.
#[derive(Clone, Copy, PartialEq, Eq)]
pub enum Level {
    Error,
    Warning,
}

impl Level {
    fn word(self) -> &'static str {
        match self {
            Level::Error => "error",
            Level::Warning => "warning",
        }
    }
}

/// A line as it is shown, unless it is no text at all.
fn shown(line: &[u8]) -> Option<Rc<str>> {
    let line = line.strip_suffix(b"\r").unwrap_or(line);
    let is_odd = |c: char| c.is_control() && c != '\t' || is_unseen(c);
    let text = String::from_utf8_lossy(line).replace(is_odd, "\u{fffd}");
    let is_shown = text.matches('\u{fffd}').count() <= MOST_ODD && text.len() <= LONGEST_SHOWN;
    is_shown.then(|| text.into())
}

/// An error or a warning about a file.
#[derive(Clone)]
pub struct Report {
    pub level: Level,
    pub file: Rc<str>,
    /// Where; line 0 stands for the whole file.
    pub place: Place,
    /// The line, as it stands in the file.
    pub source: Option<Rc<str>>,
    pub message: String,
    pub refusal: Option<Refusal>,
    /// The instruction, and its text where no line shows it.
    pub instruction: Option<(u32, Option<String>)>,
}

impl Report {
    /// An error about a whole file.
    pub fn error(file: &str, message: impl Into<String>) -> Report {
        Report::about(file.into(), message.into())
    }

    fn about(file: Rc<str>, message: String) -> Report {
        Report {
            level: Level::Error,
            file,
            place: Place::default(),
            source: None,
            message,
            refusal: None,
            instruction: None,
        }
    }

    /// A refusal of a whole file.
    pub fn refusal(file: &str, refusal: Refusal, message: impl Into<String>) -> Report {
        Report {
            refusal: Some(refusal),
            ..Report::error(file, message)
        }
    }

    /// The faults of a file's text, by their places.
    pub fn faults(file: &str, content: &[u8], faults: Vec<Fault>) -> Vec<Report> {
        let file: Rc<str> = file.into();
        let report = |fault: Fault| Report {
            place: fault.place,
            refusal: fault.refusal.map(|(refusal, _)| refusal),
            instruction: fault.refusal.map(|(_, place)| (place, None)),
            ..Report::about(file.clone(), fault.message)
        };
        Report::by_place(content, faults.into_iter().map(report).collect())
    }

    /// Reports about a file's text by their places, each with its line. Those about
    /// the whole text come last.
    pub fn by_place(content: &[u8], mut reports: Vec<Report>) -> Vec<Report> {
        reports.sort_by_key(|report| (report.place.line == 0, report.place));
        let mut lines = content.split(|&byte| byte == b'\n').zip(1..);
        let mut last: (usize, Option<Rc<str>>) = (0, None);
        for report in &mut reports {
            let line = report.place.line;
            if line != last.0 {
                let found = lines.find(|&(_, number)| number == line);
                last = (line, found.and_then(|(bytes, _)| shown(bytes)));
            }
            report.source = last.1.clone();
        }
        reports
    }

    /// The same, at a place of the file's text.
    pub fn at(self, content: &[u8], place: Place) -> Report {
        let mut lines = content.split(|&byte| byte == b'\n');
        let line = lines.nth(place.line.wrapping_sub(1)).unwrap_or_default();
        Report {
            place,
            source: shown(line),
            ..self
        }
    }

    /// The refusal's name and number, if the library refuses, and the instruction.
    fn verdict(&self) -> String {
        let refused = self.refusal.map_or(String::new(), |refusal| {
            format!("; refused as {refusal} ({})", refusal.number())
        });
        match &self.instruction {
            // The report shows the line, so the instruction need not be named.
            Some((_, None)) if self.refusal.is_none() => refused,
            Some((place, None)) => format!("{refused}, instruction {place}"),
            Some((place, Some(text))) => format!("{refused}, instruction {place}: {text}"),
            None => refused,
        }
    }

    /// As compilers print it, with the words underlined.
    pub fn text(&self) -> String {
        let (file, level) = (&self.file, self.level.word());
        let said = format!("{level}: {}{}\n", self.message, self.verdict());
        let Place {
            line,
            column,
            length,
        } = self.place;
        if line == 0 {
            return format!("{file}: {said}");
        }
        let head = format!("{file}:{line}:{column}: {said}");
        let Some(source) = &self.source else {
            return head;
        };
        // Tabs stay tabs, so that the marks stand under the words.
        let blanks = source.chars().take(column.saturating_sub(1));
        let blanks: String = blanks.map(|c| if c == '\t' { '\t' } else { ' ' }).collect();
        format!("{head}{source}\n{blanks}{}\n", "^".repeat(length))
    }

    /// The fields of its object.
    pub fn json(&self) -> Json {
        let is_placed = self.place.line > 0;
        let number = |number: usize| is_placed.then_some(number);
        object([
            ("type", self.level.word().into()),
            (
                "file",
                Some(&*self.file).filter(|file| !file.is_empty()).into(),
            ),
            ("line", number(self.place.line).into()),
            ("column", number(self.place.column).into()),
            ("length", number(self.place.length).into()),
            ("message", self.message.as_str().into()),
            ("refusal", self.refusal.map(Refusal::number).into()),
            (
                "word",
                self.refusal.map(|refusal| refusal.to_string()).into(),
            ),
            (
                "instruction",
                self.instruction.as_ref().map(|(place, _)| *place).into(),
            ),
        ])
    }
}
