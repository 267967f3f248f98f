//! Routines from their files, text or bytes, and their commands.

use super::drums::DrumFile;
use super::files;
use super::problem::{faulty, meaning, Problem};
use super::report::{Level, Report};
use hemdroas::names::{MOST_COMMANDS, MOST_INSTRUCTIONS};
use hemdroas::text::{
    self, backward, objections, refused_bytes, Listed, Names, Objection, Place, Shown,
};
use hemdroas::{native, Answer, Layout, Refusal};

/// The most bytes of an instruction: a map, five fields of one byte, one of four.
const LONGEST_INSTRUCTION: usize = 10;

/// The most bytes of a routine.
const LONGEST_ROUTINE: usize = 2 + LONGEST_INSTRUCTION * MOST_INSTRUCTIONS;

/// The first bytes, which tell text from bytes.
const FIRST_BYTES: usize = 2;

/// A routine, from text or bytes.
pub struct Routine {
    pub path: String,
    pub words: Vec<u64>,
    /// The text that the words come from, where there is one.
    pub text: Option<text::Routine>,
    content: Vec<u8>,
    pub names: Names,
}

/// Whether a routine's file holds text. The second byte tells: in bytes it is the
/// high byte of the count, at most 3, and no text has a control character there. A
/// blank file is no text: it may be a routine that lost all but its first byte.
pub fn is_text(content: &[u8]) -> bool {
    let is_plain = |byte: u8| byte >= b' ' || b"\t\r\n".contains(&byte);
    let is_blank = content.iter().all(u8::is_ascii_whitespace);
    !is_blank && content.iter().take(FIRST_BYTES).all(|&byte| is_plain(byte))
}

impl Routine {
    /// The routine of a file, whichever it holds.
    pub fn of_file(path: &str, names: &Names) -> Result<Routine, Problem> {
        let content = files::read(path)?;
        match is_text(&content) {
            true => Routine::of_text(path, content, names),
            false => Routine::of_bytes(path, content, names),
        }
    }

    fn of_text(path: &str, content: Vec<u8>, names: &Names) -> Result<Routine, Problem> {
        let text = text::assemble(&content, names);
        let text = text.map_err(|faults| faulty(path, &content, faults))?;
        let routine = Routine {
            path: path.to_string(),
            words: text.words.clone(),
            text: Some(text),
            content,
            names: names.clone(),
        };
        if routine.words.len() > MOST_INSTRUCTIONS {
            // No routine: the library says why.
            routine.bytes()?;
        }
        Ok(routine)
    }

    /// The routine of bytes, which the library reads.
    fn of_bytes(path: &str, content: Vec<u8>, names: &Names) -> Result<Routine, Problem> {
        let mut words = vec![0; MOST_INSTRUCTIONS];
        let answer = native::read(&content, &mut words);
        let count = if let Answer::Taken(count) = answer {
            count
        } else {
            0
        };
        words.truncate(count as usize);
        if content.iter().all(u8::is_ascii_whitespace) && !answer.is_taken() {
            let said = "the file is empty; a routine that does nothing is the line HALT";
            let empty = Report::refusal(path, Refusal::Short, said);
            return Err(Report {
                instruction: Some((0, None)),
                ..empty
            }
            .into());
        }
        let routine = Routine {
            path: path.to_string(),
            words,
            text: None,
            content,
            names: names.clone(),
        };
        match routine.taken(answer) {
            Ok(_) => Ok(routine),
            Err(Problem::Refused(mut reports)) => {
                reports.extend(routine.odd_text());
                Err(Problem::Refused(reports))
            }
            Err(problem) => Err(problem),
        }
    }

    /// The report about a file that would be text without a control character among
    /// its first two.
    fn odd_text(&self) -> Option<Report> {
        let text = std::str::from_utf8(&self.content).ok()?;
        let is_odd = |c: char| c.is_control() && !"\t\r\n".contains(c);
        let odd: Vec<(usize, char)> = text.chars().enumerate().filter(|c| is_odd(c.1)).collect();
        let is_late = odd.iter().any(|&(before, _)| before >= FIRST_BYTES);
        let &(before, found) = odd.first()?;
        if is_late || !text.contains(|c: char| c.is_ascii_alphabetic()) {
            return None;
        }
        let code = u32::from(found);
        let message = format!(
            "a control character, U+{code:04X}, among the first two: so the file was read as bytes; \
             delete it if this is text"
        );
        let place = Place {
            line: 1,
            column: before + 1,
            length: 1,
        };
        Some(Report::error(&self.path, message).at(&self.content, place))
    }

    /// The routine's bytes.
    pub fn bytes(&self) -> Result<Vec<u8>, Problem> {
        let mut bytes = vec![0; LONGEST_ROUTINE];
        let count = self.taken(native::write(&self.words, &mut bytes))?;
        bytes.truncate(count as usize);
        Ok(bytes)
    }

    /// The routine's text: as it was written, or as its bytes are listed.
    pub fn source(&self) -> String {
        match self.text {
            Some(_) => String::from_utf8_lossy(&self.content).into_owned(),
            None => text::listing(&self.listed(false), |_| Vec::new()),
        }
    }

    /// How the routine is listed.
    pub fn listed(&self, signed: bool) -> Listed<'_> {
        Listed {
            words: &self.words,
            text: self.text.as_ref(),
            names: &self.names,
            signed,
        }
    }

    /// The landings that the text marks.
    pub fn landings(&self) -> &[u32] {
        self.text.as_ref().map_or(&[], |text| &text.landings)
    }

    /// The line of an instruction, where there is a text.
    pub fn line(&self, place: u32) -> Option<usize> {
        let source = self.text.as_ref()?.sources.get(place as usize)?;
        Some(source.place.line)
    }

    /// Whether a text writes an instruction's number as a negative one.
    pub fn is_signed(&self, place: u32) -> bool {
        let source = self
            .text
            .as_ref()
            .and_then(|text| text.sources.get(place as usize));
        source.is_some_and(|source| source.shown == Shown::Signed)
    }

    /// An instruction as the text has it, or as a listing would.
    pub fn instruction(&self, place: u32) -> String {
        let at = place as usize;
        let source = self.text.as_ref().and_then(|text| text.sources.get(at));
        match source {
            Some(source) => {
                let line = self
                    .content
                    .split(|&byte| byte == b'\n')
                    .nth(source.place.line - 1);
                let line = String::from_utf8_lossy(line.unwrap_or_default());
                let said = line.chars().skip(source.place.column - 1);
                said.take(source.place.length).collect()
            }
            None if at < self.words.len() => self.listed(false).instruction(at),
            None => "HALT, after the last".to_string(),
        }
    }

    /// An instruction with its place, its line and itself.
    pub fn place(&self, place: u32) -> String {
        let line = self
            .line(place)
            .map_or(String::new(), |line| format!(", line {line}"));
        format!("instruction {place}{line}: {}", self.instruction(place))
    }

    /// The label of an instruction, or its number.
    pub fn target(&self, place: u32) -> String {
        let labels = self.listed(false).labels();
        let named = labels.get(&place).filter(|_| self.text.is_some());
        named.map_or(format!("instruction {place}"), |names| names[0].clone())
    }

    /// The number of an answer about the routine, or the refusal with its place.
    pub fn taken(&self, answer: Answer) -> Result<u32, Problem> {
        match answer {
            Answer::Taken(number) => Ok(number),
            Answer::Refused { refusal, place } => Err(self.refused(refusal, place)),
        }
    }

    /// A report about an instruction.
    pub fn report(&self, level: Level, place: u32, found: &Objection) -> Report {
        let source = self
            .text
            .as_ref()
            .and_then(|text| text.sources.get(place as usize));
        let report = Report::error(&self.path, found.message.as_str());
        let report = match source {
            Some(source) => report.at(&self.content, source.field(found.field)),
            None => report,
        };
        let text = source.is_none().then(|| self.instruction(place));
        Report {
            level,
            refusal: (level == Level::Error).then_some(found.refusal),
            instruction: Some((place, text)),
            ..report
        }
    }

    /// All that a refusal may be given for, of every instruction.
    fn objections(&self, refusal: Refusal) -> Vec<Report> {
        let all = self.words.iter().zip(0..);
        let found = all.flat_map(|(&word, place)| {
            let found = match refusal {
                Refusal::NotForward => backward(word, place).into_iter().collect(),
                Refusal::OffRange | Refusal::BadLanding => {
                    objections(word, self.words.len(), self.is_signed(place))
                }
                _ => Vec::new(),
            };
            found.into_iter().map(move |found| (place, found))
        });
        found
            .map(|(place, found)| self.report(Level::Error, place, &found))
            .collect()
    }

    /// A refusal of the routine, with all that brings it.
    pub fn refused(&self, refusal: Refusal, place: u32) -> Problem {
        let found = self.objections(refusal);
        if !found.is_empty() {
            return Problem::Refused(found);
        }
        let why = match self.text {
            Some(_) => None,
            None => refused_bytes(&self.content, refusal, place),
        };
        let why = why.unwrap_or(meaning(refusal).to_string());
        let report = Report::refusal(&self.path, refusal, why);
        let is_placed = matches!(
            refusal,
            Refusal::Short | Refusal::Foreign | Refusal::UnknownKind | Refusal::OffRange
        );
        let instruction = is_placed.then_some((place, None));
        Report {
            instruction,
            ..report
        }
        .into()
    }
}

/// The commands of a routine for a drum, rewritten and checked.
pub fn commands(drum: &DrumFile, layout: &Layout, routine: &Routine) -> Result<Vec<u64>, Problem> {
    let mut commands = vec![0; MOST_COMMANDS];
    let answer = native::rewrite(layout, &routine.words, &mut commands);
    let count = drum.taken(layout, routine, answer)?;
    commands.truncate(count as usize);
    drum.taken(layout, routine, native::check(layout, &commands))?;
    Ok(commands)
}
