//! What can go wrong, as it is shown, and the statuses.

use super::files;
use super::report::Report;
use hemdroas::text::Fault;
use hemdroas::{Ending, Refusal};

/// The statuses that the command ends with, the better first.
#[derive(Clone, Copy, Debug, PartialEq, Eq, PartialOrd, Ord)]
pub enum Status {
    Well = 0,
    Refused = 1,
    Usage = 2,
    File = 3,
    Stopped = 4,
    Paused = 5,
}

impl Status {
    /// The status of an ending.
    pub fn of(ending: Ending) -> Status {
        match ending {
            Ending::Done => Status::Well,
            Ending::Refused => Status::Refused,
            Ending::NoArrow | Ending::Fault | Ending::NoLanding => Status::Stopped,
            Ending::LogFull | Ending::Silent | Ending::Spent => Status::Paused,
        }
    }
}

/// Why a subcommand did not do what it was asked.
pub enum Problem {
    /// The arguments are not those of a command.
    Usage(String),
    /// A file cannot be read or written.
    File(String, String),
    /// A text cannot be read, or the library refuses.
    Refused(Vec<Report>),
    /// Nothing is to be said: for instance, the reader of the output has ended.
    Quiet,
}

/// How a subcommand ended.
pub type Done = Result<Status, Problem>;

/// How many reports are printed together.
const TOGETHER: usize = 1000;

impl From<Report> for Problem {
    fn from(report: Report) -> Problem {
        Problem::Refused(vec![report])
    }
}

impl Problem {
    /// The exit status.
    pub fn status(&self) -> Status {
        match self {
            Problem::Usage(_) => Status::Usage,
            Problem::File(..) | Problem::Quiet => Status::File,
            Problem::Refused(_) => Status::Refused,
        }
    }

    /// The message and the objects of a problem that is not about a file's text.
    fn said(&self) -> (String, Vec<Report>) {
        match self {
            Problem::Usage(said) => (format!("hemdroas: {said}\n"), vec![Report::error("", said)]),
            Problem::File(path, said) => (
                format!("hemdroas: {path}: {said}\n"),
                vec![Report::error(path, said)],
            ),
            Problem::Quiet | Problem::Refused(_) => (String::new(), Vec::new()),
        }
    }

    /// Says it on standard error.
    fn complain(&self) {
        files::complain(&self.said().0);
        if let Problem::Refused(reports) = self {
            for part in reports.chunks(TOGETHER) {
                files::complain(&part.iter().map(Report::text).collect::<String>());
            }
        }
    }

    /// Says it in objects on standard output.
    fn print(&self) -> Result<(), Problem> {
        let (_, said) = self.said();
        let reports = match self {
            Problem::Refused(reports) => reports,
            _ => &said,
        };
        for part in reports.chunks(TOGETHER) {
            let objects = part.iter().map(|report| format!("{}\n", report.json()));
            files::print(&objects.collect::<String>())?;
        }
        Ok(())
    }

    /// Says it: on standard error, or in objects on standard output, where that can be written.
    pub fn say(&self, is_json: bool) {
        match is_json {
            false => self.complain(),
            true => self
                .print()
                .unwrap_or_else(|unwritten| unwritten.complain()),
        }
    }

    /// In few words, for a line among others.
    pub fn short(&self) -> String {
        match self {
            Problem::Usage(said) => said.clone(),
            Problem::File(..) => "cannot be read".to_string(),
            Problem::Quiet => String::new(),
            Problem::Refused(reports) => {
                let refusal = reports.iter().find_map(|report| report.refusal);
                match (refusal, reports.len()) {
                    (Some(refusal), _) => format!("refused as {refusal} ({})", refusal.number()),
                    (None, 1) => "refused, 1 error".to_string(),
                    (None, count) => format!("refused, {count} errors"),
                }
            }
        }
    }
}

/// What a refusal's number is given for, in the rules' words.
pub fn meaning(refusal: Refusal) -> &'static str {
    match refusal {
        Refusal::Short => "the bytes end early",
        Refusal::Foreign => {
            "a map of 64 or more, a present field that is 0 or not the kind's, or a stray bit"
        }
        Refusal::UnknownKind => "a kind above 12",
        Refusal::OffRange => "a register, condition, shift or event out of its range",
        Refusal::Oversize => "more than 1023 instructions",
        Refusal::Trailing => "bytes after the last instruction",
        Refusal::BadLayout => "the layout is not right",
        Refusal::BadLanding => "a jump past the routine's end",
        Refusal::SmallOutput => "the output is too short",
        Refusal::BadPolicy => "not the layout's S states (1 to 16), or a wrong start or arrow",
        Refusal::BadBundle => "a bundle has no allowed shape",
        Refusal::BadCount => "not 4N commands",
        Refusal::BadBase => "B is no multiple of 4N",
        Refusal::BadLandings => "landings not strictly rising, or one above 1023",
        Refusal::TooManyStates => "more than 16 states would be needed",
        Refusal::BadDrawing => "no start, or not 1 to 16 states",
        Refusal::BadPair => "an event above 15, or more than four named events",
        Refusal::NotForward => "a GOX, or a GOIF to its own or a lower instruction",
    }
}

/// The faults of a file's text.
pub fn faulty(path: &str, content: &[u8], faults: Vec<Fault>) -> Problem {
    Problem::Refused(Report::faults(path, content, faults))
}
