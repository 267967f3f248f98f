//! Drums from their files.

use super::args::Args;
use super::files;
use super::layouts;
use super::problem::{meaning, Problem};
use super::report::Report;
use super::sources::Routine;
use hemdroas::names::{BUNDLE_LENGTH, EVENTS, MOST_BUNDLES, MOST_CELLS, MOST_STATES, NO_ARROW};
use hemdroas::text::{self, Drum, Landings, NamedCell, Names, Place};
use hemdroas::{native, Answer, Layout, Policy, Refusal};

/// The place of B among the letters of a drum's file.
const BASE: usize = 6;

/// A drum, and the file that describes it.
pub struct DrumFile {
    pub path: String,
    content: Vec<u8>,
    pub drum: Drum,
}

/// Installs a policy without arrows in a memory whose cells all have one value.
/// Returns the library's answer, and the memory after it.
fn installed(layout: &Layout, landings: &[u32], filled: u32) -> (Answer, Vec<u32>) {
    let mut memory = vec![filled; layout.size.min(MOST_CELLS) as usize];
    let table = vec![NO_ARROW as u8; (EVENTS * layout.states.min(MOST_STATES)) as usize];
    let policy = Policy {
        states: layout.states,
        start: 0,
        table: &table,
    };
    let (answer, _) = native::install(layout, &policy, landings, &mut memory);
    (answer, memory)
}

/// The cells that are the drum's own under a right layout: those outside the sandbox
/// that installing leaves as they are.
fn own_cells(layout: &Layout) -> Vec<bool> {
    let (_, one) = installed(layout, &[], 0);
    let (_, other) = installed(layout, &[], u32::MAX);
    let all = one.iter().zip(&other).zip(0..);
    all.map(|((one, other), cell)| one != other && !(layout.low..=layout.high).contains(&cell))
        .collect()
}

impl DrumFile {
    /// The drum of a file.
    pub fn of(path: &str) -> Result<DrumFile, Problem> {
        let content = files::read(path)?;
        let (drum, faults) = text::drum_in_part(&content);
        let mut reports = Report::faults(path, &content, faults);
        let Some(drum) = drum else {
            return Err(Problem::Refused(reports));
        };
        let path = path.to_string();
        let file = DrumFile {
            path,
            content,
            drum,
        };
        if reports.is_empty() {
            return Ok(file);
        }
        // The text is wrong. What the library would refuse is reported too.
        let more = file.wrong(&file.drum.layout).into_iter();
        reports.extend(more.map(|report| Report {
            refusal: None,
            ..report
        }));
        Err(Problem::Refused(Report::by_place(&file.content, reports)))
    }

    /// Refuses a drum whose layout, landings or named cells are not right, with all
    /// that is wrong.
    pub fn sound(&self, layout: &Layout) -> Result<(), Problem> {
        let wrong = self.wrong(layout);
        match wrong.is_empty() {
            true => Ok(()),
            false => Err(Problem::Refused(wrong)),
        }
    }

    /// All that is wrong with the drum. The library judges layout and landings.
    fn wrong(&self, layout: &Layout) -> Vec<Report> {
        let (answer, _) = installed(layout, &self.drum.landings.of(&[]), 0);
        let refusal = match answer {
            Answer::Refused { refusal, .. } => Some(refusal),
            Answer::Taken(_) => None,
        };
        let mut reports = match refusal {
            Some(Refusal::BadLayout) => self.bad_layout(layout),
            _ => Vec::new(),
        };
        if let Some(refusal) = refusal {
            reports.extend(self.bad_landings());
            if reports.is_empty() {
                reports.push(Report::refusal(&self.path, refusal, meaning(refusal)));
            }
        }
        reports.extend(match refusal {
            Some(Refusal::BadLayout) => self.bad_cells(|cell| cell < layout.size),
            _ => {
                let own = own_cells(layout);
                self.bad_cells(|cell| own.get(cell as usize) == Some(&true))
            }
        });
        for report in &mut reports {
            report.refusal = report.refusal.filter(|_| report.refusal == refusal);
        }
        Report::by_place(&self.content, reports)
    }

    /// The number of an answer about a routine on this drum. A refusal is reported at
    /// the drum's file or at the routine.
    pub fn taken(
        &self,
        layout: &Layout,
        routine: &Routine,
        answer: Answer,
    ) -> Result<u32, Problem> {
        let Answer::Refused { refusal, place } = answer else {
            return routine.taken(answer);
        };
        match refusal {
            Refusal::BadLayout | Refusal::BadLandings => Err(Problem::Refused(self.wrong(layout))),
            Refusal::BadBase => {
                let bundles = (routine.words.len() + 1).next_power_of_two();
                let step = bundles * BUNDLE_LENGTH;
                let message = format!("B is {}, no multiple of {step}", layout.base);
                let message = format!("{message}, the commands of {}", routine.path);
                let report = self.report(refusal, self.drum.places[BASE], message);
                Err(Problem::Refused(Report::by_place(
                    &self.content,
                    vec![report],
                )))
            }
            _ => Err(routine.refused(refusal, place)),
        }
    }

    /// Writes what the drum's own cells hold at first.
    pub fn write_cells(&self, memory: &mut [u32]) {
        for named in &self.drum.cells {
            if let Some(cell) = memory.get_mut(named.cell as usize) {
                *cell = named.value;
            }
        }
    }

    fn report(&self, refusal: Refusal, place: Place, message: String) -> Report {
        Report {
            place,
            ..Report::refusal(&self.path, refusal, message)
        }
    }

    fn bad_layout(&self, layout: &Layout) -> Vec<Report> {
        let report = |wrong: layouts::Wrong| {
            let place = self.drum.places[wrong.letter];
            self.report(Refusal::BadLayout, place, wrong.message)
        };
        layouts::wrong(layout).into_iter().map(report).collect()
    }

    /// The named cells that are not the drum's own.
    fn bad_cells(&self, is_own: impl Fn(u32) -> bool) -> Vec<Report> {
        let others = self.drum.cells.iter().filter(|named| !is_own(named.cell));
        let report = |named: &NamedCell| {
            let message = format!(
                "cell {} is not the drum's own: name one below U and outside sandbox, \
                 state cell, table and landing cells",
                named.cell
            );
            Report {
                place: named.place,
                ..Report::error(&self.path, message)
            }
        };
        others.map(report).collect()
    }

    /// The landings that are above 1,023 or do not rise.
    fn bad_landings(&self) -> Vec<Report> {
        let listed = match &self.drum.landings {
            Landings::Listed(listed) => listed.as_slice(),
            Landings::Routine => &[],
        };
        let (top, mut last) = (MOST_BUNDLES as u32 - 1, None);
        let mut reports = Vec::new();
        for (range, place) in listed {
            let (first, end) = (*range.start(), *range.end());
            let message = match last {
                _ if end > top => format!("a landing is at most {top}"),
                Some(last) if first <= last => {
                    format!("{first} comes after {last}, but landings must rise")
                }
                _ => {
                    last = Some(end);
                    continue;
                }
            };
            reports.push(self.report(Refusal::BadLandings, *place, message));
        }
        reports
    }
}

/// The names of events that the drum's file gives, if one was given.
pub fn names(args: &Args) -> Result<Names, Problem> {
    match args.value("--drum") {
        Some(path) => Ok(DrumFile::of(path)?.drum.names),
        None => Ok(Names::default()),
    }
}
