//! A stretch of a run: from a stand to the routine's end or to a pause.
//!
//! The library runs it in parts, from event to event. The result is that of one
//! run, but the r0 of each recorded value is known, and each reading is scaled for
//! the event that asks for it.

use super::load::{Loaded, Stand};
use super::problem::Problem;
use super::report::Report;
use hemdroas::names::BUNDLE_LENGTH;
use hemdroas::text::scaled;
use hemdroas::{native, Ending, Refusal, RunAnswer};
use std::collections::VecDeque;

/// A pair of the record, and the r0 that a ceiling limited, if one did.
#[derive(Clone, Copy)]
pub struct Recorded {
    pub event: u32,
    pub value: u32,
    pub wanted: Option<u32>,
}

/// What a run may use: steps, cells of the log, and readings as they were typed.
#[derive(Clone)]
pub struct Supply {
    pub steps: u32,
    pub log: u32,
    pub readings: VecDeque<String>,
    /// Why a reading could not be used. It and those after it are dropped.
    pub unused: Option<String>,
}

/// What a stretch did.
pub struct Stretch {
    pub ending: Ending,
    pub steps: u64,
    pub pairs: Vec<Recorded>,
    pub readings: u64,
}

/// Whether a stretch touches the drum.
#[derive(Clone, Copy, PartialEq, Eq)]
pub enum How {
    Run,
    Preview,
}

/// The cells of a pair.
pub const PAIR: usize = 2;

impl Stretch {
    fn new() -> Stretch {
        Stretch {
            ending: Ending::Spent,
            steps: 0,
            pairs: Vec::new(),
            readings: 0,
        }
    }

    /// Adds the stretch that follows this one.
    pub fn add(&mut self, next: Stretch) {
        self.ending = next.ending;
        self.steps += next.steps;
        self.pairs.extend(next.pairs);
        self.readings += next.readings;
    }
}

/// What one run is lent.
struct Lent<'a> {
    budget: u32,
    readings: &'a [u32],
    log: &'a mut [u32],
}

/// One run of the library.
fn run(loaded: &Loaded, stand: &mut Stand, lent: Lent) -> RunAnswer {
    let Stand { machine, memory } = stand;
    let (layout, commands) = (loaded.layout(), &loaded.checked.commands);
    native::run(
        layout,
        commands,
        machine,
        memory,
        lent.budget,
        lent.readings,
        lent.log,
    )
}

/// One preview of the library. The stand becomes the one after that run.
fn preview(loaded: &Loaded, stand: &mut Stand, lent: Lent) -> RunAnswer {
    let record = stand.machine.to_record();
    let (mut after, mut work) = (record, vec![0; stand.memory.len()]);
    let answer = native::preview_record(
        loaded.layout(),
        &loaded.checked.commands,
        &record,
        &stand.memory,
        &mut work,
        lent.budget,
        lent.readings,
        lent.log,
        &mut after,
    );
    *stand = Stand {
        machine: after.to_machine(),
        memory: work,
    };
    answer
}

/// One run or preview. For a loaded routine it is never refused.
fn part(loaded: &Loaded, stand: &mut Stand, how: How, lent: Lent) -> Result<RunAnswer, Problem> {
    let answer = match how {
        How::Run => run(loaded, stand, lent),
        How::Preview => preview(loaded, stand, lent),
    };
    match answer.ending {
        Ending::Refused => {
            let said = "the run was refused";
            let path = &loaded.routine().path;
            Err(Report::refusal(path, Refusal::BadLayout, said).into())
        }
        _ => Ok(answer),
    }
}

/// The instruction that a stand is at.
pub fn instruction_at(loaded: &Loaded, stand: &Stand) -> u32 {
    stand.machine.pc.wrapping_sub(loaded.layout().base) / BUNDLE_LENGTH as u32
}

/// The event that a stand is at, if it is at one.
pub fn event_at(loaded: &Loaded, stand: &Stand) -> Option<u32> {
    let place = instruction_at(loaded, stand) as usize;
    super::what::event_of(*loaded.routine().words.get(place)?)
}

/// The next reading as a number, scaled for the event that waits for it.
fn reading(loaded: &Loaded, stand: &Stand, supply: &mut Supply) -> Vec<u32> {
    let Some(typed) = supply.readings.front() else {
        return Vec::new();
    };
    let event = event_at(loaded, stand).unwrap_or(0);
    match scaled(typed, loaded.scale(event)) {
        Ok(number) => vec![number],
        Err(said) => {
            let name = loaded.names.word(event);
            supply.unused = Some(format!("a reading of {name}: {said}"));
            supply.readings.clear();
            Vec::new()
        }
    }
}

/// Executes the event that a stand is at, with the next reading if there is one.
/// Returns the recorded pair, or the pause if nothing was recorded.
fn event(
    loaded: &Loaded,
    stand: &mut Stand,
    how: How,
    readings: &[u32],
    room: usize,
) -> Result<Result<Recorded, Ending>, Problem> {
    let mut log = [0; PAIR];
    let r0 = stand.machine.regs[0];
    let one_step = Lent {
        budget: 1,
        readings,
        log: &mut log[..room],
    };
    let answer = part(loaded, stand, how, one_step)?;
    let [event, value] = log;
    let wanted = (readings.is_empty() && value != r0).then_some(r0);
    Ok(match answer.pairs {
        0 => Err(answer.ending),
        _ => Ok(Recorded {
            event,
            value,
            wanted,
        }),
    })
}

/// Runs from a stand until the routine ends, pauses or has used up its supply.
pub fn stretch(
    loaded: &Loaded,
    stand: &mut Stand,
    how: How,
    supply: &mut Supply,
) -> Result<Stretch, Problem> {
    let mut all = Stretch::new();
    loop {
        let to_event = Lent {
            budget: supply.steps,
            readings: &[],
            log: &mut [],
        };
        let answer = part(loaded, stand, how, to_event)?;
        supply.steps -= answer.steps;
        all.steps += u64::from(answer.steps);
        all.ending = answer.ending;
        let readings = match answer.ending {
            Ending::Silent => reading(loaded, stand, supply),
            Ending::LogFull => Vec::new(),
            _ => return Ok(all),
        };
        let room = PAIR * usize::from(supply.log as usize >= PAIR);
        match event(loaded, stand, how, &readings, room)? {
            Ok(pair) => all.pairs.push(pair),
            Err(ending) => {
                all.ending = ending;
                return Ok(all);
            }
        }
        supply.steps -= 1;
        supply.log -= PAIR as u32;
        all.steps += 1;
        all.readings += readings.len() as u64;
        supply.readings.drain(..readings.len());
    }
}
