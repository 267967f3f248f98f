//! How a run ended or paused, and why.

use super::files;
use super::json::{list, object, Json};
use super::load::{Loaded, Stand};
use super::problem::Problem;
use super::stretch::{instruction_at, Stretch};
use super::what::{event_of, jump_of, landings_said, Registers};
use hemdroas::names::{BUNDLE_LENGTH, EVENTS, GUEST_REGISTERS};
use hemdroas::text::{Names, Table};
use hemdroas::Ending;

/// Whether a machine or an engine can go on.
pub fn is_pause(ending: Ending) -> bool {
    matches!(ending, Ending::LogFull | Ending::Silent | Ending::Spent)
}

/// The events that a state allows, in few words.
pub fn allowed(policy: &Table, state: u32, names: &Names) -> String {
    let has = |event: &u32| policy.policy().after(state, *event).is_some();
    let list = |events: Vec<u32>| {
        let words: Vec<String> = events.iter().map(|&event| names.word(event)).collect();
        words.join(", ")
    };
    let (with, without): (Vec<u32>, Vec<u32>) = (0..EVENTS).partition(has);
    match (with.is_empty(), without.is_empty()) {
        (true, _) => "no event".to_string(),
        (_, true) => "every event".to_string(),
        _ if with.len() <= without.len() => list(with),
        _ => format!("all but {}", list(without)),
    }
}

/// What a run was given: its budget, the budget's unit, and its log.
pub struct Given {
    pub budget: u32,
    pub unit: &'static str,
    pub log: u32,
}

/// How a run or a lesson ended or paused, and where it is.
pub struct End<'a> {
    pub loaded: &'a Loaded,
    /// None if the person left.
    pub ending: Option<Ending>,
    pub given: &'a Given,
    /// The steps or instructions done.
    pub count: u64,
    pub pairs: usize,
    pub readings: u64,
    pub place: u32,
    pub regs: Registers,
    pub memory: &'a [u32],
}

impl<'a> End<'a> {
    /// The end of a stretch of runs.
    pub fn of(loaded: &'a Loaded, stand: &'a Stand, all: &Stretch, given: &'a Given) -> End<'a> {
        End {
            loaded,
            ending: Some(all.ending),
            given,
            count: all.steps,
            pairs: all.pairs.len(),
            readings: all.readings,
            place: instruction_at(loaded, stand),
            regs: std::array::from_fn(|register| stand.machine.regs[register]),
            memory: &stand.memory,
        }
    }

    fn state(&self) -> u32 {
        self.loaded.state_in(self.memory)
    }

    /// Why it ended or paused.
    fn why(&self) -> Option<String> {
        let (loaded, given) = (self.loaded, self.given);
        let routine = loaded.routine();
        let word = routine.words.get(self.place as usize).copied().unwrap_or(0);
        let event = || event_of(word).map_or(String::new(), |event| loaded.names.word(event));
        Some(match self.ending? {
            Ending::NoArrow => format!(
                "state {} has no arrow for {}; it allows {}",
                loaded.state_text(self.state()),
                event(),
                allowed(&loaded.policy, self.state(), &loaded.names)
            ),
            Ending::NoLanding => {
                let bundles = (loaded.checked.commands.len() / BUNDLE_LENGTH) as u32;
                let jump = jump_of(word, &self.regs, bundles)?;
                format!(
                    "{}it would go to {}, which is no landing; {}",
                    jump.wrapped,
                    routine.target(jump.target),
                    landings_said(&loaded.checked.landings)
                )
            }
            Ending::Spent => format!(
                "the budget of {} {} is used up; --budget gives more",
                self.count, given.unit
            ),
            Ending::Silent => format!("no reading is left for {}; --readings gives more", event()),
            Ending::LogFull => format!("the log of {} cells is full; --log gives more", given.log),
            Ending::Fault => "it left its list, its memory or the command words".to_string(),
            Ending::Done | Ending::Refused => return None,
        })
    }

    /// As text: the ending with its counts, the place, the reason and the state.
    pub fn text(&self) -> String {
        let head = match self.ending {
            Some(ending) => format!("ending {} {ending}", ending.number()),
            None => "left by you".to_string(),
        };
        let reason = self
            .why()
            .map_or(String::new(), |reason| format!("why: {reason}\n"));
        format!(
            "{head}: {} {}, {} pairs, {} readings used\nat {}\n{reason}state {}\n",
            self.count,
            self.given.unit,
            self.pairs,
            self.readings,
            self.loaded.routine().place(self.place),
            self.loaded.state_text(self.state())
        )
    }

    /// As an object.
    pub fn json(&self) -> Json {
        let (routine, state) = (self.loaded.routine(), self.state());
        let cells = changed_cells(self.loaded, &self.loaded.first.memory, self.memory);
        let is_over = self.ending.is_some_and(|ending| !is_pause(ending));
        object([
            ("type", if is_over { "end" } else { "pause" }.into()),
            ("ending", self.ending.map(Ending::number).into()),
            ("word", self.ending.map(|ending| ending.to_string()).into()),
            (self.given.unit, self.count.into()),
            ("pairs", self.pairs.into()),
            ("readings", self.readings.into()),
            ("instruction", self.place.into()),
            ("line", routine.line(self.place).into()),
            ("text", routine.instruction(self.place).into()),
            ("why", self.why().into()),
            ("state", state.into()),
            ("state_name", self.loaded.policy.name(state).into()),
            ("registers", registers_json(&self.regs)),
            ("cells", cells_json(&cells)),
        ])
    }

    /// Shows it as text or as an object.
    pub fn show(&self, is_json: bool) -> Result<(), Problem> {
        match is_json {
            true => files::print_json(&self.json()),
            false => files::print(&self.text()),
        }
    }

    /// The registers that are not 0, and the cells that differ from a memory.
    pub fn contents(&self, before: &[u32]) -> String {
        let named = (0..GUEST_REGISTERS)
            .zip(&self.regs)
            .filter(|(_, &value)| value != 0);
        let named = named.map(|(register, value)| format!("r{register} {value}"));
        let cells = changed_cells(self.loaded, before, self.memory).into_iter();
        let cells = cells.map(|(cell, _, to)| format!("{cell}: {to}"));
        let or = |words: Vec<String>, none: &str| match words.is_empty() {
            true => none.to_string(),
            false => words.join(", "),
        };
        format!(
            "registers {}\nchanged cells {}\n",
            or(named.collect(), "all 0"),
            or(cells.collect(), "none")
        )
    }
}

/// The cells of the sandbox and the free ones that differ: address, before, after.
pub fn changed_cells(loaded: &Loaded, before: &[u32], after: &[u32]) -> Vec<(u32, u32, u32)> {
    let cell = loaded.layout().cell;
    let all = before.iter().zip(after).zip(0..);
    let differ = all.filter(|((old, new), address)| old != new && *address != cell);
    differ
        .map(|((&old, &new), address)| (address, old, new))
        .collect()
}

/// The objects of cells.
pub fn cells_json(cells: &[(u32, u32, u32)]) -> Json {
    list(cells.iter().map(|&(cell, from, to)| {
        object([
            ("cell", cell.into()),
            ("from", from.into()),
            ("to", to.into()),
        ])
    }))
}

/// The registers of a routine, as a list.
pub fn registers_json(regs: &Registers) -> Json {
    list(regs.iter().copied())
}
