//! Policies from their files. If a file holds no table, the library makes one.

use super::files;
use super::problem::{faulty, meaning, Problem};
use super::report::Report;
use hemdroas::names::{EVENTS, MOST_STATES, NO_ARROW};
use hemdroas::text::{self, Form, Names, Place, PolicyFile, Table};
use hemdroas::{native, Answer, Drawing, Refusal};
use std::collections::BTreeSet;

/// What each state of a made policy stands for. States are numbered as first met,
/// so the table is walked in the same order, from the start on.
pub fn met<K: Clone>(table: &[u8], start: K, next: impl Fn(&K, u32) -> K) -> Vec<K> {
    let states = table.len() / EVENTS as usize;
    let mut keys = vec![start];
    for (place, &entry) in table.iter().enumerate() {
        let (state, event) = (place / EVENTS as usize, place as u32 % EVENTS);
        let is_new = usize::from(entry) == keys.len() && u32::from(entry) != NO_ARROW;
        if is_new && keys.len() < states && state < keys.len() {
            keys.push(next(&keys[state], event));
        }
    }
    keys
}

/// The names for states, if each is a possible name and all differ; else numbered
/// ones.
pub fn named(states: usize, names: Vec<String>) -> Vec<String> {
    let mut sorted = names.clone();
    sorted.sort();
    sorted.dedup();
    let can_be = |name: &String| name.len() <= 40 && name != "none";
    if sorted.len() == states && names.len() == states && names.iter().all(can_be) {
        names
    } else {
        (0..states).map(|state| format!("s{state}")).collect()
    }
}

/// A policy that was made, and the events that it never allows if that is known.
pub struct MadePolicy {
    pub table: Table,
    pub never: u16,
}

/// The most bytes of a table.
pub const LONGEST_TABLE: usize = (EVENTS * MOST_STATES) as usize;

/// The most events that pairs may name.
const MOST_NAMED: usize = 4;

/// The events of pairs, in rising order.
fn named_events(pairs: &[u8]) -> Vec<u8> {
    let mut events = pairs.to_vec();
    events.sort_unstable();
    events.dedup();
    events
}

/// The words for events that are too many.
const ORDINALS: [&str; 12] = [
    "fifth",
    "sixth",
    "seventh",
    "eighth",
    "ninth",
    "tenth",
    "eleventh",
    "twelfth",
    "thirteenth",
    "fourteenth",
    "fifteenth",
    "sixteenth",
];

/// The events of pairs that are above 15 or too many, and what is wrong with each.
fn bad_pairs(pairs: &[u8], names: &Names) -> Vec<(usize, String)> {
    let mut seen = BTreeSet::new();
    let mut bad = Vec::new();
    for (place, &event) in pairs.iter().enumerate() {
        let number = u32::from(event);
        let count = seen.len();
        let message = match number < EVENTS {
            true if !seen.insert(event) || count < MOST_NAMED => continue,
            true => format!(
                "{} is a {} event: pairs name at most four",
                names.word(number),
                ORDINALS[count - MOST_NAMED]
            ),
            false => format!("{number} is no event: they are 0 to {}", EVENTS - 1),
        };
        bad.push((place, message));
    }
    bad
}

fn of_pairs(path: &str, pairs: &[u8], file: &Given) -> Result<MadePolicy, Problem> {
    let names = &file.said.names;
    let mut table = vec![0; LONGEST_TABLE];
    let made = native::precedence(pairs, &mut table);
    let count = match made.answer {
        Answer::Taken(count) => count,
        Answer::Refused { refusal, .. } => {
            let report = |(event, said): (usize, String)| Report {
                place: file.said.pairs[event],
                ..Report::refusal(path, refusal, said)
            };
            let reports: Vec<Report> = bad_pairs(pairs, names).into_iter().map(report).collect();
            return Err(match reports.is_empty() {
                true => Report::refusal(path, refusal, meaning(refusal)).into(),
                false => Problem::Refused(Report::by_place(&file.content, reports)),
            });
        }
    };
    table.truncate(count as usize);
    let events = named_events(pairs);
    let name = |state: usize| {
        let recorded = events
            .iter()
            .enumerate()
            .filter(|(bit, _)| state >> bit & 1 == 1);
        let recorded = recorded.map(|(_, &event)| match names.of(event.into()) {
            Some(name) => name.to_string(),
            None => format!("e{event}"),
        });
        match recorded.collect::<Vec<_>>().join("+") {
            nothing if nothing.is_empty() => "start".to_string(),
            joined => joined,
        }
    };
    let states = made.states as usize;
    Ok(MadePolicy {
        table: Table {
            states: named(states, (0..states).map(name).collect()),
            start: 0,
            table,
        },
        never: made.never,
    })
}

fn of_drawing(
    path: &str,
    names: &[String],
    drawing: &Drawing,
    file: &Given,
) -> Result<MadePolicy, Problem> {
    let mut table = vec![0; LONGEST_TABLE];
    let made = native::determinise(drawing, &mut table);
    let count = match made.answer {
        Answer::Taken(count) => count,
        Answer::Refused { refusal, .. } => {
            return Err(match refusal {
                Refusal::BadDrawing if names.len() > MOST_STATES as usize => {
                    file.too_many(path, refusal, names.len())
                }
                Refusal::BadDrawing => {
                    let said = "the drawing has no start: name one, as in 'start NAME'";
                    file.refused(path, refusal, file.said.start, said.to_string())
                }
                _ => Report::refusal(path, refusal, meaning(refusal)).into(),
            });
        }
    };
    table.truncate(count as usize);
    let members =
        |&set: &u32| (0..drawing.states as usize).filter(move |state| set >> state & 1 == 1);
    let next = |set: &u32, event: u32| {
        let arrows =
            members(set).map(|state| drawing.arrows[EVENTS as usize * state + event as usize]);
        arrows.fold(0, |all, one| all | u32::from(one))
    };
    let sets = met(&table, drawing.starts, next);
    let join = |set: &u32| {
        let joined: Vec<&str> = members(set).map(|state| names[state].as_str()).collect();
        joined.join("+")
    };
    Ok(MadePolicy {
        table: Table {
            states: named(made.states as usize, sets.iter().map(join).collect()),
            start: made.start,
            table,
        },
        never: 0,
    })
}

/// The policy of a policy file. If the file holds no table, the library makes one.
pub fn make(path: &str, file: &Given) -> Result<MadePolicy, Problem> {
    match &file.said.form {
        // A layout made with this S would be refused, as if the drum were wrong.
        Form::States(table) if table.states.len() > MOST_STATES as usize => {
            Err(file.too_many(path, Refusal::BadPolicy, table.states.len()))
        }
        Form::States(table) => Ok(MadePolicy {
            table: table.clone(),
            never: 0,
        }),
        Form::Before(pairs) => of_pairs(path, pairs, file),
        Form::Drawing {
            states,
            starts,
            arrows,
        } => {
            let drawing = Drawing {
                states: states.len() as u32,
                starts: *starts,
                arrows,
            };
            of_drawing(path, states, &drawing, file)
        }
    }
}

/// What a policy file says, and its text.
pub struct Given {
    pub said: PolicyFile,
    content: Vec<u8>,
}

impl Given {
    /// A refusal at a place of the file.
    fn refused(&self, path: &str, refusal: Refusal, place: Place, said: String) -> Problem {
        let report = Report::refusal(path, refusal, said);
        report.at(&self.content, place).into()
    }

    /// A refusal of a file with too many states, at the first one that is too many.
    fn too_many(&self, path: &str, refusal: Refusal, states: usize) -> Problem {
        let said = format!("the file has {states} states, and at most {MOST_STATES} are taken");
        self.refused(path, refusal, self.said.states[MOST_STATES as usize], said)
    }
}

/// The policy of a file.
pub fn policy(path: &str, names: &Names) -> Result<Given, Problem> {
    let content = files::read(path)?;
    let said = text::policy(&content, names).map_err(|faults| faulty(path, &content, faults))?;
    Ok(Given { said, content })
}
