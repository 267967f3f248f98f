//! The lines of a policy file that concern states and their arrows.

use super::policy::{Form, Table};
use super::said::{is_name, no_name, quoted, Fault, Faults, Place, Said};
use super::Names;
use crate::names::{EVENTS, MOST_STATES, NO_ARROW};

/// More states than this in a file are no policy that could be refused with its
/// number: the mark of no arrow would be one of them.
const MOST_NAMED: usize = 200;

/// The events of a row, as a table's length.
const ROW: usize = EVENTS as usize;

/// An arrow: its state, its event or `others`, its successors. Below a wrong line
/// it has no state.
struct Arrow<'a> {
    state: Option<usize>,
    event: Said<'a>,
    listed: Vec<Said<'a>>,
}

/// The states of a file and their arrows, in the order of its lines.
#[derive(Default)]
pub(super) struct States<'a> {
    pub is_drawing: bool,
    names: Vec<&'a str>,
    places: Vec<Place>,
    starts: Option<Vec<Said<'a>>>,
    arrows: Vec<Arrow<'a>>,
    /// Whether the last line with a state was wrong.
    is_astray: bool,
    /// Whether there were more states than are kept.
    is_full: bool,
}

impl<'a> States<'a> {
    /// Whether there is no state and no arrow.
    pub fn is_empty(&self) -> bool {
        self.names.is_empty() && self.arrows.is_empty()
    }

    /// A line with a state was wrong: the arrows below it are nobody's.
    pub fn stray(&mut self) {
        self.is_astray = true;
    }

    /// The places of the states' names.
    pub fn places(&self) -> Vec<Place> {
        self.places.clone()
    }

    /// The place of the first start.
    pub fn start_place(&self) -> Place {
        let first = self.starts.as_ref().and_then(|starts| starts.first());
        first.map_or(Place::default(), Said::place)
    }

    /// Takes a line that names a state.
    pub fn state(&mut self, name: Said<'a>) -> Result<(), Fault> {
        if !is_name(name.text) || name.text == "none" {
            return Err(name.fault(no_name(name.text, "name")));
        }
        if let Some(first) = self.names.iter().position(|&known| known == name.text) {
            let line = self.places[first].line;
            let message = format!("the state {} stands twice", quoted(name.text));
            return Err(name.fault(format!("{message}, first in line {line}")));
        }
        match self.names.len() {
            MOST_NAMED if self.is_full => return Ok(()),
            MOST_NAMED => {
                self.is_full = true;
                let message = format!("too many states: a policy has 1 to {MOST_STATES}");
                return Err(name.fault(message));
            }
            _ => (),
        }
        self.names.push(name.text);
        self.places.push(name.place());
        self.is_astray = false;
        Ok(())
    }

    /// Takes a line that names the start.
    pub fn start(&mut self, words: &[Said<'a>]) -> Result<(), Fault> {
        if self.starts.is_some() {
            return Err(words[0].fault("a second line with the start"));
        }
        self.starts = Some(words[1..].to_vec());
        Ok(())
    }

    /// Takes a line with arrows.
    pub fn arrow(&mut self, words: &[Said<'a>]) -> Result<(), Fault> {
        let state = match self.names.len().checked_sub(1) {
            _ if self.is_astray => None,
            None => {
                let message = "an arrow stands under its state, and no state stands above";
                return Err(words[0].fault(message));
            }
            last => last,
        };
        self.arrows.push(Arrow {
            state,
            event: words[0],
            listed: words[2..].to_vec(),
        });
        Ok(())
    }

    /// The numbers of states that are listed by name.
    fn numbers(&self, listed: &[Said], faults: &mut Faults) -> Vec<usize> {
        if let [only] = listed {
            if only.text == "none" {
                return Vec::new();
            }
        }
        let mut known = Vec::new();
        for said in listed {
            match self.names.iter().position(|&known| known == said.text) {
                Some(state) => known.push(state),
                None if self.is_full => (),
                None => {
                    let near = faults.hint(said.text, self.names.iter().copied());
                    let message = format!("no state is named {}{near}", quoted(said.text));
                    faults.add(Fault {
                        unknown: Some(said.text.to_string()),
                        ..said.fault(message)
                    });
                }
            }
        }
        known
    }

    /// Adds an arrow's successors to those of its state and event.
    fn add(
        &self,
        arrow: &Arrow,
        names: &Names,
        found: &mut [Option<Vec<usize>>],
        faults: &mut Faults,
    ) -> Result<(), Fault> {
        let numbers = self.numbers(&arrow.listed, faults);
        let event = arrow.event;
        // The row of a state has a place more, for the others.
        let place = match event.text {
            "others" => ROW,
            name => event.event(names.known_event(name))? as usize,
        };
        let Some(state) = arrow.state else {
            return Ok(());
        };
        let slot = &mut found[(ROW + 1) * state + place];
        match slot {
            Some(known) if self.is_drawing => known.extend(numbers),
            Some(_) => {
                return Err(event.fault(format!("{} stands twice here", quoted(event.text))));
            }
            None if !self.is_drawing && numbers.len() > 1 => {
                let message = "several arrows: a file that has them says 'drawing' first";
                return Err(arrow.listed[1].fault(message));
            }
            None => *slot = Some(numbers),
        }
        Ok(())
    }

    /// For each state and event the successors, in a list of 16 × states.
    fn successors(&self, names: &Names, faults: &mut Faults) -> Vec<Vec<usize>> {
        let mut found: Vec<Option<Vec<usize>>> = vec![None; (ROW + 1) * self.names.len()];
        for arrow in &self.arrows {
            let added = self.add(arrow, names, &mut found, faults);
            faults.keep(added);
        }
        let rows = found.chunks(ROW + 1);
        rows.flat_map(|row| {
            let others = row[ROW].clone().unwrap_or_default();
            let filled = row[..ROW].iter();
            filled.map(move |known| known.clone().unwrap_or_else(|| others.clone()))
        })
        .collect()
    }

    /// The states that the file names as starts; the first if it names none.
    fn start_numbers(&self, faults: &mut Faults) -> Option<Vec<usize>> {
        let Some(listed) = &self.starts else {
            return Some(vec![0]);
        };
        let starts = self.numbers(listed, faults);
        if !self.is_drawing && (starts.len() > 1 || starts.is_empty() && listed[0].text == "none") {
            let message = "one start, unless the file says 'drawing' first";
            faults.add(listed[listed.len() - 1].fault(message));
            return None;
        }
        Some(starts)
    }

    /// The policy or the drawing of these states.
    pub fn form(&self, names: &Names, faults: &mut Faults) -> Option<Form> {
        let successors = self.successors(names, faults);
        let starts = self.start_numbers(faults)?;
        let states: Vec<String> = self.names.iter().map(|name| name.to_string()).collect();
        if self.is_drawing {
            // A state that has no bit is one of too many: the library refuses their count.
            let map = |states: &Vec<usize>| {
                let bits = states.iter().filter(|&&state| state < MOST_STATES as usize);
                bits.fold(0u16, |map, state| map | 1 << state)
            };
            return Some(Form::Drawing {
                states,
                starts: u32::from(map(&starts)),
                arrows: successors.iter().map(map).collect(),
            });
        }
        let entry = |states: &Vec<usize>| states.first().map_or(NO_ARROW as u8, |&s| s as u8);
        Some(Form::States(Table {
            states,
            start: *starts.first()? as u32,
            table: successors.iter().map(entry).collect(),
        }))
    }
}
