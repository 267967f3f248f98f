//! Policy files: states and their arrows, a drawing with several arrows, or
//! pairs of events.

use super::drum::{event_names, meant, no_line, set_ceiling, wanted};
use super::said::{lines, quoted, Fault, Faults, Parsed, Place, Said};
use super::states::States;
use super::Names;
use crate::names::{EVENTS, MOST_STATES, NO_ARROW, ORDERS, UNLIMITED};
use crate::{Ceilings, Policy};

/// The words that begin a policy's lines, but for arrows and pairs.
const KEYWORDS: [&str; 6] = [
    "state",
    "start",
    "event",
    "ceiling",
    "drawing",
    "everything",
];

/// A policy's lines.
const LINES: &str = "state NAME, EVENT -> STATE, start STATE, drawing, EVENT before EVENT, \
                     everything, ceiling EVENT 100, event 0 NAME";

/// A policy with the names of its states.
#[derive(Clone, Debug, PartialEq, Eq)]
pub struct Table {
    /// The names, in the order of the states' numbers.
    pub states: Vec<String>,
    /// The start state.
    pub start: u32,
    /// Byte 16 × s + n is the state after event n in state s, or 255.
    pub table: Vec<u8>,
}

impl Table {
    /// The policy, as the library takes it.
    pub fn policy(&self) -> Policy<'_> {
        Policy {
            states: self.states.len() as u32,
            start: self.start,
            table: &self.table,
        }
    }

    /// The name of a state, or its number.
    pub fn name(&self, state: u32) -> String {
        match self.states.get(state as usize) {
            Some(name) => name.clone(),
            None => state.to_string(),
        }
    }
}

/// The three things that a policy file can hold.
#[derive(Clone, Debug, PartialEq, Eq)]
pub enum Form {
    /// States by name, with at most one arrow for each event.
    States(Table),
    /// A drawing: states by name, with any arrows and starts.
    Drawing {
        /// The names, in the order of the states' numbers.
        states: Vec<String>,
        /// The map of the starts.
        starts: u32,
        /// Entry 16 × s + n is the map of the successors of state s under event n.
        arrows: Vec<u16>,
    },
    /// Pairs of events, each first before its second.
    Before(Vec<u8>),
}

/// What a policy file says.
#[derive(Clone, Debug, PartialEq, Eq)]
pub struct PolicyFile {
    /// The policy, in one of its forms.
    pub form: Form,
    /// The most that each order records, as far as the file says.
    pub ceilings: Ceilings,
    /// The place of each event of the pairs, where the file holds pairs.
    pub pairs: Vec<Place>,
    /// The place of each state's name, where the file holds states.
    pub states: Vec<Place>,
    /// The place of the start; line 0 if the file names none.
    pub start: Place,
    /// The names of events: those given, and those of the file.
    pub names: Names,
}

/// A policy file, as its lines are read.
struct Reader<'a> {
    names: Names,
    ceilings: Ceilings,
    states: States<'a>,
    /// The events of the pairs, two and two, where the file has pairs, and their places.
    events: Option<Vec<u8>>,
    pairs: Vec<Place>,
    /// The lines `drawing` and `everything`.
    drawing: Option<Place>,
    everything: Option<Place>,
    /// The lines that there are, until they are listed.
    lines: &'static str,
}

impl<'a> Reader<'a> {
    /// Takes a line.
    fn line(&mut self, words: &[Said<'a>], faults: &mut Faults) -> Result<(), Fault> {
        let texts: Vec<&str> = words.iter().map(|word| word.text).collect();
        match texts[..] {
            ["event", _, _] => Ok(()),
            ["ceiling", _, _] => {
                let said = (words[1], words[2]);
                set_ceiling(&mut self.ceilings, &self.names, said, faults)
            }
            ["drawing"] => {
                self.states.is_drawing = true;
                self.drawing = Some(words[0].place());
                Ok(())
            }
            ["everything"] => {
                self.events.get_or_insert_with(Vec::new);
                self.everything = Some(words[0].place());
                Ok(())
            }
            [_, "before", _] => self.pair(words[0], words[2], faults),
            ["state", _] => self.states.state(words[1]),
            ["start", _, ..] => self.states.start(words),
            [_, "->", _, ..] => self.states.arrow(words),
            [_, "->"] => Err(words[1].fault("-> wants a state or none, as in 'gas -> shut'")),
            [_, "before"] => Err(words[1].fault("before wants a second event")),
            [_, "before", _, ..] => Err(words[3].fault(format!(
                "{} is one word too many: a line has one pair",
                quoted(words[3].text)
            ))),
            [first, ..] if KEYWORDS.contains(&first) => {
                Err(words[0].fault(wanted(first).unwrap_or_default()))
            }
            _ => Err(self.odd_line(words)),
        }
    }

    /// What is wrong with a line that has no line's words.
    fn odd_line(&mut self, words: &[Said]) -> Fault {
        let first = words[0];
        match words.iter().position(|word| word.text == "->") {
            Some(0) => return first.fault("an event is missing before ->, as in 'gas -> shut'"),
            Some(_) => {
                let message = format!("{} is one word too many before ->", quoted(words[1].text));
                return words[1].fault(message);
            }
            None if words.iter().any(|word| word.text.contains("->")) => {
                return first.fault("blanks stand around ->, as in 'gas -> shut'");
            }
            None => (),
        }
        let is_event = first.text == "others" || self.names.event(first.text).is_ok();
        first.fault(match is_event {
            true => format!(
                "-> or before is missing after {}, as in 'gas -> shut' or 'gas before door'",
                quoted(first.text)
            ),
            false => {
                let meant = meant(words, &KEYWORDS);
                no_line(first.text, meant, "policy", &mut self.lines)
            }
        })
    }

    /// Keeps the names that a wrong line would have defined.
    fn lose(&mut self, words: &[Said], faults: &mut Faults) {
        // A word alone may be a state's name.
        let is_alone = words.len() == 1 && !KEYWORDS.contains(&words[0].text);
        if is_alone || meant(words, &KEYWORDS) == Some("state") {
            self.states.stray();
            words.iter().for_each(|word| faults.lose(word.text));
        }
    }

    fn pair(&mut self, first: Said, second: Said, faults: &mut Faults) -> Result<(), Fault> {
        let event = |said: Said| {
            let event = said.event(self.names.event(said.text))?;
            // The library refuses events above 15.
            let top = EVENTS - 1;
            let message = |_| format!("{} is no event: they are 0 to {top}", said.text);
            said.check(u8::try_from(event).map_err(message))
        };
        let pair = [first, second].map(|said| faults.keep(event(said)));
        let events = self.events.get_or_insert_with(Vec::new);
        if let [Some(one), Some(other)] = pair {
            events.extend([one, other]);
            self.pairs.extend([first.place(), second.place()]);
        }
        Ok(())
    }

    /// Adds what the library would refuse, in addition to the wrong lines.
    fn doubt(&self, faults: &mut Faults) {
        let events = self.events.iter().flatten().map(|&event| u32::from(event));
        let above = events
            .zip(&self.pairs)
            .filter(|&(event, _)| event >= EVENTS);
        for (event, &place) in above {
            let message = format!("{event} is no event: they are 0 to {}", EVENTS - 1);
            faults.add(Fault::new(place, message));
        }
        let states = self.states.places();
        if let Some(&place) = states.get(MOST_STATES as usize) {
            let count = states.len();
            let message =
                format!("the file has {count} states, and at most {MOST_STATES} are taken");
            faults.add(Fault::new(place, message));
        }
    }

    /// The last pair, or the line that stands for none.
    fn last_pair(&self) -> Place {
        let last = match self.pairs[..] {
            [.., from, to] => Some(Place {
                length: to.column + to.length - from.column,
                ..from
            }),
            _ => self.everything,
        };
        last.unwrap_or_default()
    }

    /// What contradicts the pairs of a file, and where.
    fn beside_pairs(&self) -> Option<(Place, &'static str)> {
        if !self.states.is_empty() {
            return Some((self.last_pair(), "states and pairs do not mix"));
        }
        let alone = "everything stands alone: it is the empty list of pairs";
        let everything = self.everything.filter(|_| !self.pairs.is_empty());
        let drawing = self.drawing.map(|place| {
            let message = "a drawing has states and their arrows, and this file has pairs";
            (place, message)
        });
        drawing.or(everything.map(|place| (place, alone)))
    }

    /// The form that the lines have.
    fn form(&self, faults: &mut Faults) -> Option<Form> {
        match (&self.events, self.states.is_empty()) {
            (Some(events), _) => match self.beside_pairs() {
                Some((place, message)) => {
                    faults.add(Fault::new(place, message));
                    None
                }
                None => Some(Form::Before(events.clone())),
            },
            (None, true) => {
                let message = "no policy: states with arrows, or pairs of events";
                if faults.is_empty() {
                    faults.add(Fault::new(Place::default(), message));
                }
                None
            }
            (None, false) => self.states.form(&self.names, faults),
        }
    }
}

/// The policy of a policy file's text; events may have the names that are given.
pub fn policy(text: &[u8], given: &Names) -> Parsed<PolicyFile> {
    let mut faults = Faults::default();
    let said: Vec<Vec<Said>> = lines(text, &mut faults).iter().map(Said::words).collect();
    let mut reader = Reader {
        names: event_names(&said, &KEYWORDS, given, &mut faults),
        ceilings: UNLIMITED,
        states: States::default(),
        events: None,
        pairs: Vec::new(),
        drawing: None,
        everything: None,
        lines: LINES,
    };
    for words in &said {
        let taken = reader.line(words, &mut faults);
        if faults.keep(taken).is_none() {
            reader.lose(words, &mut faults);
        }
    }
    let form = reader.form(&mut faults);
    if !faults.is_empty() {
        reader.doubt(&mut faults);
    }
    faults.or(form.map(|form| PolicyFile {
        form,
        ceilings: reader.ceilings,
        pairs: reader.pairs,
        states: reader.states.places(),
        start: reader.states.start_place(),
        names: reader.names,
    }))
}

/// The text of a policy, that [`policy`] takes back.
pub fn policy_text(table: &Table, ceilings: &Ceilings, names: &Names) -> String {
    let mut text = String::new();
    for event in 0..EVENTS {
        if let Some(name) = names.of(event) {
            text += &format!("event {event} {name}\n");
        }
    }
    let target = |entry: u32| match entry {
        NO_ARROW => "none".to_string(),
        state => table.name(state),
    };
    for (state, name) in table.states.iter().enumerate() {
        text += &format!("state {name}\n");
        let row = &table.table[EVENTS as usize * state..][..EVENTS as usize];
        let share = |entry: u8| row.iter().filter(|&&other| other == entry).count();
        // What most events do is written once, as `others`. Missing arrows are not written.
        let usual = row
            .iter()
            .copied()
            .max_by_key(|&entry| (share(entry), entry));
        let usual = u32::from(usual.unwrap_or(NO_ARROW as u8));
        for (event, &entry) in row.iter().enumerate() {
            if u32::from(entry) != usual {
                let event = names.word(event as u32);
                text += &format!("  {event} -> {}\n", target(entry.into()));
            }
        }
        if usual != NO_ARROW {
            text += &format!("  others -> {}\n", target(usual));
        }
    }
    text += &format!("start {}\n", table.name(table.start));
    for order in 0..ORDERS {
        let most = ceilings[order as usize];
        if most != u32::MAX {
            text += &format!("ceiling {} {most}\n", names.word(order));
        }
    }
    text
}
