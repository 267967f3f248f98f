//! Names of events.

use super::said::{is_name, no_name, quoted};
use super::{hint, number};
use crate::names::EVENTS;

/// Words of the files that cannot name an event.
const KEYWORDS: [&str; 11] = [
    "others",
    "start",
    "state",
    "drawing",
    "everything",
    "event",
    "ceiling",
    "before",
    "landings",
    "scale",
    "cell",
];

/// The names of the sixteen events, of which any may have none.
#[derive(Clone, Debug, Default, PartialEq, Eq)]
pub struct Names([Option<String>; EVENTS as usize]);

impl Names {
    /// The name of an event, if it has one.
    pub fn of(&self, event: u32) -> Option<&str> {
        self.0.get(event as usize)?.as_deref()
    }

    /// The event of a name or a number, which may be above 15.
    pub fn event(&self, word: &str) -> Result<u32, String> {
        if !is_name(word) {
            return number(word);
        }
        let named = |name: &Option<String>| name.as_deref() == Some(word);
        match self.0.iter().position(named) {
            Some(event) => Ok(event as u32),
            None => {
                let known = self.0.iter().flatten().map(String::as_str);
                let near = match self.0.iter().any(Option::is_some) {
                    true => hint(word, known),
                    false => "; names come from the drum's file (--drum)".to_string(),
                };
                Err(format!("no event is named {}{near}", quoted(word)))
            }
        }
    }

    /// The event of a name or a number that is one.
    pub fn known_event(&self, word: &str) -> Result<u32, String> {
        match self.event(word)? {
            event if event < EVENTS => Ok(event),
            _ => Err(format!("{word} is no event: they are 0 to {}", EVENTS - 1)),
        }
    }

    /// An event as a text form has it: its name, or its number.
    pub fn word(&self, event: u32) -> String {
        match self.of(event) {
            Some(name) => name.to_string(),
            None => event.to_string(),
        }
    }

    /// An event as a table shows it: its number, and its name.
    pub fn both(&self, event: u32) -> String {
        match self.of(event) {
            Some(name) => format!("{event} {name}"),
            None => event.to_string(),
        }
    }

    /// Names an event. It has one name, and a name one event.
    pub fn add(&mut self, event: &str, name: &str) -> Result<(), String> {
        let event = number(event).and_then(|_| self.known_event(event))?;
        if !is_name(name) || KEYWORDS.contains(&name) {
            return Err(no_name(name, "name"));
        }
        if self.event(name).is_ok_and(|other| other != event) {
            return Err(format!("{} is the name of another event", quoted(name)));
        }
        match self.of(event) {
            Some(other) if other != name => {
                Err(format!("event {event} has the name {}", quoted(other)))
            }
            _ => {
                self.0[event as usize] = Some(name.to_string());
                Ok(())
            }
        }
    }
}
