//! Policies, and what the makers of policies take and answer.

use super::answers::Answer;
use crate::names::{EVENTS, NO_ARROW, ORDERS};

/// A policy: an automaton over the events 0 to 15.
#[derive(Clone, Copy, Debug, PartialEq, Eq)]
pub struct Policy<'a> {
    /// The number of states.
    pub states: u32,
    /// The state before the first event.
    pub start: u32,
    /// Byte 16 × s + n is the state after event n in state s, or 255 if the event is
    /// not allowed there.
    pub table: &'a [u8],
}

impl Policy<'_> {
    /// The state after an event, if the event is allowed.
    pub fn after(&self, state: u32, event: u32) -> Option<u32> {
        let place = EVENTS as usize * state as usize + event as usize;
        let entry = u32::from(*self.table.get(place)?);
        (entry != NO_ARROW).then_some(entry)
    }
}

/// The largest value that each order, event 0 to 7, records.
pub type Ceilings = [u32; ORDERS as usize];

/// The result of making a policy from pairs of events. Its start state is 0. A
/// refusal has zeros beside it.
#[derive(Clone, Copy, Debug, PartialEq, Eq)]
#[must_use]
pub struct Made {
    /// The answer; its place is the number of bytes written.
    pub answer: Answer,
    /// The number of states.
    pub states: u32,
    /// Bit e is set if event e can never be allowed.
    pub never: u16,
}

/// A policy as exporters draw it: a state may have several arrows for one event,
/// and several states may be starts.
#[derive(Clone, Copy, Debug, PartialEq, Eq)]
pub struct Drawing<'a> {
    /// The number of states.
    pub states: u32,
    /// Bit s is set if state s is a start. The set has 16 bits; the C interface passes
    /// it in 32.
    pub starts: u32,
    /// Bit t of entry 16 × s + n is set if event n leads from state s to state t.
    pub arrows: &'a [u16],
}

/// The result of making a policy from a drawing. A refusal has zeros beside it.
#[derive(Clone, Copy, Debug, PartialEq, Eq)]
#[must_use]
pub struct Determinised {
    /// The answer; its place is the number of bytes written.
    pub answer: Answer,
    /// The number of states.
    pub states: u32,
    /// The start state, always 0.
    pub start: u32,
}

/// One of two policies to be merged.
#[derive(Clone, Copy, Debug, PartialEq, Eq)]
pub struct Side<'a> {
    /// The policy.
    pub policy: Policy<'a>,
    /// Its ceilings.
    pub ceilings: Ceilings,
}

/// The result of merging two policies. A refusal has zeros beside it.
#[derive(Clone, Copy, Debug, PartialEq, Eq)]
#[must_use]
pub struct Merged {
    /// The answer; its place is the number of bytes written.
    pub answer: Answer,
    /// The number of states.
    pub states: u32,
    /// The start state, always 0.
    pub start: u32,
    /// The smaller of the two ceilings of each order.
    pub ceilings: Ceilings,
}
