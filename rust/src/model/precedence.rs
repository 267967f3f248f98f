//! Request [11], a policy from pairs of events: this before that.

use std::collections::BTreeSet;

use super::outputs::{deliver, refuse, room_for, Refused};
use crate::names::{EVENTS, NO_ARROW};
use crate::{Made, Refusal};

/// 'More than four named events' are too many.
const MOST_NAMED: usize = 4;

/// The named events that were recorded.
type Recorded = BTreeSet<u8>;

/// A list of pairs that is right.
struct Pairs {
    pairs: Vec<(u8, u8)>,
    named: BTreeSet<u8>,
}

impl Pairs {
    /// '17 (bad pair: an event above 15 or without its partner, or more than
    /// four named events)'
    fn of(events: &[u8]) -> Result<Pairs, Refused> {
        let named: BTreeSet<u8> = events.iter().copied().collect();
        let above = named.iter().any(|&event| u32::from(event) >= EVENTS);
        let partnerless = !events.len().is_multiple_of(2);
        if above || partnerless || named.len() > MOST_NAMED {
            return refuse(Refusal::BadPair);
        }
        let pairs = events.chunks(2).map(|pair| (pair[0], pair[1])).collect();
        Ok(Pairs { pairs, named })
    }

    /// 'A state is the map of named events already recorded: bit k stands for
    /// the k-th smallest named event, counted from 0; all such maps are
    /// states.'
    fn states(&self) -> u8 {
        1 << self.named.len()
    }

    fn recorded_in(&self, state: u8) -> Recorded {
        let named = self.named.iter().enumerate();
        let stands = |&(k, _): &(usize, &u8)| state / (1 << k) % 2 == 1;
        named.filter(stands).map(|(_, &event)| event).collect()
    }

    fn state_of(&self, recorded: &Recorded) -> u8 {
        let named = self.named.iter().enumerate();
        let stands = |&(_, event): &(usize, &u8)| recorded.contains(event);
        named.filter(stands).map(|(k, _)| 1 << k).sum()
    }

    /// 'Unnamed events stay in their state.' 'A named event sets its bit, and
    /// has an arrow exactly in the states where all its firsts are recorded;
    /// one never named second always has.'
    fn arrow(&self, recorded: &Recorded, event: u8) -> Option<Recorded> {
        let mut after = recorded.clone();
        if self.named.contains(&event) {
            let mut its_pairs = self.pairs.iter().filter(|pair| pair.1 == event);
            if !its_pairs.all(|pair| recorded.contains(&pair.0)) {
                return None;
            }
            after.insert(event);
        }
        Some(after)
    }

    /// The table, 16 bytes for each state.
    fn table(&self) -> Vec<u8> {
        let mut table = Vec::new();
        for state in 0..self.states() {
            let recorded = self.recorded_in(state);
            for event in 0..EVENTS as u8 {
                table.push(match self.arrow(&recorded, event) {
                    Some(after) => self.state_of(&after),
                    None => NO_ARROW as u8,
                });
            }
        }
        table
    }

    /// 'A 16-bit map of the events that no allowed word holds': all events but those
    /// with an arrow in some state that events lead to from the start.
    fn never(&self) -> u16 {
        let mut never: BTreeSet<u8> = (0..EVENTS as u8).collect();
        let mut met = vec![Recorded::new()];
        let mut looked_at = 0;
        while looked_at < met.len() {
            for event in 0..EVENTS as u8 {
                if let Some(after) = self.arrow(&met[looked_at], event) {
                    never.remove(&event);
                    if !met.contains(&after) {
                        met.push(after);
                    }
                }
            }
            looked_at += 1;
        }
        never.into_iter().map(|event| 1 << event).sum()
    }
}

/// '17 comes first. 9 follows it.'
fn made(events: &[u8], room: usize) -> Result<(Pairs, Vec<u8>), Refused> {
    let pairs = Pairs::of(events)?;
    let table = pairs.table();
    room_for(table.len(), room)?;
    Ok((pairs, table))
}

/// Makes the policy in which the second event of each pair has an arrow only once
/// the first has been recorded. 'The start state is 0'. 'After a reject all else
/// handed back is 0.'
pub fn precedence(pairs: &[u8], table: &mut [u8]) -> Made {
    match made(pairs, table.len()) {
        Ok((pairs, bytes)) => Made {
            answer: deliver(Ok(bytes), table),
            states: u32::from(pairs.states()),
            never: pairs.never(),
        },
        Err(refused) => Made {
            answer: deliver(Err(refused), table),
            states: 0,
            never: 0,
        },
    }
}
