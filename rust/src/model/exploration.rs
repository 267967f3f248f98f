//! Searches for all states that events lead to, for requests [7] and [8].

use super::outputs::{refuse, Refused};
use crate::names::{EVENTS, MOST_STATES, NO_ARROW};
use crate::Refusal;

/// The number of a state; a new state is added at the end.
fn number_of<T: PartialEq>(met: &mut Vec<T>, one: T) -> usize {
    match met.iter().position(|other| *other == one) {
        Some(number) => number,
        None => {
            met.push(one);
            met.len() - 1
        }
    }
}

/// 'Numbered as first met, events taken in rising order from the lowest
/// numbered': the bytes of the table. '15 (too many states: more than 16)' is
/// answered as soon as it is known.
pub fn explored<T: PartialEq>(
    start: T,
    after: impl Fn(&T, u32) -> Option<T>,
) -> Result<Vec<u8>, Refused> {
    let mut met = vec![start];
    let mut table = Vec::new();
    let mut lowest = 0;
    while lowest < met.len() {
        for event in 0..EVENTS {
            let entry = match after(&met[lowest], event) {
                Some(to) => number_of(&mut met, to),
                None => NO_ARROW as usize,
            };
            table.push(entry as u8);
        }
        if met.len() > MOST_STATES as usize {
            return refuse(Refusal::TooManyStates);
        }
        lowest += 1;
    }
    Ok(table)
}
