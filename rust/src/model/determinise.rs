//! Request [8], a policy from a drawing with several arrows. Each state of the
//! policy is a set of the drawing's states.

use std::collections::BTreeSet;

use super::exploration::explored;
use super::outputs::{deliver, refuse, room_for, Refused};
use crate::names::{CELL_BITS, EVENTS, MOST_STATES};
use crate::{Answer, Determinised, Drawing, Refusal};

/// A set of the drawing's states.
type Set = BTreeSet<u32>;

/// The set of states whose bit is set.
fn set_of(map: u32) -> Set {
    let stands = |bit: &u32| map / (1 << bit) % 2 == 1;
    (0..CELL_BITS).filter(stands).collect()
}

/// '16 (bad drawing: no start, a state count outside 1 to 16, the wrong length,
/// or a bit at or above the state count)'
fn is_bad_drawing(drawing: &Drawing) -> bool {
    let Drawing {
        states,
        starts,
        arrows,
    } = *drawing;
    let has_bit_above = |map: u32| set_of(map).into_iter().any(|state| state >= states);
    set_of(starts).is_empty()
        || !(1..=MOST_STATES).contains(&states)
        || arrows.len() as u64 != u64::from(EVENTS) * u64::from(states)
        || has_bit_above(starts)
        || arrows.iter().any(|&map| has_bit_above(u32::from(map)))
}

/// 'Entry 16 × s + n such a map of the successors of state s under event n'. For
/// a set: the successors of all its states.
fn successors(drawing: &Drawing, from: &Set, event: u32) -> Set {
    let of_state = |&state: &u32| drawing.arrows[(EVENTS * state + event) as usize];
    from.iter()
        .flat_map(|state| set_of(u32::from(of_state(state))))
        .collect()
}

/// '16 comes first. 15 (more than 16 reachable sets, the empty one not counted)
/// and then 9 follow.' 'A set with no successor under an event gets 255 there.'
fn policy_of(drawing: &Drawing, room: usize) -> Result<Vec<u8>, Refused> {
    if is_bad_drawing(drawing) {
        return refuse(Refusal::BadDrawing);
    }
    let table = explored(set_of(drawing.starts), |from, event| {
        let to = successors(drawing, from, event);
        (!to.is_empty()).then_some(to)
    })?;
    room_for(table.len(), room)?;
    Ok(table)
}

/// Makes the policy of a drawing. Its start is the set of starts, found first.
/// 'After a reject all else handed back is 0.'
pub fn determinise(drawing: &Drawing, table: &mut [u8]) -> Determinised {
    let answer = deliver(policy_of(drawing, table.len()), table);
    let states = match answer {
        Answer::Taken(bytes) => bytes / EVENTS,
        Answer::Refused { .. } => 0,
    };
    Determinised {
        answer,
        states,
        start: 0,
    }
}
