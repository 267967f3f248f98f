//! Request [7], two policies at once. Each state of the merged policy is a pair of
//! their states.

use super::exploration::explored;
use super::outputs::{deliver, refuse, room_for, Refused};
use super::policies::is_bad_policy;
use crate::names::{EVENTS, MOST_STATES};
use crate::{Answer, Ceilings, Merged, Refusal, Side};

/// '10 for a bad input, a state count outside 1 to 16 included.'
fn is_bad(side: &Side) -> bool {
    !(1..=MOST_STATES).contains(&side.policy.states) || is_bad_policy(&side.policy)
}

/// '10', then '15 (too many states: more than 16 reachable pairs) follows it. 9
/// comes last.' A pair has an arrow if both of its states have one.
fn pairs_of(one: &Side, other: &Side, room: usize) -> Result<Vec<u8>, Refused> {
    if is_bad(one) || is_bad(other) {
        return refuse(Refusal::BadPolicy);
    }
    let (one, other) = (&one.policy, &other.policy);
    let table = explored((one.start, other.start), |&(s, t), event| {
        Some((one.after(s, event)?, other.after(t, event)?))
    })?;
    room_for(table.len(), room)?;
    Ok(table)
}

/// 'The merged ceilings are the smaller of each two.'
fn smaller(one: &Ceilings, other: &Ceilings) -> Ceilings {
    std::array::from_fn(|event| one[event].min(other[event]))
}

/// Merges two policies. The start is the pair of the two starts, found first.
/// 'After a reject all else handed back is 0.'
pub fn merge(one: &Side, other: &Side, table: &mut [u8]) -> Merged {
    let answer = deliver(pairs_of(one, other, table.len()), table);
    let (states, ceilings) = match answer {
        Answer::Taken(bytes) => (bytes / EVENTS, smaller(&one.ceilings, &other.ceilings)),
        Answer::Refused { .. } => (0, Ceilings::default()),
    };
    Merged {
        answer,
        states,
        start: 0,
        ceilings,
    }
}
