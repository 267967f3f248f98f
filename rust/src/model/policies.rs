//! Tests whether a policy is right.

use crate::names::{EVENTS, NO_ARROW};
use crate::Policy;

/// 'Byte 16 × s + n is the state after event n in state s, or 255 for no
/// arrow.'
pub fn is_entry(states: u32, byte: u8) -> bool {
    u32::from(byte) < states || u32::from(byte) == NO_ARROW
}

/// '10: length not 16 × S, start not below S, or a byte neither below S nor
/// 255'. The caller tests S.
pub fn is_bad_policy(policy: &Policy) -> bool {
    let Policy {
        states,
        start,
        table,
    } = *policy;
    table.len() as u64 != u64::from(EVENTS) * u64::from(states)
        || start >= states
        || table.iter().any(|&byte| !is_entry(states, byte))
}
