//! Installs a policy and a list of landings.

use super::landings::{are_bad_landings, landing_cells};
use super::layout::lent_right;
use super::outputs::{answer, refuse, Refused};
use super::policies::{is_bad_policy, is_entry};
use crate::names::MOST_STATES;
use crate::{Answer, Layout, Machine, Policy, Refusal};

/// Request [3]: 'it says yes exactly when S is from 1 to 16 and each of the
/// word's four bytes is below S or 255.'
pub fn word_right(states: u32, word: u32) -> bool {
    let bytes = word.to_le_bytes();
    (1..=MOST_STATES).contains(&states) && bytes.iter().all(|&byte| is_entry(states, byte))
}

/// 'Installing: 7, 10'; request [1]: '14 comes after 10'.
fn judge(
    layout: &Layout,
    policy: &Policy,
    landings: &[u32],
    memory: &[u32],
) -> Result<(), Refused> {
    if !lent_right(layout, memory) {
        return refuse(Refusal::BadLayout);
    }
    // '10: S not the layout's'
    if policy.states != layout.states || is_bad_policy(policy) {
        return refuse(Refusal::BadPolicy);
    }
    if are_bad_landings(landings) {
        return refuse(Refusal::BadLandings);
    }
    Ok(())
}

/// 'Installing writes the start state to M and the table to its cells, nothing
/// else, and yields a machine record: nine registers 0, pc = B, running'; sixteen
/// since request [6]. After a refusal: 'installing's record faulted'.
pub fn install(
    layout: &Layout,
    policy: &Policy,
    landings: &[u32],
    memory: &mut [u32],
) -> (Answer, Machine) {
    let judged = judge(layout, policy, landings, memory);
    let machine = match judged {
        Err(_) => Machine::REFUSED,
        Ok(()) => {
            memory[layout.cell as usize] = policy.start;
            for (at, &byte) in policy.table.iter().enumerate() {
                memory[layout.table as usize + at] = u32::from(byte);
            }
            for (k, bits) in landing_cells(landings).into_iter().enumerate() {
                memory[layout.landings as usize + k] = bits;
            }
            Machine::new(layout.base)
        }
    };
    (answer(judged.map(|()| 0)), machine)
}
