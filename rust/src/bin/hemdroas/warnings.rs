//! The warnings of check, about routines that are taken but probably wrong.

use super::load::Checked;
use super::report::{Level, Report};
use super::what::{event_of, instruction_of};
use hemdroas::model::Instr;
use hemdroas::names::{BUNDLE_LENGTH, EVENTS};
use hemdroas::text::{Field, Names, Objection, Table};
use hemdroas::Refusal;

/// A warning about an instruction. An `Objection` must have a refusal, but a
/// warning does not show it.
fn warning(checked: &Checked, place: usize, field: Option<Field>, message: String) -> Report {
    let found = Objection {
        field,
        refusal: Refusal::NotForward,
        message,
    };
    checked.routine.report(Level::Warning, place as u32, &found)
}

/// The states of a policy that can be reached.
pub fn reached_states(policy: &Table) -> Vec<bool> {
    let mut reached = vec![false; policy.states.len()];
    let mut waiting = vec![policy.start];
    while let Some(state) = waiting.pop() {
        if let Some(seen @ false) = reached.get_mut(state as usize) {
            *seen = true;
            waiting.extend((0..EVENTS).filter_map(|event| policy.policy().after(state, event)));
        }
    }
    reached
}

/// Events that the policy never allows.
fn never_allowed(checked: &Checked, policy: &Table, names: &Names) -> Vec<Report> {
    let reached = reached_states(policy);
    let states = (0..).zip(&reached).filter(|(_, &is_reached)| is_reached);
    let states: Vec<u32> = states.map(|(state, _)| state).collect();
    let is_never = |event: u32| {
        let mut after = states
            .iter()
            .map(|&state| policy.policy().after(state, event));
        after.all(|next| next.is_none())
    };
    let words = checked.routine.words.iter().enumerate();
    let events = words.filter_map(|(place, &word)| Some((place, event_of(word)?)));
    let never = events.filter(|&(_, event)| is_never(event));
    let report = |(place, event): (usize, u32)| {
        let name = names.word(event);
        let message = format!("the policy never allows {name}: the routine stops here (21)");
        warning(checked, place, Some(Field::V), message)
    };
    never.map(report).collect()
}

/// A GOX where the drum lists no landing that it could go to.
fn lost_jumps(checked: &Checked) -> Vec<Report> {
    let bundles = checked.commands.len() / BUNDLE_LENGTH;
    let has_landing = checked
        .landings
        .iter()
        .any(|&landing| (landing as usize) < bundles);
    let none = match checked.landings.is_empty() {
        _ if has_landing => return Vec::new(),
        true => "there are no landings".to_string(),
        false => format!("no landing is below {bundles}, where the routine ends"),
    };
    let words = checked.routine.words.iter().enumerate();
    let jumps = words.filter(|(_, &word)| matches!(instruction_of(word), Some(Instr::GoX { .. })));
    let message = format!("{none}: a GOX that is taken stops the routine (26)");
    jumps
        .map(|(place, _)| warning(checked, place, Some(Field::D), message.clone()))
        .collect()
}

/// The instructions that may follow one.
fn followers(checked: &Checked, place: usize) -> Vec<usize> {
    let landings = || checked.landings.iter().map(|&landing| landing as usize);
    match instruction_of(checked.routine.words[place]) {
        Some(Instr::Halt) => Vec::new(),
        Some(Instr::GoIf { c: 0, v, .. }) => vec![v as usize],
        Some(Instr::GoIf { v, .. }) => vec![v as usize, place + 1],
        Some(Instr::GoX { c: 0, .. }) => landings().collect(),
        Some(Instr::GoX { .. }) => landings().chain([place + 1]).collect(),
        _ => vec![place + 1],
    }
}

/// Code that no run reaches: one report for each stretch of it.
fn never_reached(checked: &Checked) -> Vec<Report> {
    let count = checked.routine.words.len();
    let mut reached = vec![false; count];
    let mut waiting = vec![0];
    while let Some(place) = waiting.pop() {
        if let Some(seen @ false) = reached.get_mut(place) {
            *seen = true;
            waiting.extend(followers(checked, place));
        }
    }
    let begins = |place: &usize| !reached[*place] && (*place == 0 || reached[*place - 1]);
    let report = |first: usize| {
        let length = reached[first..].iter().take_while(|&&seen| !seen).count();
        let message = match length {
            1 => "this instruction is never reached".to_string(),
            _ => format!(
                "instructions {first} to {} are never reached",
                first + length - 1
            ),
        };
        warning(checked, first, None, message)
    };
    (0..count).filter(begins).map(report).collect()
}

/// All warnings about a routine, in the order of its instructions.
pub fn warnings(checked: &Checked, policy: Option<&Table>, names: &Names) -> Vec<Report> {
    let mut found = lost_jumps(checked);
    found.extend(never_reached(checked));
    if let Some(policy) = policy {
        found.extend(never_allowed(checked, policy, names));
    }
    found.sort_by_key(|report| report.instruction.as_ref().map(|(place, _)| *place));
    found
}
