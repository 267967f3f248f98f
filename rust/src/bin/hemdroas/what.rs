//! What the next instruction will do, in words.

use super::load::Loaded;
use hemdroas::model::words::fields;
use hemdroas::model::Instr;
use hemdroas::names::{BUNDLE_LENGTH, GUEST_REGISTERS, ORDERS};
use hemdroas::text::{condition_name, landings_text};

/// The guest's registers.
pub type Registers = [u32; GUEST_REGISTERS as usize];

/// A jump: what it compares, whether it is taken, and where it goes if it is.
pub struct Jump {
    pub condition: String,
    pub is_taken: bool,
    pub target: u32,
    /// How the register of a GOX comes to the target, where it is not the number itself.
    pub wrapped: String,
    /// Whether it goes only to a landing.
    pub wants_landing: bool,
}

/// The instruction of a word.
pub fn instruction_of(word: u64) -> Option<Instr> {
    Instr::of_kind(fields(word))
}

/// The event of a word.
pub fn event_of(word: u64) -> Option<u32> {
    match instruction_of(word) {
        Some(Instr::Event { v }) => Some(v),
        _ => None,
    }
}

/// The jump of a word, in a routine of so many bundles.
pub fn jump_of(word: u64, regs: &Registers, bundles: u32) -> Option<Jump> {
    let get = |register: u32| regs.get(register as usize).copied().unwrap_or(0);
    let (a, b, c, target, through) = match instruction_of(word)? {
        Instr::GoIf { a, b, c, v } => (a, b, c, v, None),
        Instr::GoX { d, a, b, c } => (a, b, c, get(d) % bundles, Some(d)),
        _ => return None,
    };
    let wrapped = match through.map(|d| (d, get(d))) {
        Some((d, value)) if value >= bundles => format!("r{d} is {value}, modulo {bundles}: "),
        _ => String::new(),
    };
    let (left, right) = (get(a), get(b));
    let signed = (left as i32, right as i32);
    let name = condition_name(c);
    let (is_taken, condition) = match c {
        0 => (true, name.to_string()),
        1 => (left == right, format!("{left} {name} {right}")),
        2 => (left < right, format!("{left} {name} {right}")),
        _ => (
            signed.0 < signed.1,
            format!("{} {name} {}", signed.0, signed.1),
        ),
    };
    Some(Jump {
        condition,
        is_taken,
        target,
        wrapped,
        wants_landing: through.is_some(),
    })
}

/// The text about a drum's landings.
pub fn landings_said(landings: &[u32]) -> String {
    match landings.is_empty() {
        true => "there are no landings".to_string(),
        false => format!("the landings are {}", landings_text(landings)),
    }
}

/// Why the next jump will or will not be taken.
fn jump_text(loaded: &Loaded, place: u32, jump: &Jump) -> String {
    let routine = loaded.routine();
    let Jump {
        condition, target, ..
    } = jump;
    if !jump.is_taken {
        return format!("{condition}: no, on to {}", routine.place(place + 1));
    }
    let goal = format!("{}to {}", jump.wrapped, routine.target(*target));
    if !jump.wants_landing || loaded.checked.landings.contains(target) {
        return format!("{condition}: yes, {goal}");
    }
    let landings = landings_said(&loaded.checked.landings);
    format!("{condition}: yes, {goal}, which is no landing; {landings}: it will stop (26)")
}

/// What an event will do.
fn event_text(loaded: &Loaded, event: u32, r0: u32, state: u32) -> String {
    let name = loaded.names.word(event);
    let from = loaded.state_text(state);
    let Some(next) = loaded.policy.policy().after(state, event) else {
        return format!("state {from} has no arrow for {name}: it will stop (21)");
    };
    let to = loaded.state_text(next);
    let records = match event < ORDERS {
        true => {
            let most = loaded.layout().ceilings[event as usize];
            let limited = if r0 > most {
                format!(", limited from {r0}")
            } else {
                String::new()
            };
            format!("records {}{limited}", r0.min(most))
        }
        false => "reads the probe into r0 and records it".to_string(),
    };
    format!("{name} {records}; state {from} -> {to}")
}

/// What the next instruction will do; none if it only alters a register.
pub fn what(loaded: &Loaded, place: u32, regs: &Registers, state: u32) -> Option<String> {
    let routine = loaded.routine();
    let word = routine.words.get(place as usize).copied().unwrap_or(0);
    let bundles = (loaded.checked.commands.len() / BUNDLE_LENGTH) as u32;
    if let Some(jump) = jump_of(word, regs, bundles) {
        return Some(jump_text(loaded, place, &jump));
    }
    let layout = loaded.layout();
    let mask = |register: u32| {
        let address = regs.get(register as usize).copied().unwrap_or(0);
        match address & layout.high | layout.low {
            cell if cell == address => {
                format!("address {address} (r{register}) lies in the sandbox")
            }
            cell => format!(
                "address {address} (r{register}) lies outside the sandbox: cell {cell} is used"
            ),
        }
    };
    Some(match instruction_of(word)? {
        Instr::Event { v } => event_text(loaded, v, regs[0], state),
        Instr::Load { a, .. } | Instr::Store { a, .. } => mask(a),
        Instr::Halt => "it will end (20)".to_string(),
        _ => return None,
    })
}
