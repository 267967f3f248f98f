//! What step shows, as text and as objects.

use super::endings::{cells_json, registers_json};
use super::json::{object, Json};
use super::records::{pair_json, value_text};
use super::school::{Lesson, Taken};
use super::what::Registers;
use hemdroas::Ending;

/// Where the engine stands, and the state.
pub fn place_text(lesson: &Lesson) -> String {
    let place = lesson.loaded.routine().place(lesson.engine.at);
    format!(
        "at {place}; state {}\n",
        lesson.loaded.state_text(lesson.state())
    )
}

/// The registers that are not as before.
pub fn register_changes(before: &Registers, after: &Registers) -> Vec<String> {
    let all = before.iter().zip(after).enumerate();
    let changed = all.filter(|(_, (old, new))| old != new);
    changed
        .map(|(register, (old, new))| format!("r{register}: {old} -> {new}"))
        .collect()
}

/// What one instruction did: the record, registers, cells, state.
pub fn taken_text(lesson: &Lesson, taken: &Taken) -> String {
    let loaded = lesson.loaded;
    let mut text = format!(
        "{:>4}  {}\n",
        lesson.done,
        loaded.routine().place(taken.place)
    );
    if let Some(pair) = &taken.pair {
        let value = value_text(loaded, pair);
        text += &format!(
            "      recorded {}: {value}\n",
            loaded.names.both(pair.event)
        );
    }
    for change in register_changes(&taken.before.regs, &lesson.engine.regs) {
        text += &format!("      {change}\n");
    }
    for (cell, old, new) in &taken.cells {
        text += &format!("      cell {cell}: {old} -> {new}\n");
    }
    let state = lesson.state();
    if state != taken.state {
        let (old, new) = (loaded.policy.name(taken.state), loaded.policy.name(state));
        text += &format!("      state: {old} -> {new}\n");
    }
    if lesson.is_running() {
        let next = loaded.routine().place(lesson.engine.at);
        text += &format!("      next {next}; state {}\n", loaded.state_text(state));
    }
    text
}

/// The object of one instruction.
pub fn taken_json(lesson: &Lesson, taken: &Taken) -> Json {
    let (loaded, state) = (lesson.loaded, lesson.state());
    let pair = taken
        .pair
        .as_ref()
        .map(|pair| Json::Object(pair_json(loaded, pair)));
    let ending = (!lesson.is_running()).then_some(taken.ending);
    object([
        ("type", "step".into()),
        ("step", lesson.done.into()),
        ("instruction", taken.place.into()),
        ("line", loaded.routine().line(taken.place).into()),
        ("text", loaded.routine().instruction(taken.place).into()),
        ("registers", registers_json(&lesson.engine.regs)),
        ("cells", cells_json(&taken.cells)),
        ("pair", pair.into()),
        ("state", state.into()),
        ("state_name", loaded.policy.name(state).into()),
        ("next", lesson.engine.at.into()),
        ("ending", ending.map(Ending::number).into()),
    ])
}

/// The registers, five to a line.
pub fn registers_text(regs: &Registers) -> String {
    let all: Vec<String> = (0..)
        .zip(regs)
        .map(|(r, value)| format!("{:<3} {value:<11}", format!("r{r}")))
        .collect();
    let lines = all
        .chunks(5)
        .map(|line| format!("{}\n", line.join(" ").trim_end()));
    lines.collect()
}

/// Cells, eight to a line; without a range, those of the sandbox that are not 0.
pub fn cells_text(lesson: &Lesson, from: Option<u32>, to: Option<u32>) -> String {
    let layout = lesson.loaded.layout();
    let low = from.unwrap_or(layout.low) as usize;
    let high = to.or(from).unwrap_or(layout.high) as usize;
    let all = lesson.memory.iter().enumerate();
    let asked = all.filter(|(cell, _)| (low..=high).contains(cell));
    let shown: Vec<String> = asked
        .filter(|(_, &value)| from.is_some() || value != 0)
        .map(|(cell, value)| format!("{cell}: {value}"))
        .collect();
    if shown.is_empty() {
        return match from {
            Some(_) => format!("no such cells: they are 0 to {}\n", lesson.memory.len() - 1),
            None => "the sandbox is all 0\n".to_string(),
        };
    }
    shown
        .chunks(8)
        .map(|line| format!("{}\n", line.join("  ")))
        .collect()
}
