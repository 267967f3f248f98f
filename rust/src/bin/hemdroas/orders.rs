//! What can be typed at the prompt of step.

use super::load::Loaded;
use hemdroas::text::number;

/// What help says.
pub const HELP: &str = "\
Enter, or a number  takes one instruction, or that many
all                 goes on to the end or to a break
until WHERE         goes on to a line, an event or a label, and shows what is recorded
back [NUMBER]       goes back by one instruction, or by so many
break [WHERE]       stops at a line, an event or a label from now on; alone, lists the breaks
clear               forgets the breaks
what                says what the next instruction will do, and why a jump is taken
regs                shows the registers
cells [FROM TO]     shows cells; alone, those of the sandbox that are not 0
state               shows the policy's state
record              shows what is recorded
stop                ends the lesson
";

/// Where to stop.
#[derive(Clone, PartialEq, Eq)]
pub enum Goal {
    Line(usize),
    Place(u32),
    Event(u32),
}

/// What is asked for.
pub enum Order {
    Steps(u32),
    Until(Goal),
    Back(u32),
    Break(Goal),
    Breaks,
    Clear,
    What,
    Registers,
    Cells(Option<u32>, Option<u32>),
    State,
    Record,
    Help,
    Stop,
}

impl Goal {
    /// The goal that a word means: an event, a label or a line of the text. If there is
    /// no text, a number means an instruction.
    fn of(loaded: &Loaded, word: &str) -> Result<Goal, String> {
        let routine = loaded.routine();
        if let Ok(number) = number(word) {
            let Some(text) = &routine.text else {
                return match (number as usize) < routine.words.len() {
                    true => Ok(Goal::Place(number)),
                    false => Err(format!("there is no instruction {number}")),
                };
            };
            let line = number as usize;
            return match text.lines().contains(&line) {
                true => Ok(Goal::Line(line)),
                false => Err(format!("no instruction stands in line {line}")),
            };
        }
        if let Ok(event) = loaded.names.event(word) {
            return Ok(Goal::Event(event));
        }
        let labels = routine.text.iter().flat_map(|text| &text.labels);
        let found = labels.into_iter().find(|(label, _)| label == word);
        match found {
            Some(&(_, place)) => Ok(Goal::Place(place)),
            None => Err(format!("'{word}' is no line, no event and no label")),
        }
    }

    /// As it is listed.
    pub fn text(&self, loaded: &Loaded) -> String {
        match self {
            Goal::Line(line) => format!("line {line}"),
            Goal::Place(place) => match loaded.routine().text {
                Some(_) => format!("label {}", loaded.routine().target(*place)),
                None => format!("instruction {place}"),
            },
            Goal::Event(event) => format!("event {}", loaded.names.word(*event)),
        }
    }
}

/// A number of instructions.
fn count(word: &str) -> Result<u32, String> {
    match number(word) {
        Ok(number) if number > 0 && !word.starts_with('-') => Ok(number),
        Ok(_) => Err(format!("'{word}' is no number of instructions")),
        Err(said) if word.starts_with(|c: char| c.is_ascii_digit() || c == '-') => Err(said),
        Err(_) => Err(format!("'{word}' is not known")),
    }
}

/// The cells from one to another.
fn cells(from: &str, to: &str) -> Result<Order, String> {
    match (number(from)?, number(to)?) {
        (first, last) if first > last => Err(format!("cell {from} comes after cell {to}")),
        (first, last) => Ok(Order::Cells(Some(first), Some(last))),
    }
}

/// The order of a line.
pub fn order(loaded: &Loaded, line: &str) -> Result<Order, String> {
    let words: Vec<&str> = line.split_whitespace().collect();
    Ok(match words[..] {
        [] => Order::Steps(1),
        ["all"] => Order::Steps(u32::MAX),
        ["until", goal] => Order::Until(Goal::of(loaded, goal)?),
        ["until"] => return Err("until which line, event or label".to_string()),
        ["back"] => Order::Back(1),
        ["back", number] => Order::Back(count(number)?),
        ["break"] => Order::Breaks,
        ["break", goal] => Order::Break(Goal::of(loaded, goal)?),
        ["clear"] => Order::Clear,
        ["what"] => Order::What,
        ["regs"] => Order::Registers,
        ["cells"] => Order::Cells(None, None),
        ["cells", from] => Order::Cells(Some(number(from)?), None),
        ["cells", from, to] => cells(from, to)?,
        ["state"] => Order::State,
        ["record"] => Order::Record,
        ["help"] => Order::Help,
        ["stop"] => Order::Stop,
        [number] => Order::Steps(count(number)?),
        _ => return Err(format!("'{line}' is not known")),
    })
}
