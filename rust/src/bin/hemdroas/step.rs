//! step: asks before each instruction, and shows what it did.

use super::args::Args;
use super::endings::{End, Given};
use super::files;
use super::load::load;
use super::orders::{order, Goal, Order, HELP};
use super::problem::{Done, Problem, Status};
use super::prompt::{ask, typed_readings};
use super::records::{head, rows};
use super::running::{given, readings};
use super::school::{Lesson, Taken};
use super::shown::{
    cells_text, place_text, register_changes, registers_text, taken_json, taken_text,
};
use super::what::{event_of, what};
use hemdroas::Ending;
use std::collections::VecDeque;

/// The message if the routine cannot go on.
const OVER: &str = "it is over: 'back' goes back, 'stop' ends the lesson\n";

/// A lesson, and what the person at the terminal asked for.
struct Class<'a> {
    args: &'a Args,
    given: &'a Given,
    lesson: Lesson<'a>,
    /// Readings that were typed and not yet asked for.
    typed: VecDeque<String>,
    breaks: Vec<Goal>,
    /// The ending that the routine reached, if it cannot go on.
    over: Option<Ending>,
    /// An order that was typed instead of a reading, to be carried out next.
    next: Option<Order>,
    /// Whether the person has left the lesson.
    is_left: bool,
}

/// How far to go.
struct Stretch {
    most: u32,
    until: Option<Goal>,
    /// Whether only recorded pairs are shown on the way.
    is_brief: bool,
}

impl Class<'_> {
    /// Prints text for a person. With --json it goes to standard error, since
    /// objects go to standard output.
    fn tell(&self, text: &str) -> Result<(), Problem> {
        match self.args.is_json() {
            true => {
                files::complain(text);
                Ok(())
            }
            false => files::print(text),
        }
    }

    fn show(&self, taken: &Taken, is_brief: bool) -> Result<(), Problem> {
        if self.args.is_json() {
            return files::print_json(&taken_json(&self.lesson, taken));
        }
        match (is_brief, taken.pair) {
            (false, _) => files::print(&taken_text(&self.lesson, taken)),
            (true, Some(pair)) => {
                let before = self.lesson.pairs.len() - 1;
                files::print(&rows(self.lesson.loaded, before, &[pair]))
            }
            (true, None) => Ok(()),
        }
    }

    /// Whether the next instruction is the goal.
    fn is_at(&self, goal: &Goal) -> bool {
        let place = self.lesson.engine.at;
        match goal {
            Goal::Place(goal) => *goal == place,
            Goal::Line(line) => self.lesson.loaded.routine().line(place) == Some(*line),
            Goal::Event(event) => event_of(self.lesson.word()) == Some(*event),
        }
    }

    /// Handles an order that was typed instead of a reading. True if it moves the
    /// lesson, so that the reading is no longer needed.
    fn instead(&mut self, line: &str) -> Result<bool, Problem> {
        match order(self.lesson.loaded, line) {
            Ok(asked @ (Order::Steps(_) | Order::Until(_) | Order::Back(_) | Order::Stop)) => {
                self.next = Some(asked);
                return Ok(true);
            }
            Ok(asked) => self.obey(asked)?,
            Err(said) => files::complain(&format!("{said}; 'help' lists what is known\n")),
        }
        Ok(false)
    }

    /// Gets a reading for the silent probe. False if there is none.
    fn reading(&mut self) -> Result<bool, Problem> {
        let event = event_of(self.lesson.word()).unwrap_or(0);
        let name = self.lesson.loaded.names.word(event);
        loop {
            let Some(typed) = self.typed.pop_front() else {
                if self.args.has("--all") {
                    return Ok(false);
                }
                match ask(&format!("readings of {name}: "))? {
                    None => return Ok(false),
                    Some(line) if line.is_empty() => {
                        files::complain("a reading is wanted; 'help' lists what is known\n");
                    }
                    Some(line) if line.starts_with(|c: char| c.is_ascii_alphabetic()) => {
                        if self.instead(&line)? {
                            return Ok(false);
                        }
                    }
                    Some(line) => match typed_readings(&line, self.lesson.loaded.scale(event)) {
                        Ok(readings) => self.typed.extend(readings),
                        Err(said) => files::complain(&format!("{said}\n")),
                    },
                }
                continue;
            };
            match self.lesson.read(&typed) {
                Ok(()) => return Ok(true),
                Err(said) if self.args.has("--all") => {
                    return Err(Problem::Usage(format!(
                        "--readings: a reading of {name}: {said}"
                    )));
                }
                Err(said) => {
                    self.typed.clear();
                    files::complain(&format!("{said}; 'help' lists what is known\n"));
                }
            }
        }
    }

    /// Executes instructions. Returns the ending, if one is reached.
    fn advance(&mut self, stretch: &Stretch) -> Result<Option<Ending>, Problem> {
        let mut count = 0;
        while count < stretch.most {
            if self.lesson.done == self.given.budget {
                return Ok(Some(Ending::Spent));
            }
            let Some(taken) = self.lesson.step()? else {
                match (self.reading()?, &self.next) {
                    (true, _) => continue,
                    (false, None | Some(Order::Stop)) => {
                        self.is_left = true;
                        return Ok(Some(Ending::Silent));
                    }
                    (false, Some(_)) => return Ok(None),
                }
            };
            count += 1;
            self.show(&taken, stretch.is_brief)?;
            if !self.lesson.is_running() {
                return Ok(Some(taken.ending));
            }
            let stops = stretch.until.iter().chain(&self.breaks);
            let found = stops.into_iter().any(|goal| self.is_at(goal));
            if found && count < stretch.most {
                self.tell(&place_text(&self.lesson))?;
                break;
            }
        }
        Ok(None)
    }

    /// The answer to a person's question.
    fn answer(&self, asked: &Order) -> String {
        let lesson = &self.lesson;
        let (regs, state) = (&lesson.engine.regs, lesson.state());
        match asked {
            Order::Registers => registers_text(regs),
            Order::Cells(from, to) => cells_text(lesson, *from, *to),
            Order::State => format!("state {}\n", lesson.loaded.state_text(state)),
            Order::Record => format!(
                "{}{}",
                head(lesson.loaded),
                rows(lesson.loaded, 0, &lesson.pairs)
            ),
            Order::What if !lesson.is_running() => OVER.to_string(),
            Order::What => match what(lesson.loaded, lesson.engine.at, regs, state) {
                Some(said) => format!("{said}\n"),
                None => match register_changes(regs, &lesson.registers_ahead()) {
                    none if none.is_empty() => "no register will change\n".to_string(),
                    changes => format!("{}\n", changes.join("\n")),
                },
            },
            Order::Breaks => {
                let all = self.breaks.iter().map(|goal| goal.text(lesson.loaded));
                let all: Vec<String> = all.collect();
                match all.is_empty() {
                    true => "no breaks\n".to_string(),
                    false => format!("breaks: {}\n", all.join(", ")),
                }
            }
            _ => HELP.to_string(),
        }
    }

    /// Executes instructions unless the routine is over. Shows the ending if one
    /// is reached.
    fn go_on(&mut self, most: u32, until: Option<Goal>) -> Result<(), Problem> {
        if !self.lesson.is_running() {
            return self.tell(OVER);
        }
        self.over = self.advance(&Stretch {
            most,
            is_brief: until.is_some(),
            until,
        })?;
        match self.over {
            Some(_) => self.show_end(),
            None => Ok(()),
        }
    }

    /// Shows how the lesson ended, and where.
    fn show_end(&self) -> Result<(), Problem> {
        let lesson = &self.lesson;
        let end = End {
            loaded: lesson.loaded,
            ending: self.over,
            given: self.given,
            count: lesson.done.into(),
            pairs: lesson.pairs.len(),
            readings: lesson.used as u64,
            place: lesson.engine.at,
            regs: lesson.engine.regs,
            memory: &lesson.memory,
        };
        end.show(self.args.is_json())
    }

    /// Carries out an order.
    fn obey(&mut self, asked: Order) -> Result<(), Problem> {
        match asked {
            Order::Stop => self.is_left = true,
            Order::Steps(most) => self.go_on(most, None)?,
            Order::Until(goal) => {
                self.tell(&format!("until {}\n", goal.text(self.lesson.loaded)))?;
                self.go_on(u32::MAX, Some(goal))?;
            }
            Order::Back(count) => {
                self.lesson.back(count)?;
                self.over = None;
                self.tell(&place_text(&self.lesson))?;
            }
            Order::Break(goal) => {
                if !self.breaks.contains(&goal) {
                    self.breaks.push(goal);
                }
                self.tell(&self.answer(&Order::Breaks))?;
            }
            Order::Clear => {
                self.breaks.clear();
                self.tell(&self.answer(&Order::Breaks))?;
            }
            question => self.tell(&self.answer(&question))?,
        }
        Ok(())
    }

    /// Asks for orders and carries them out, until the person leaves.
    fn teach(&mut self) -> Result<(), Problem> {
        if self.args.has("--all") {
            return self.go_on(u32::MAX, None);
        }
        while !self.is_left {
            if let Some(asked) = self.next.take() {
                self.obey(asked)?;
                continue;
            }
            let Some(line) = ask("step: ")? else {
                break;
            };
            match order(self.lesson.loaded, &line) {
                Ok(asked) => self.obey(asked)?,
                Err(said) => files::complain(&format!("{said}; 'help' lists what is known\n")),
            }
        }
        match self.over {
            Some(_) => Ok(()),
            None => self.show_end(),
        }
    }
}

pub fn step(args: &Args) -> Done {
    let given = given(args, "instructions")?;
    let loaded = load(args)?;
    let mut class = Class {
        args,
        given: &given,
        lesson: Lesson::new(&loaded),
        typed: readings(args),
        breaks: Vec::new(),
        over: None,
        next: None,
        is_left: false,
    };
    if !args.is_json() {
        files::print(&place_text(&class.lesson))?;
    }
    class.teach()?;
    Ok(class.over.map_or(Status::Paused, Status::of))
}
