//! A routine as it is written, one instruction at a time, forwards and back.

use super::endings::changed_cells;
use super::load::Loaded;
use super::problem::Problem;
use super::stretch::{Recorded, PAIR};
use super::what::{event_of, Registers};
use hemdroas::text::scaled;
use hemdroas::{native, Ending, Engine, EngineAnswer, Status};

/// A lesson: where the engine stands, what it did and what it read.
pub struct Lesson<'a> {
    pub loaded: &'a Loaded,
    pub engine: Engine,
    pub memory: Vec<u32>,
    pub done: u32,
    pub pairs: Vec<Recorded>,
    /// All readings that were given, and how many of them are used.
    pub readings: Vec<u32>,
    pub used: usize,
}

/// What one instruction did.
pub struct Taken {
    pub place: u32,
    pub before: Engine,
    pub state: u32,
    pub pair: Option<Recorded>,
    pub cells: Vec<(u32, u32, u32)>,
    pub ending: Ending,
}

impl<'a> Lesson<'a> {
    /// A lesson before its first instruction.
    pub fn new(loaded: &'a Loaded) -> Lesson<'a> {
        Lesson {
            loaded,
            engine: Engine::FIRST,
            memory: loaded.first.memory.clone(),
            done: 0,
            pairs: Vec::new(),
            readings: Vec::new(),
            used: 0,
        }
    }

    /// The policy's state.
    pub fn state(&self) -> u32 {
        self.loaded.state_in(&self.memory)
    }

    /// The next instruction's word. After the last one it is HALT.
    pub fn word(&self) -> u64 {
        let words = &self.loaded.routine().words;
        words.get(self.engine.at as usize).copied().unwrap_or(0)
    }

    /// Whether the routine can go on.
    pub fn is_running(&self) -> bool {
        self.engine.status == Status::Running
    }

    /// Adds a reading as it was typed, scaled for the event that waits for it.
    pub fn read(&mut self, typed: &str) -> Result<(), String> {
        let event = event_of(self.word()).unwrap_or(0);
        self.readings.push(scaled(typed, self.loaded.scale(event))?);
        Ok(())
    }

    /// Runs the engine for so many instructions.
    fn engine(&mut self, budget: u32, log: &mut [u32]) -> Result<(Ending, EngineAnswer), Problem> {
        let routine = self.loaded.routine();
        let answer = native::engine(
            self.loaded.layout(),
            &routine.words,
            &mut self.engine,
            &mut self.memory,
            budget,
            &self.readings[self.used..],
            log,
        );
        let ending = answer
            .came
            .map_err(|(refusal, place)| routine.refused(refusal, place))?;
        self.done += answer.instructions;
        self.used += answer.readings as usize;
        Ok((ending, answer))
    }

    /// Executes one instruction. Returns none if the probe is silent.
    pub fn step(&mut self) -> Result<Option<Taken>, Problem> {
        let (before, state, memory) = (self.engine, self.state(), self.memory.clone());
        let mut log = [0; PAIR];
        let (ending, answer) = self.engine(1, &mut log)?;
        if ending == Ending::Silent {
            return Ok(None);
        }
        let [event, value] = log;
        let wanted = (answer.readings == 0 && value != before.regs[0]).then_some(before.regs[0]);
        let pair = (answer.pairs == 1).then_some(Recorded {
            event,
            value,
            wanted,
        });
        self.pairs.extend(pair);
        Ok(Some(Taken {
            place: before.at,
            before,
            state,
            pair,
            cells: changed_cells(self.loaded, &memory, &self.memory),
            ending,
        }))
    }

    /// The registers after the next instruction, if it needs no reading and no log.
    pub fn registers_ahead(&self) -> Registers {
        let (mut engine, mut memory) = (self.engine, self.memory.clone());
        let (layout, words) = (self.loaded.layout(), &self.loaded.routine().words);
        // A refusal or a pause leaves the engine as it is.
        let _ = native::engine(layout, words, &mut engine, &mut memory, 1, &[], &mut []);
        engine.regs
    }

    /// Goes back by so many instructions: runs again from the installation, with so
    /// many fewer. The readings stay, so that they are read again.
    pub fn back(&mut self, instructions: u32) -> Result<(), Problem> {
        let budget = self.done.saturating_sub(instructions);
        let mut log = vec![0; PAIR * self.pairs.len()];
        (self.engine, self.done, self.used) = (Engine::FIRST, 0, 0);
        self.memory.clone_from(&self.loaded.first.memory);
        let (_, answer) = self.engine(budget, &mut log)?;
        self.pairs.truncate(answer.pairs as usize);
        Ok(())
    }
}
