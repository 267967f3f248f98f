//! Engines, which run a routine's words without rewriting them.

use super::answers::{Ending, Refusal};
use super::machine::{numbers, parts, Status};
use crate::names::GUEST_REGISTERS;

const REGISTERS: usize = GUEST_REGISTERS as usize;

/// An engine between two runs.
#[derive(Clone, Copy, Debug, PartialEq, Eq)]
pub struct Engine {
    /// The guest's registers.
    pub regs: [u32; REGISTERS],
    /// The index of the next instruction.
    pub at: u32,
    /// Whether it runs, and how it ended if not.
    pub status: Status,
}

impl Engine {
    /// The engine before its first run.
    pub const FIRST: Engine = Engine {
        regs: [0; REGISTERS],
        at: 0,
        status: Status::Running,
    };

    /// The engine as the C interface stores it.
    pub fn to_record(&self) -> EngineRecord {
        EngineRecord(numbers(&self.regs, self.at, self.status))
    }
}

/// An engine as the C interface stores it: registers, index of the next
/// instruction, status. A host may have written any number into any of them.
#[derive(Clone, Copy, Debug, PartialEq, Eq)]
pub struct EngineRecord(pub [u32; EngineRecord::LENGTH]);

impl EngineRecord {
    /// Where the index is: after the registers.
    pub const AT: usize = REGISTERS;
    /// Where the status is.
    pub const STATUS: usize = REGISTERS + 1;
    /// How many numbers a record has.
    pub const LENGTH: usize = REGISTERS + 2;

    /// The engine that the record means.
    pub fn to_engine(&self) -> Engine {
        let (regs, at, status) = parts(&self.0);
        Engine { regs, at, status }
    }

    /// Runs the engine that the record means, and stores it after the run. A record
    /// that is not running stays as it was, also with a status above 4.
    pub fn run(&mut self, run: impl FnOnce(&mut Engine) -> EngineAnswer) -> EngineAnswer {
        let mut engine = self.to_engine();
        let is_running = engine.status == Status::Running;
        let answer = run(&mut engine);
        if is_running {
            *self = engine.to_record();
        }
        answer
    }
}

/// What a run of the engine answers. A refused run has three zeros.
#[derive(Clone, Copy, Debug, PartialEq, Eq)]
#[must_use]
pub struct EngineAnswer {
    /// How the run ended, or why it was refused, with the place.
    pub came: Result<Ending, (Refusal, u32)>,
    /// Instructions executed, a fault or a stop included.
    pub instructions: u32,
    /// Events recorded; each takes two log cells.
    pub pairs: u32,
    /// Readings used.
    pub readings: u32,
}

impl EngineAnswer {
    /// The number of the ending or the refusal.
    pub fn number(&self) -> u32 {
        match self.came {
            Ok(ending) => ending.number(),
            Err((refusal, _)) => refusal.number(),
        }
    }
}
