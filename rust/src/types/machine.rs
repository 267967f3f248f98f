//! Machines, which run commands.

use super::answers::RunAnswer;
use crate::names::REGISTERS;

/// Whether a machine or an engine runs, and how it ended if not.
#[derive(Clone, Copy, Debug, PartialEq, Eq)]
pub enum Status {
    /// 0: it can run.
    Running,
    /// 1: the routine finished.
    Ended,
    /// 2: the policy stopped it.
    Stopped,
    /// 3: a bad address or a bad command.
    Faulted,
    /// 4: it stopped at a jump through a register to no landing.
    Strayed,
}

impl Status {
    /// Every status, in the order of the numbers from 0.
    pub const ALL: [Status; 5] = [
        Status::Running,
        Status::Ended,
        Status::Stopped,
        Status::Faulted,
        Status::Strayed,
    ];

    /// The status's number in a record.
    pub fn number(self) -> u32 {
        self as u32
    }

    /// The status with this number; a number above 4 counts as faulted.
    pub fn from_number(number: u32) -> Self {
        match Status::ALL.get(number as usize) {
            Some(&status) => status,
            None => Status::Faulted,
        }
    }
}

/// A record's numbers: registers, pc or index, status.
pub(super) fn numbers<const REGISTERS: usize, const LENGTH: usize>(
    regs: &[u32; REGISTERS],
    place: u32,
    status: Status,
) -> [u32; LENGTH] {
    let mut numbers = [0; LENGTH];
    numbers[..REGISTERS].copy_from_slice(regs);
    numbers[REGISTERS..].copy_from_slice(&[place, status.number()]);
    numbers
}

/// The registers, pc or index, and status that a record's numbers mean.
pub(super) fn parts<const REGISTERS: usize, const LENGTH: usize>(
    numbers: &[u32; LENGTH],
) -> ([u32; REGISTERS], u32, Status) {
    let regs = std::array::from_fn(|register| numbers[register]);
    let status = Status::from_number(numbers[REGISTERS + 1]);
    (regs, numbers[REGISTERS], status)
}

/// A machine between two runs.
#[derive(Clone, Copy, Debug, PartialEq, Eq)]
pub struct Machine {
    /// The guest's registers, and last the hidden one.
    pub regs: [u32; REGISTERS],
    /// The address of the next command.
    pub pc: u32,
    /// Whether it runs, and how it ended if not.
    pub status: Status,
}

impl Machine {
    /// The machine that installing yields: at the first command, with registers 0.
    pub fn new(base: u32) -> Self {
        Machine {
            regs: [0; REGISTERS],
            pc: base,
            status: Status::Running,
        }
    }

    /// The machine that installing yields after a refusal: zeros, and faulted.
    pub const REFUSED: Machine = Machine {
        regs: [0; REGISTERS],
        pc: 0,
        status: Status::Faulted,
    };

    /// The machine as the C interface stores it.
    pub fn to_record(&self) -> Record {
        Record(numbers(&self.regs, self.pc, self.status))
    }
}

/// A machine as the C interface stores it: registers, pc, status. A host may have
/// written any number into any of them.
#[derive(Clone, Copy, Debug, PartialEq, Eq)]
pub struct Record(pub [u32; Record::LENGTH]);

impl Record {
    /// Where the pc is: after the registers.
    pub const PC: usize = REGISTERS;
    /// Where the status is.
    pub const STATUS: usize = REGISTERS + 1;
    /// How many numbers a record has.
    pub const LENGTH: usize = REGISTERS + 2;

    /// The machine that the record means.
    pub fn to_machine(&self) -> Machine {
        let (regs, pc, status) = parts(&self.0);
        Machine { regs, pc, status }
    }

    /// Runs the machine that the record means, and stores it after the run. A record
    /// that is not running stays as it was, also with a status above 4.
    pub fn run(&mut self, run: impl FnOnce(&mut Machine) -> RunAnswer) -> RunAnswer {
        let mut machine = self.to_machine();
        let is_running = machine.status == Status::Running;
        let answer = run(&mut machine);
        if is_running {
            *self = machine.to_record();
        }
        answer
    }
}
