//! A machine that is taken from bundle to bundle.

use hemdroas::names::BUNDLE_LENGTH;
use hemdroas::{Ending, Layout, Machine, RunAnswer};

/// A way to run a machine.
pub type Run = fn(&Layout, &[u64], &mut Machine, &mut [u32], u32, &[u32], &mut [u32]) -> RunAnswer;

/// A machine with its list and memory, what it recorded and how many readings
/// it took.
pub struct World<'a> {
    pub run: Run,
    pub layout: &'a Layout,
    pub commands: &'a [u64],
    pub machine: Machine,
    pub memory: Vec<u32>,
    pub records: Vec<(u32, u32)>,
    pub used: usize,
}

impl<'a> World<'a> {
    /// A machine that was installed, before its first run.
    pub fn new(
        run: Run,
        layout: &'a Layout,
        commands: &'a [u64],
        machine: Machine,
        memory: Vec<u32>,
    ) -> Self {
        World {
            run,
            layout,
            commands,
            machine,
            memory,
            records: Vec::new(),
            used: 0,
        }
    }

    /// On to the next first command of a bundle, to a pause or to the end. Each
    /// step is lent those of the readings that are left, and a log of so many
    /// cells.
    pub fn bundle(&mut self, readings: &[u32], log: usize) -> Ending {
        loop {
            let mut log = vec![0; log];
            let answer = (self.run)(
                self.layout,
                self.commands,
                &mut self.machine,
                &mut self.memory,
                1,
                &readings[self.used..],
                &mut log,
            );
            self.used += answer.readings as usize;
            if answer.pairs == 1 {
                self.records.push((log[0], log[1]));
            }
            let at = (self.machine.pc - self.layout.base) as usize;
            if answer.ending != Ending::Spent || at.is_multiple_of(BUNDLE_LENGTH) {
                return answer.ending;
            }
        }
    }
}
