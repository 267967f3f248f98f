//! What a run records, and the readings that it uses. Machine and engine share it.

use super::layout::recorded;
use crate::names::ORDERS;
use crate::{Ending, Layout, Status};

/// 'A machine already ended, stopped or faulted answers that.' Request [1]: no
/// landing (26) is 'lasting' too.
pub fn lasting(status: Status) -> Option<Ending> {
    match status {
        Status::Running => None,
        Status::Ended => Some(Ending::Done),
        Status::Stopped => Some(Ending::NoArrow),
        Status::Faulted => Some(Ending::Fault),
        Status::Strayed => Some(Ending::NoLanding),
    }
}

/// A run's readings and log, and how many readings and pairs it has used so far:
/// 'a run writes log pairs, two cells each, from cell 0, takes readings from cell
/// 0'.
pub struct Records<'a> {
    readings: &'a [u32],
    log: &'a mut [u32],
    /// The pairs written.
    pub pairs: usize,
    /// The readings used.
    pub used: usize,
}

impl<'a> Records<'a> {
    /// At the start of a run.
    pub fn new(readings: &'a [u32], log: &'a mut [u32]) -> Self {
        Records {
            readings,
            log,
            pairs: 0,
            used: 0,
        }
    }

    /// 'With less than two free log cells, answers 23, a reading with none left
    /// 24.' Request [4]: 'The silent probe is now reported first.'
    pub fn pause(&self, event: u32) -> Option<Ending> {
        if event >= ORDERS && self.used == self.readings.len() {
            return Some(Ending::Silent);
        }
        if self.log.len() - 2 * self.pairs < 2 {
            return Some(Ending::LogFull);
        }
        None
    }

    /// 'Events 0 to 7 are orders and record the pair (event, r0). Events 8 to
    /// 15 are readings: r0 becomes the next reading, and (event, reading) is
    /// recorded.'
    pub fn record(&mut self, layout: &Layout, event: u32, r0: &mut u32) {
        if event >= ORDERS {
            *r0 = self.readings[self.used];
            self.used += 1;
        }
        self.log[2 * self.pairs] = event;
        self.log[2 * self.pairs + 1] = recorded(layout, event, *r0);
        self.pairs += 1;
    }
}
