//! The numbers of the rules, each named once.

/// U is from 1 to this.
pub const MOST_CELLS: u32 = 4096;
/// S is from 1 to this.
pub const MOST_STATES: u32 = 16;
/// A table's row has an entry for each of the events 0 to 15.
pub const EVENTS: u32 = 16;
/// Events below this number are orders; the others are readings.
pub const ORDERS: u32 = 8;
/// Ceilings that limit no order.
pub const UNLIMITED: [u32; ORDERS as usize] = [u32::MAX; ORDERS as usize];
/// In a table, this byte means that the event is not allowed.
pub const NO_ARROW: u32 = 255;
/// The most instructions of a routine.
pub const MOST_INSTRUCTIONS: usize = 1023;
/// The most bundles of a list. Every landing is below this.
pub const MOST_BUNDLES: usize = 1024;
/// The commands of a bundle.
pub const BUNDLE_LENGTH: usize = 4;
/// The most commands of a list.
pub const MOST_COMMANDS: usize = BUNDLE_LENGTH * MOST_BUNDLES;
/// The cells that hold a bit for each landing.
pub const LANDING_CELLS: u32 = 32;
/// The bits of a cell.
pub const CELL_BITS: u32 = 32;
/// A guest's fields can name the registers below this number.
pub const GUEST_REGISTERS: u32 = 15;
/// The hidden register: no guest field can name it.
pub const HIDDEN: u32 = 15;
/// How many registers a machine has.
pub const REGISTERS: usize = HIDDEN as usize + 1;
/// The largest condition.
pub const TOP_CONDITION: u32 = 3;
/// The largest shift.
pub const TOP_SHIFT: u32 = 31;
/// The largest event.
pub const TOP_EVENT: u32 = EVENTS - 1;
