//! Layouts.

use super::policies::Ceilings;

/// Where everything lies in the memory of one drum.
///
/// Any numbers may be written here. Each operation tests them, and refuses a
/// layout that is not right with [`Refusal::BadLayout`].
#[derive(Clone, Copy, Debug, PartialEq, Eq)]
pub struct Layout {
    /// U, the number of memory cells.
    pub size: u32,
    /// SL, the first cell of the sandbox.
    pub low: u32,
    /// SH, the last cell of the sandbox.
    pub high: u32,
    /// M, the cell that holds the policy's state.
    pub cell: u32,
    /// P, the first cell of the policy's table.
    pub table: u32,
    /// S, the number of policy states.
    pub states: u32,
    /// B, the address of the first command. It must be a multiple of the number of
    /// commands.
    pub base: u32,
    /// Q, the first of 32 cells with a bit for each landing.
    pub landings: u32,
    /// The ceilings: an order records r0, but at most the ceiling of its event.
    pub ceilings: Ceilings,
}

/// A layout as the C interface takes it: U, SL, SH, M, P, S, B, Q, and the
/// ceilings of orders 0 to 7.
pub type LayoutArray = [u32; 16];

impl Layout {
    /// The layout as the C interface takes it.
    pub fn to_array(&self) -> LayoutArray {
        let [c0, c1, c2, c3, c4, c5, c6, c7] = self.ceilings;
        [
            self.size,
            self.low,
            self.high,
            self.cell,
            self.table,
            self.states,
            self.base,
            self.landings,
            c0,
            c1,
            c2,
            c3,
            c4,
            c5,
            c6,
            c7,
        ]
    }

    /// The layout that an array of the C interface means.
    pub fn from_array(array: LayoutArray) -> Self {
        let [size, low, high, cell, table, states, base, landings, ceilings @ ..] = array;
        Layout {
            size,
            low,
            high,
            cell,
            table,
            states,
            base,
            landings,
            ceilings,
        }
    }
}
