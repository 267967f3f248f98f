//! Request [1]: the list of landings, the instructions that GOX may go to.

use crate::names::{CELL_BITS, LANDING_CELLS, MOST_BUNDLES};
use crate::Layout;

/// '14 (bad landing list: not strictly rising, or an entry above 1,023)'
pub fn are_bad_landings(landings: &[u32]) -> bool {
    landings.windows(2).any(|next| next[0] >= next[1])
        || landings
            .iter()
            .any(|&landing| landing as usize >= MOST_BUNDLES)
}

/// 'Instruction 32k + j in bit j of cell Q + k.'
fn place(instruction: u32) -> (u32, u32) {
    (instruction / CELL_BITS, instruction % CELL_BITS)
}

/// 'Sets exactly those bits and clears all others in the 32 cells.'
pub fn landing_cells(landings: &[u32]) -> [u32; LANDING_CELLS as usize] {
    let mut cells = [0; LANDING_CELLS as usize];
    for &landing in landings {
        let (k, j) = place(landing);
        cells[k as usize] += 1 << j;
    }
    cells
}

/// Whether the bit of an instruction from 0 to 1,023 is set.
pub fn is_landing(layout: &Layout, memory: &[u32], instruction: u32) -> bool {
    let (k, j) = place(instruction);
    memory[(layout.landings + k) as usize] / (1 << j) % 2 == 1
}
