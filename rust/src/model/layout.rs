//! Tests whether a layout is right, and computes the mask.

use std::ops::Range;

use crate::names::{EVENTS, LANDING_CELLS, MOST_CELLS, MOST_STATES};
use crate::Layout;

fn is_power_of_two(number: u64) -> bool {
    (0..64).any(|power| number == 1 << power)
}

/// The cells of each region: state cell, landing cells, table cells and
/// sandbox. 'Sums over a layout don't wrap.'
fn regions(layout: &Layout) -> [Range<u64>; 4] {
    let from = |first: u32, length: u64| u64::from(first)..u64::from(first) + length;
    [
        from(layout.cell, 1),
        from(layout.landings, u64::from(LANDING_CELLS)),
        from(layout.table, u64::from(EVENTS) * u64::from(layout.states)),
        u64::from(layout.low)..u64::from(layout.high) + 1,
    ]
}

fn share_an_address(x: &Range<u64>, y: &Range<u64>) -> bool {
    x.clone().any(|address| y.contains(&address))
}

/// 'A layout is right when all hold: U and S are in range; SL ≤ SH < U;
/// SH − SL + 1 is a power of two, and SL is a multiple of it; M < U;
/// P + 16 × S ≤ U; sandbox, state cell and table cells share no address.'
/// Request [1]: 'only if' the landing cells 'lie below U and meet no other
/// region'.
pub fn layout_right(layout: &Layout) -> bool {
    let Layout {
        size,
        low,
        high,
        states,
        ..
    } = *layout;
    if !(1..=MOST_CELLS).contains(&size) || !(1..=MOST_STATES).contains(&states) {
        return false;
    }
    if !(low <= high && high < size) {
        return false;
    }
    let sandbox = u64::from(high - low) + 1;
    if !is_power_of_two(sandbox) || u64::from(low) % sandbox != 0 {
        return false;
    }
    let regions = regions(layout);
    if regions.iter().any(|region| region.end > u64::from(size)) {
        return false;
    }
    let mut pairs = (0..4).flat_map(|y| (0..y).map(move |x| (x, y)));
    !pairs.any(|(x, y)| share_an_address(&regions[x], &regions[y]))
}

/// '7: not right, or a lent memory's length not U.'
pub fn lent_right(layout: &Layout, memory: &[u32]) -> bool {
    layout_right(layout) && memory.len() == layout.size as usize
}

/// The table's cell for an event in a state: 'P + 16 × cell M + v', 'summed
/// without wrap'.
pub fn entry_address(layout: &Layout, state: u32, event: u32) -> u64 {
    u64::from(layout.table) + u64::from(EVENTS) * u64::from(state) + u64::from(event)
}

/// What an event records for r0. Request [2]: 'an order now records the smaller of
/// r0 and its ceiling', 'readings are untouched'.
pub fn recorded(layout: &Layout, event: u32, r0: u32) -> u32 {
    match layout.ceilings.get(event as usize) {
        Some(&ceiling) => r0.min(ceiling),
        None => r0,
    }
}

/// 'The mask of an address e is (e AND SH) OR SL.'
pub fn mask(layout: &Layout, address: u32) -> u32 {
    (address & layout.high) | layout.low
}
