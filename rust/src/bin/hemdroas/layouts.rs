//! Explains why a layout is not right. The library decides whether it is.

use hemdroas::names::{EVENTS, LANDING_CELLS, MOST_CELLS, MOST_STATES};
use hemdroas::Layout;

/// A condition that fails: the letter that it is about, and what is wrong.
pub struct Wrong {
    /// The letter's place among those of a drum's file.
    pub letter: usize,
    pub message: String,
}

/// The places of letters in a drum's file.
const U: usize = 0;
const SL: usize = 1;
const SH: usize = 2;
const M: usize = 3;
const P: usize = 4;
const S: usize = 5;
const Q: usize = 7;

/// A region: its name, its letter, its first cell and its length.
type Region = (&'static str, usize, u64, u64);

/// The pairs of regions that share a cell.
fn shared(regions: &[Region]) -> impl Iterator<Item = Wrong> + '_ {
    let meet = |a: &Region, b: &Region| a.2 < b.2 + b.3 && b.2 < a.2 + a.3;
    let pairs = (0..regions.len()).flat_map(|i| (0..i).map(move |j| (j, i)));
    let met = pairs.map(|(j, i)| (&regions[j], &regions[i]));
    let met = met.filter(move |(one, other)| meet(one, other));
    met.map(|(one, other)| {
        let first = one.2.max(other.2);
        Wrong {
            letter: other.1,
            message: format!("{} and {} share cell {first}", one.0, other.0),
        }
    })
}

/// A condition: whether it holds, its letter, and what is wrong if it does not.
type Condition = (bool, usize, String);

/// The conditions on sizes and on the sandbox.
fn sizes(layout: &Layout) -> Vec<Condition> {
    let (size, states) = (layout.size, layout.states);
    let (low, high) = (u64::from(layout.low), u64::from(layout.high));
    let room = (high + 1).saturating_sub(low);
    let between = |letter: &str, value: u32, most: u32| {
        format!("{letter} is {value}, and not from 1 to {most}")
    };
    vec![
        (
            (1..=MOST_CELLS).contains(&size),
            U,
            between("U", size, MOST_CELLS),
        ),
        (
            (1..=MOST_STATES).contains(&states),
            S,
            between("S", states, MOST_STATES),
        ),
        (
            low <= high,
            SH,
            format!("SH is {high}, below SL, which is {low}"),
        ),
        (
            high < size.into(),
            SH,
            format!("SH is {high}, and not below U, which is {size}"),
        ),
        (
            low > high || room.is_power_of_two(),
            SH,
            format!("the sandbox has {room} cells, SH - SL + 1, which is no power of two"),
        ),
        (
            !room.is_power_of_two() || low.is_multiple_of(room),
            SL,
            format!("SL is {low}, no multiple of the sandbox's {room} cells"),
        ),
    ]
}

/// The regions of a layout.
fn regions(layout: &Layout) -> [Region; 4] {
    let at = |cell: u32| u64::from(cell);
    let room = (at(layout.high) + 1).saturating_sub(at(layout.low));
    let rows = at(EVENTS) * at(layout.states);
    [
        ("the sandbox", SL, at(layout.low), room),
        ("the state cell", M, at(layout.cell), 1),
        ("the table", P, at(layout.table), rows),
        (
            "the landing cells",
            Q,
            at(layout.landings),
            at(LANDING_CELLS),
        ),
    ]
}

/// Why a layout is not right.
pub fn wrong(layout: &Layout) -> Vec<Wrong> {
    let regions = regions(layout);
    let size = u64::from(layout.size);
    // The sandbox has a condition of its own.
    let ends = regions[1..].iter().map(|&(name, letter, first, length)| {
        let last = (first + length).saturating_sub(1);
        let message = format!("{name} would end at cell {last}, and U is {size}");
        (first + length <= size, letter, message)
    });
    let failed = sizes(layout)
        .into_iter()
        .chain(ends)
        .filter(|(holds, ..)| !holds);
    let failed = failed.map(|(_, letter, message)| Wrong { letter, message });
    failed.chain(shared(&regions)).collect()
}
