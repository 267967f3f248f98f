//! Right and wrong layouts, by checking a list that is right under any of them.

use crate::check::check;
use crate::common::inputs::{altered_layout, right_layout};
use crate::common::{cases, Rng, Tally};
use hemdroas::names::UNLIMITED;
use hemdroas::Layout;

const LIST: [u64; 4] = [1, 0, 0, 0];

/// Small layouts with one state, with table and landings at either end or side by
/// side, and all else at every place.
fn small_layouts(tally: &mut Tally) {
    let places = [
        (0, 16),
        (32, 0),
        (0, 20),
        (36, 0),
        (1, 17),
        (33, 1),
        (16, 20),
    ];
    for size in 49..=52 {
        for (table, landings) in places {
            for length in 0..=4 {
                for low in 0..=52 {
                    for cell in 0..=52 {
                        let high = u32::wrapping_add(low, length).wrapping_sub(1);
                        let (states, base) = (1, 0);
                        let layout = Layout {
                            size,
                            low,
                            high,
                            cell,
                            table,
                            states,
                            base,
                            landings,
                            ceilings: UNLIMITED,
                        };
                        let _ = check(tally, &layout, &LIST);
                    }
                }
            }
        }
    }
}

/// A right layout in which table, landings, state cell and sandbox in turn are at
/// every place, and near the end of 32 bits.
fn moved_regions(tally: &mut Tally) {
    let right = Layout {
        size: 60,
        low: 56,
        high: 57,
        cell: 52,
        table: 2,
        states: 1,
        base: 0,
        landings: 20,
        ceilings: UNLIMITED,
    };
    for place in (0..64).chain(u32::MAX - 64..=u32::MAX) {
        for size in 50..=60 {
            let right = Layout { size, ..right };
            for layout in [
                Layout {
                    landings: place,
                    ..right
                },
                Layout {
                    table: place,
                    ..right
                },
                Layout {
                    cell: place,
                    ..right
                },
                Layout {
                    low: place,
                    high: place,
                    ..right
                },
            ] {
                let _ = check(tally, &layout, &LIST);
            }
        }
    }
}

fn altered_layouts(tally: &mut Tally, rng: &mut Rng) {
    for _ in 0..cases(15_000) {
        let right = right_layout(rng, 1);
        let layout = altered_layout(rng, &right);
        let _ = check(tally, &layout, &LIST);
    }
}

#[test]
fn layouts() {
    let (mut tally, mut rng) = Tally::new("layouts", 5);
    small_layouts(&mut tally);
    moved_regions(&mut tally);
    altered_layouts(&mut tally, &mut rng);
    tally.conclude(&[("check", &[0, 7, 13])]);
}
