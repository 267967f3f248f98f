//! Ceilings on orders: request [2].

use crate::common::inputs::{any_record, right_layout};
use crate::common::{cases, Tally};
use crate::run::{run, Lent};
use hemdroas::model::Command;
use hemdroas::names::{EVENTS, ORDERS};
use hemdroas::{Ending, Record};
use std::cmp::Ordering;

/// How r0 compares with the order's ceiling.
pub fn beside_its_ceiling(r0: u32, ceiling: u32) -> &'static str {
    match r0.cmp(&ceiling) {
        Ordering::Less => "orders with r0 below the ceiling",
        Ordering::Equal => "orders with r0 at the ceiling",
        Ordering::Greater => "orders with r0 above the ceiling",
    }
}

/// Numbers near a ceiling, and far from it.
pub fn about(ceiling: u32) -> [u32; 5] {
    let (below, above) = (ceiling.wrapping_sub(1), ceiling.wrapping_add(1));
    [below, ceiling, above, 0, u32::MAX]
}

/// Each event with r0 near its ceiling. An order records the smaller of the two,
/// and r0 does not change. A reading event records the reading, whatever the
/// ceilings.
#[test]
fn orders_about_their_ceilings() {
    let (mut tally, mut rng) = Tally::new("ceilings", 24);
    for _ in 0..cases(150) {
        let layout = right_layout(&mut rng, 1);
        for v in 0..EVENTS {
            let ceiling = layout.ceilings[(v % ORDERS) as usize];
            for r0 in about(ceiling) {
                let mut record = any_record(&mut rng);
                record.0[0] = r0;
                record.0[Record::PC] = layout.base;
                record.0[Record::STATUS] = 0;
                let mut lent = Lent {
                    record,
                    memory: rng.cells(layout.size as usize),
                    log: vec![7; 2],
                };
                let list = [Command::Event { v }.word()];
                let reading = rng.word();
                let answer = run(&mut tally, &layout, &list, &mut lent, 1, &[reading]);
                assert_eq!((answer.ending, answer.pairs), (Ending::Spent, 1));
                let (value, left) = if v < ORDERS {
                    tally.note(beside_its_ceiling(r0, ceiling), 1);
                    (r0.min(ceiling), r0)
                } else {
                    tally.note(
                        "readings above an order's ceiling",
                        u64::from(reading > ceiling),
                    );
                    (reading, reading)
                };
                assert_eq!(lent.log, [v, value]);
                assert_eq!(lent.record.0[0], left, "r0");
            }
        }
    }
    tally.conclude(&[]);
}
