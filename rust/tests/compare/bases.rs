//! Code bases from 0 to the last possible one: request [9].

use crate::check::check;
use crate::common::inputs::{
    any_record, bytes_of, landings, output, policy, right_layout, routine, shaped_list, top_base,
};
use crate::common::{cases, Rng, Tally};
use crate::install::install;
use crate::load::{self, load};
use crate::rewrite::rewrite;
use crate::run::{self, run, run_on, some_log};
use hemdroas::{Answer, Ending, Record};

/// Rewrites, checks, loads and runs a routine or list of so many bundles at a base.
fn at_base(tally: &mut Tally, rng: &mut Rng, bundles: usize, base: u32) {
    let size = 4 * bundles as u32;
    let fits = base.is_multiple_of(size);
    let refusal = if fits { 0 } else { 13 };
    let mut layout = right_layout(rng, bundles);
    layout.base = base;

    let n = rng.between(bundles / 2, bundles - 1);
    let words = routine(rng, &layout, n);
    let commands = output(rng, size as usize);
    let (answer, mut list) = rewrite(tally, &layout, &words, &commands);
    assert_eq!(answer.number(), refusal, "rewriting at {base}");
    if !fits || rng.chance(50) {
        list = shaped_list(rng, &layout, bundles);
    }
    assert_eq!(check(tally, &layout, &list).number(), refusal, "at {base}");

    let policy = policy(rng, layout.states, 90);
    let landings = landings(rng);
    let mut memory = rng.cells(layout.size as usize);
    let lent = load::Lent {
        commands,
        memory: memory.clone(),
        record: any_record(rng),
    };
    let bytes = bytes_of(&words);
    let answer = load(tally, &layout, &policy.lend(), &landings, &bytes, &lent);
    assert_eq!(answer.number(), refusal, "loading at {base}");

    let record = any_record(rng);
    let lend = policy.lend();
    let (answer, record) = install(tally, &layout, &lend, &landings, &mut memory, record);
    assert_eq!(answer, Answer::Taken(0));
    let mut lent = run::Lent {
        record,
        memory,
        log: some_log(rng),
    };
    for _ in 0..3 {
        let answer = run_on(tally, rng, &layout, &list, &mut lent);
        assert!(!fits || answer.ending != Ending::Fault);
    }
    // From the last command; from the address after it, which is 0 if the list ends
    // at the last address; and from 0.
    let last = base.wrapping_add(size - 1);
    for pc in [last, last.wrapping_add(1), 0] {
        lent.record.0[Record::PC] = pc;
        lent.record.0[Record::STATUS] = 0;
        let _ = run(tally, &layout, &list, &mut lent, 3, &[]);
    }
}

/// For each number of bundles: the first bases, those near 65,536, the last,
/// 2^32 − 4N, and odd ones.
#[test]
fn bases() {
    let (mut tally, mut rng) = Tally::new("bases", 12);
    for bundles in (0..=10).map(|power| 1 << power) {
        let size = 4 * bundles as u32;
        let top = top_base(bundles);
        let bases = [0, 65_532, 65_536, top, top / 2, u32::MAX - 3, u32::MAX, 1];
        let odd = [top - 4, top + 1, top + size / 2];
        for _ in 0..cases(10) {
            for &base in bases.iter().chain(&odd) {
                at_base(&mut tally, &mut rng, bundles, base);
            }
            at_base(&mut tally, &mut rng, bundles, top);
        }
        tally.note("cases at the last base", 2 * cases(10));
    }
    tally.conclude(&[("rewrite", &[0, 13]), ("check", &[0, 13])]);
}
