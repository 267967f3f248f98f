//! Two policies at once: request [7].

use crate::common::inputs::{some_ceilings, SomePolicy};
use crate::common::{cases, Rng, Tally};
use crate::install::made_installs;
use hemdroas::names::{EVENTS, MOST_STATES};
use hemdroas::{model, native, Answer, Ceilings, Merged, Side};
use std::collections::HashSet;

const NUMBERS: [u32; 4] = [0, 9, 10, 15];

/// Merges in both orders: 'swapping the inputs gives the same policy'.
fn merge(tally: &mut Tally, one: &Held, other: &Held, table: &[u8]) -> (Merged, Vec<u8>) {
    let (one, other) = (&one.lend(), &other.lend());
    let mut expected = table.to_vec();
    let merged = model::merge(one, other, &mut expected);
    for (one, other) in [(one, other), (other, one)] {
        let mut given = table.to_vec();
        let theirs = native::merge(one, other, &mut given);
        assert_eq!(theirs, merged, "merging {one:?}, {other:?}");
        assert_eq!(given, expected, "table of {one:?}, {other:?}");
        tally.count("merge", merged.answer.number());
    }
    (merged, expected)
}

/// A policy with its table, and its ceilings.
#[derive(Clone, Debug)]
struct Held {
    policy: SomePolicy,
    ceilings: Ceilings,
}

impl Held {
    fn new(rng: &mut Rng, start: u32, table: Vec<u8>) -> Held {
        let states = table.len() as u32 / EVENTS;
        Held {
            policy: SomePolicy {
                states,
                start,
                table,
            },
            ceilings: some_ceilings(rng),
        }
    }

    fn lend(&self) -> Side<'_> {
        Side {
            policy: self.policy.lend(),
            ceilings: self.ceilings,
        }
    }
}

/// A right policy with at most so many states, over few or all events.
fn some_side(rng: &mut Rng, most: usize) -> Held {
    let states = rng.between(1, most);
    let events = rng.pick(&[1, 2, 3, 16]);
    let absent = rng.pick(&[0, 10, 40, 80]);
    let mut table = vec![255; 16 * states];
    for (at, entry) in table.iter_mut().enumerate() {
        if at % 16 < events && !rng.chance(absent) {
            *entry = rng.below(states) as u8;
        }
    }
    let start = rng.below(states) as u32;
    Held::new(rng, start, table)
}

/// Event 0 counted modulo so many states.
fn round(rng: &mut Rng, states: usize) -> Held {
    let mut table = vec![255; 16 * states];
    for state in 0..states {
        table[16 * state] = ((state + 1) % states) as u8;
    }
    Held::new(rng, 0, table)
}

/// Event 0 counted modulo 16 and modulo 1: sixteen pairs. Event 1, allowed only in
/// the last of the sixteen states, leads the other policy to a second state: one
/// pair more.
fn seventeen(rng: &mut Rng) -> (Held, Held) {
    let (mut one, mut other) = (round(rng, 16), round(rng, 1));
    one.policy.table[16 * 15 + 1] = 15;
    other.policy.table[1] = 1;
    other.policy.table.extend([255; 16]);
    other.policy.states = 2;
    (one, other)
}

/// The pair after an event, if both policies allow it.
fn after(one: &Held, other: &Held, (s, t): (u32, u32), event: u32) -> Option<(u32, u32)> {
    let (one, other) = (one.policy.lend(), other.policy.lend());
    one.after(s, event).zip(other.after(t, event))
}

/// How many pairs events lead to.
fn pairs(one: &Held, other: &Held) -> usize {
    let first = (one.policy.start, other.policy.start);
    let mut met = HashSet::from([first]);
    let mut open = vec![first];
    while let Some(pair) = open.pop() {
        for event in 0..EVENTS {
            if let Some(next) = after(one, other, pair, event) {
                if met.insert(next) {
                    open.push(next);
                }
            }
        }
    }
    met.len()
}

const SIXTEEN: &str = "exactly 16 pairs, taken";
const SEVENTEEN: &str = "exactly 17 pairs, refused";

/// Two right policies with tables of all lengths that matter. The policy that is
/// made is installed.
fn with_each_room(tally: &mut Tally, rng: &mut Rng, one: &Held, other: &Held) {
    let (merged, mut table) = merge(tally, one, other, &[rng.byte(); 256]);
    let pairs = pairs(one, other);
    assert_eq!(merged.answer.is_taken(), pairs <= 16);
    tally.note(SIXTEEN, u64::from(pairs == 16));
    tally.note(SEVENTEEN, u64::from(pairs == 17));
    let Answer::Taken(bytes) = merged.answer else {
        assert_eq!(merged.answer.number(), 15);
        let _ = merge(tally, one, other, &[]);
        return;
    };
    let bytes = bytes as usize;
    for room in [0, bytes - 1, bytes, bytes + 1, rng.below(300)] {
        let _ = merge(tally, one, other, &vec![rng.byte(); room]);
    }
    table.truncate(bytes);
    let policy = SomePolicy {
        states: merged.states,
        start: merged.start,
        table,
    };
    allows_what_both_allow(tally, rng, one, other, &policy);
    if rng.chance(10) {
        made_installs(tally, rng, &policy);
    }
}

/// 'The words of events it allows are exactly those that both allow.'
fn allows_what_both_allow(
    tally: &mut Tally,
    rng: &mut Rng,
    one: &Held,
    other: &Held,
    policy: &SomePolicy,
) {
    for _ in 0..4 {
        let mut state = policy.start;
        let mut pair = (one.policy.start, other.policy.start);
        let events = rng.pick(&[1, 2, 3, EVENTS]);
        for _ in 0..rng.between(1, 40) {
            let event = rng.under(events);
            let next = policy.lend().after(state, event);
            let both = after(one, other, pair, event);
            assert_eq!(next.is_some(), both.is_some(), "{one:?}, {other:?}");
            let (Some(next), Some(both)) = (next, both) else {
                break;
            };
            (state, pair) = (next, both);
        }
        tally.add("event words followed", 1);
    }
}

type Damage = fn(&mut Rng, &mut SomePolicy);

/// Each cause of bad policy (10), alone.
const CAUSES: [(&str, Damage); 7] = [
    ("10 for no state", |rng, policy| {
        (policy.states, policy.start) = (0, 0);
        if rng.chance(50) {
            policy.table.clear();
        }
    }),
    ("10 for more than 16 states", |rng, policy| {
        policy.states = rng.pick(&[17, 18, 255, 65_536, 1 << 28, u32::MAX]);
        let rows = policy.states.min(20);
        policy.table.resize(16 * rows as usize, 255);
    }),
    ("10 for a table too short", |rng, policy| {
        let fewer = rng.below(policy.table.len());
        policy.table.truncate(fewer);
    }),
    ("10 for a table too long", |rng, policy| {
        let more = rng.pick(&[1, 15, 16, 17, 100]);
        policy.table.resize(policy.table.len() + more, 255);
    }),
    ("10 for a start not below the state count", |rng, policy| {
        policy.start = rng.pick(&[policy.states, policy.states + 1, 255, u32::MAX]);
    }),
    ("10 for a byte at the state count", |rng, policy| {
        let at = rng.below(policy.table.len());
        policy.table[at] = policy.states as u8;
    }),
    ("10 for a byte of a state not reached", |rng, policy| {
        // One more state, to which no arrow leads and which is not the start.
        policy.states += 1;
        policy.table.extend([255; 16]);
        let last = policy.table.len() - 1 - rng.below(16);
        policy.table[last] = 254;
    }),
];

#[test]
fn merging() {
    let (mut tally, mut rng) = Tally::new("merging", 16);
    for _ in 0..cases(6_000) {
        let most = rng.pick(&[2, 4, 8, MOST_STATES as usize]);
        let (one, other) = (some_side(&mut rng, most), some_side(&mut rng, most));
        with_each_room(&mut tally, &mut rng, &one, &other);
    }
    for states in 1..=MOST_STATES as usize {
        for others in 1..=MOST_STATES as usize {
            let (one, other) = (round(&mut rng, states), round(&mut rng, others));
            with_each_room(&mut tally, &mut rng, &one, &other);
        }
    }
    for _ in 0..cases(100) {
        let (one, other) = seventeen(&mut rng);
        with_each_room(&mut tally, &mut rng, &one, &other);
        let (one, other) = (round(&mut rng, 16), round(&mut rng, 8));
        with_each_room(&mut tally, &mut rng, &one, &other);
    }
    for (cause, damage) in CAUSES {
        for _ in 0..cases(200) {
            let mut bad = some_side(&mut rng, 8);
            damage(&mut rng, &mut bad.policy);
            let good = some_side(&mut rng, 16);
            let room = rng.pick(&[0, 256]);
            let (merged, _) = merge(&mut tally, &bad, &good, &vec![7; room]);
            assert_eq!(merged.answer.number(), 10, "{cause}: {bad:?}");
            tally.note(cause, 1);
        }
    }
    tally.conclude(&[("merge", &NUMBERS)]);
}

#[test]
fn the_order_of_a_merge_s_refusals() {
    let rng = &mut Rng::new(2);
    let number = |one: &Held, other: &Held| {
        let merged = native::merge(&one.lend(), &other.lend(), &mut []);
        merged.answer.number()
    };
    let (five, four) = (round(rng, 5), round(rng, 4));
    let mut bad = four.clone();
    bad.policy.table[63] = 4;
    assert_eq!(number(&five, &bad), 10);
    assert_eq!(number(&bad, &five), 10);
    assert_eq!(number(&five, &four), 15);
    assert_eq!(number(&four, &four), 9);
}
