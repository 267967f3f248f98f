//! Policies from drawings with several arrows: request [8].

use crate::common::inputs::SomePolicy;
use crate::common::{cases, Rng, Tally};
use crate::install::made_installs;
use hemdroas::names::{EVENTS, MOST_STATES};
use hemdroas::{model, native, Answer, Determinised, Drawing};
use std::collections::HashSet;

const NUMBERS: [u32; 4] = [0, 9, 15, 16];

fn determinise(tally: &mut Tally, drawn: &Drawn, table: &[u8]) -> (Determinised, Vec<u8>) {
    let drawing = drawn.lend();
    let (mut expected, mut given) = (table.to_vec(), table.to_vec());
    let made = model::determinise(&drawing, &mut expected);
    let theirs = native::determinise(&drawing, &mut given);
    assert_eq!(theirs, made, "a policy of {drawing:?}");
    assert_eq!(given, expected, "table of {drawing:?}");
    tally.count("determinise", made.answer.number());
    (made, expected)
}

/// A drawing with its arrows.
struct Drawn {
    states: u32,
    starts: u32,
    arrows: Vec<u16>,
}

impl Drawn {
    fn lend(&self) -> Drawing<'_> {
        Drawing {
            states: self.states,
            starts: self.starts,
            arrows: &self.arrows,
        }
    }

    /// The states that an event leads to from a set of states.
    fn after(&self, map: u16, event: usize) -> u16 {
        (0..16)
            .filter(|state| map >> state & 1 == 1)
            .fold(0, |all, state| all | self.arrows[16 * state + event])
    }

    /// How many sets events lead to, if there are at most 17.
    fn sets(&self) -> Option<usize> {
        let mut met = HashSet::from([self.starts as u16]);
        let mut open = vec![self.starts as u16];
        while let Some(set) = open.pop() {
            for event in 0..16 {
                let next = self.after(set, event);
                if next != 0 && met.insert(next) {
                    open.push(next);
                }
            }
            if met.len() > 17 {
                return None;
            }
        }
        Some(met.len())
    }
}

/// A right drawing with few or many arrows, over few or all events.
fn some_drawing(rng: &mut Rng) -> Drawn {
    let states = rng.between(1, MOST_STATES as usize);
    let events = rng.pick(&[1, 2, 2, 3, EVENTS as usize]);
    let share = rng.pick(&[2, 5, 10, 20, 40, 80]);
    let mut arrows = vec![0_u16; 16 * states];
    for state in 0..states {
        for _ in 0..events {
            let map = &mut arrows[16 * state + rng.below(events)];
            for next in 0..states {
                *map |= u16::from(rng.chance(share)) << next;
            }
            if rng.chance(60) {
                *map |= 1 << rng.below(states);
            }
        }
    }
    let mut starts = 1 << rng.below(states);
    if rng.chance(40) {
        starts |= rng.word() & ((1 << states) - 1);
    }
    Drawn {
        states: states as u32,
        starts,
        arrows,
    }
}

/// A chain: an event leads from each state to the next, in random order. With
/// `more`, another event leads from the last state to the last two, which gives one
/// more set.
fn chain(rng: &mut Rng, states: usize, more: bool) -> Drawn {
    let mut order: Vec<usize> = (0..states).collect();
    for at in 1..states {
        order.swap(at, rng.below(at + 1));
    }
    let (event, other) = (rng.below(16), rng.between(1, 15));
    let mut arrows = vec![0; 16 * states];
    for next in order.windows(2) {
        arrows[16 * next[0] + event] = 1 << next[1];
    }
    if let (true, [.., before, last]) = (more, &order[..]) {
        arrows[16 * last + (event + other) % 16] = 1 << before | 1 << last;
    }
    Drawn {
        states: states as u32,
        starts: 1 << order[0],
        arrows,
    }
}

/// 'The k-th event from the end is event 1': k + 1 states, 2^k sets.
fn from_the_end(k: usize) -> Drawn {
    let mut arrows = vec![0; 16 * (k + 1)];
    arrows[0] = 1;
    arrows[1] = 3;
    for state in 1..k {
        arrows[16 * state] = 2 << state;
        arrows[16 * state + 1] = 2 << state;
    }
    Drawn {
        states: k as u32 + 1,
        starts: 1,
        arrows,
    }
}

const SIXTEEN: &str = "exactly 16 sets, taken";
const SEVENTEEN: &str = "exactly 17 sets, refused";

/// A right drawing with tables of all lengths that matter. The policy that is made
/// is installed.
fn with_each_room(tally: &mut Tally, rng: &mut Rng, drawn: &Drawn) {
    let (made, mut table) = determinise(tally, drawn, &[rng.byte(); 256]);
    let sets = drawn.sets();
    assert_eq!(made.answer.is_taken(), sets.is_some_and(|sets| sets <= 16));
    tally.note(SIXTEEN, u64::from(sets == Some(16)));
    tally.note(SEVENTEEN, u64::from(sets == Some(17)));
    let Answer::Taken(bytes) = made.answer else {
        assert_eq!(made.answer.number(), 15);
        let _ = determinise(tally, drawn, &[]);
        return;
    };
    let bytes = bytes as usize;
    for room in [0, bytes - 1, bytes, bytes + 1, rng.below(300)] {
        let _ = determinise(tally, drawn, &vec![rng.byte(); room]);
    }
    table.truncate(bytes);
    let policy = SomePolicy {
        states: made.states,
        start: made.start,
        table,
    };
    allows_what_is_followed(tally, rng, drawn, &policy);
    if rng.chance(10) {
        made_installs(tally, rng, &policy);
    }
}

/// 'An event word is allowed afterwards exactly if some run through the drawing
/// follows it.'
fn allows_what_is_followed(tally: &mut Tally, rng: &mut Rng, drawn: &Drawn, policy: &SomePolicy) {
    for _ in 0..4 {
        let mut state = policy.start;
        let mut runs = drawn.starts as u16;
        for _ in 0..rng.between(1, 40) {
            let events = rng.pick(&[2, 3, EVENTS]);
            let event = rng.under(events);
            runs = drawn.after(runs, event as usize);
            let next = policy.lend().after(state, event);
            assert_eq!(next.is_some(), runs != 0, "{:?}", drawn.lend());
            let Some(next) = next else {
                break;
            };
            state = next;
        }
        tally.add("event words followed", 1);
    }
}

type Damage = fn(&mut Rng, &mut Drawn);

/// Each cause of bad drawing (16), alone.
const CAUSES: [(&str, Damage); 9] = [
    ("16 for no start", |_, drawn| drawn.starts = 0),
    ("16 for no state", |rng, drawn| {
        drawn.states = 0;
        if rng.chance(50) {
            drawn.arrows.clear();
        }
    }),
    ("16 for more than 16 states", |rng, drawn| {
        drawn.states = rng.pick(&[17, 18, 32, 65_536, 1 << 28, u32::MAX]);
        let rows = drawn.states.min(32);
        drawn.arrows.resize(16 * rows as usize, 0);
    }),
    ("16 for too few arrows", |rng, drawn| {
        let fewer = rng.below(drawn.arrows.len());
        drawn.arrows.truncate(fewer);
    }),
    ("16 for too many arrows", |rng, drawn| {
        let more = rng.pick(&[1, 15, 16, 17, 100]);
        drawn.arrows.resize(drawn.arrows.len() + more, 0);
    }),
    ("16 for a start at the state count", |_, drawn| {
        drawn.starts |= 1 << drawn.states;
    }),
    ("16 for a start above 15", |rng, drawn| {
        drawn.starts |= 1 << rng.between(16, 31);
    }),
    ("16 for an arrow at the state count", |rng, drawn| {
        one_state_fewer(drawn);
        let at = rng.below(drawn.arrows.len());
        drawn.arrows[at] |= 1 << drawn.states;
    }),
    ("16 for an arrow of a state not reached", |rng, drawn| {
        one_state_fewer(drawn);
        // Now nothing leads to the last state.
        let last = drawn.states as usize - 1;
        for map in &mut drawn.arrows {
            *map &= !(1 << last);
        }
        drawn.starts = 1;
        let above = rng.between(drawn.states as usize, 15);
        drawn.arrows[16 * last + rng.below(16)] |= 1 << above;
    }),
];

/// Removes the last state, so that a bit above the others is set. At least two
/// states are left.
fn one_state_fewer(drawn: &mut Drawn) {
    drawn.states = (drawn.states - 1).max(2);
    drawn.arrows.resize(16 * drawn.states as usize, 0);
    let known = (1 << drawn.states) - 1;
    for map in &mut drawn.arrows {
        *map &= known as u16;
    }
    drawn.starts = (drawn.starts & known).max(1);
}

#[test]
fn making_policies_from_drawings() {
    let (mut tally, mut rng) = Tally::new("policies from drawings", 15);
    for _ in 0..cases(6_000) {
        let drawn = some_drawing(&mut rng);
        with_each_room(&mut tally, &mut rng, &drawn);
    }
    for _ in 0..cases(100) {
        for states in 1..=MOST_STATES as usize {
            let more = rng.chance(50);
            let drawn = chain(&mut rng, states, more);
            with_each_room(&mut tally, &mut rng, &drawn);
        }
        for more in [false, true] {
            let drawn = chain(&mut rng, 16, more);
            with_each_room(&mut tally, &mut rng, &drawn);
        }
    }
    for k in 1..=15 {
        with_each_room(&mut tally, &mut rng, &from_the_end(k));
    }
    for (cause, damage) in CAUSES {
        for _ in 0..cases(400) {
            let mut drawn = some_drawing(&mut rng);
            damage(&mut rng, &mut drawn);
            let room = rng.pick(&[0, 256]);
            let (made, _) = determinise(&mut tally, &drawn, &vec![7; room]);
            assert_eq!(made.answer.number(), 16, "{cause}: {:?}", drawn.lend());
            tally.note(cause, 1);
        }
    }
    tally.conclude(&[("determinise", &NUMBERS)]);
}

#[test]
fn the_order_of_a_drawing_s_refusals() {
    let number = |drawn: &Drawn| native::determinise(&drawn.lend(), &mut []).answer.number();
    let mut bad = from_the_end(15);
    bad.starts = 0;
    assert_eq!(number(&bad), 16);
    assert_eq!(number(&from_the_end(15)), 15);
    assert_eq!(number(&from_the_end(4)), 9);
}
