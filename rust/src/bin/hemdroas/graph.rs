//! A policy or a drawing as states and arrows between them.

use super::json::{list, object, Json};
use hemdroas::names::EVENTS;
use hemdroas::text::Names;
use hemdroas::Ceilings;
use std::collections::BTreeMap;

/// The events of a state's row.
const ROW: usize = EVENTS as usize;

/// How many events at least are called 'others' together.
const LEAST_OTHERS: usize = 4;

/// A state: its name, and the events that 'others' does not mean.
pub struct Node {
    pub name: String,
    pub without: Vec<String>,
    pub is_start: bool,
}

/// All arrows from one state to another, as one.
pub struct Arrow {
    pub from: usize,
    pub to: usize,
    pub label: String,
}

/// The states that can be reached, and their arrows.
pub struct Graph {
    pub nodes: Vec<Node>,
    pub arrows: Vec<Arrow>,
    /// A line for each ceiling.
    pub ceilings: Vec<String>,
}

/// The bits of a map, as places.
fn members(map: u16) -> impl Iterator<Item = usize> {
    (0..u16::BITS as usize).filter(move |bit| map >> bit & 1 == 1)
}

/// The states that can be reached from the starts, rising.
fn reached(starts: u32, arrows: &[u16]) -> Vec<usize> {
    let mut map = starts as u16;
    loop {
        let rows = members(map).filter_map(|state| arrows.get(ROW * state..ROW * (state + 1)));
        let wider = rows.flatten().fold(map, |map, next| map | next);
        if wider == map {
            return members(map).collect();
        }
        map = wider;
    }
}

/// The successors that most events of a row have, if these are called 'others'.
fn usual(row: &[u16]) -> Option<u16> {
    let share = |map: u16| row.iter().filter(|&&other| other == map).count();
    let most = row.iter().copied().max_by_key(|&map| (share(map), map))?;
    (most != 0 && share(most) >= LEAST_OTHERS).then_some(most)
}

/// The arrows of one state: for each successor the events, in words.
fn labels(row: &[u16], names: &Names) -> BTreeMap<usize, String> {
    let usual = usual(row);
    let mut events: BTreeMap<usize, Vec<String>> = BTreeMap::new();
    for (event, &map) in (0..).zip(row).filter(|(_, &map)| Some(map) != usual) {
        for to in members(map) {
            events.entry(to).or_default().push(names.word(event));
        }
    }
    let word = if row.iter().all(|&map| Some(map) == usual) {
        "all"
    } else {
        "others"
    };
    for to in usual.into_iter().flat_map(members) {
        events.entry(to).or_default().push(word.to_string());
    }
    events
        .into_iter()
        .map(|(to, words)| (to, words.join(", ")))
        .collect()
}

impl Graph {
    /// The graph of states, their starts and successors as maps.
    pub fn of(
        states: &[String],
        starts: u32,
        arrows: &[u16],
        ceilings: &Ceilings,
        names: &Names,
    ) -> Graph {
        let reached = reached(starts, arrows);
        let place = |state: usize| reached.iter().position(|&known| known == state);
        let row = |state: usize| &arrows[ROW * state..][..ROW];
        let without = |state: usize| {
            let none = (0..)
                .zip(row(state))
                .filter(|(_, &map)| map == 0 && usual(row(state)).is_some());
            none.map(|(event, _)| names.word(event)).collect()
        };
        let node = |&state: &usize| Node {
            name: states[state].clone(),
            without: without(state),
            is_start: starts >> state & 1 == 1,
        };
        let from = |(from, &state): (usize, &usize)| {
            let all = labels(row(state), names).into_iter();
            let all = all.filter_map(move |(to, label)| Some((place(to)?, label)));
            all.map(move |(to, label)| Arrow { from, to, label })
        };
        let limited = (0..).zip(ceilings).filter(|(_, &most)| most != u32::MAX);
        Graph {
            nodes: reached.iter().map(node).collect(),
            arrows: reached.iter().enumerate().flat_map(from).collect(),
            ceilings: limited
                .map(|(order, most)| format!("{} at most {most}", names.word(order)))
                .collect(),
        }
    }

    /// The object of the graph.
    pub fn json(&self) -> Json {
        let node = |node: &Node| {
            object([
                ("name", node.name.as_str().into()),
                ("start", node.is_start.into()),
                ("without", list(node.without.iter().map(String::as_str))),
            ])
        };
        let arrow = |arrow: &Arrow| {
            object([
                ("from", arrow.from.into()),
                ("to", arrow.to.into()),
                ("label", arrow.label.as_str().into()),
            ])
        };
        object([
            ("type", "graph".into()),
            ("states", list(self.nodes.iter().map(node))),
            ("arrows", list(self.arrows.iter().map(arrow))),
            ("ceilings", list(self.ceilings.iter().map(String::as_str))),
        ])
    }
}
