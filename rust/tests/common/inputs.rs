//! Random layouts, policies, routines and command lists.

use super::Rng;
use hemdroas::model::words::Fields;
use hemdroas::model::{self, bundles, layout_right, Command, Instr};
use hemdroas::names::{
    BUNDLE_LENGTH, EVENTS, GUEST_REGISTERS, HIDDEN, LANDING_CELLS, MOST_BUNDLES, MOST_CELLS,
    MOST_INSTRUCTIONS, MOST_STATES, NO_ARROW, REGISTERS, UNLIMITED,
};
use hemdroas::{Answer, Ceilings, Layout, Policy, Record};
use std::ops::Range;

/// The sample routine of the rules.
pub const SAMPLE: [u8; 18] = [
    0x04, 0x00, 0x21, 0x01, 0x46, 0x00, 0x00, 0x00, 0x01, 0x0c, 0x21, 0x0c, 0x02, 0x00, 0x00, 0x00,
    0x01, 0x0c,
];
/// The layout under which `trial` runs it.
pub const TRIAL: Layout = Layout {
    size: 1024,
    low: 256,
    high: 511,
    cell: 0,
    table: 16,
    states: 2,
    base: 4096,
    landings: 64,
    ceilings: UNLIMITED,
};
pub const TRIAL_READINGS: [u32; 3] = [1800, 1950, 2100];

/// `trial`'s policy: the door (event 2) leads to state 1, where gas (event 0)
/// has no arrow.
pub fn trial_policy() -> SomePolicy {
    let mut table = vec![0; 32];
    table[2] = 1;
    table[16..].fill(1);
    table[16] = 255;
    SomePolicy {
        states: 2,
        start: 0,
        table,
    }
}

/// Every landing that there can be.
pub fn all_landings() -> Vec<u32> {
    (0..MOST_BUNDLES as u32).collect()
}

/// A policy with its table.
#[derive(Clone, Debug)]
pub struct SomePolicy {
    pub states: u32,
    pub start: u32,
    pub table: Vec<u8>,
}

impl SomePolicy {
    pub fn lend(&self) -> Policy<'_> {
        Policy {
            states: self.states,
            start: self.start,
            table: &self.table,
        }
    }
}

/// A right policy for so many states; `arrows` percent of the events have one.
pub fn policy(rng: &mut Rng, states: u32, arrows: usize) -> SomePolicy {
    let table = (0..EVENTS * states)
        .map(|_| {
            if rng.chance(arrows) {
                rng.under(states) as u8
            } else {
                NO_ARROW as u8
            }
        })
        .collect();
    SomePolicy {
        states,
        start: rng.under(states),
        table,
    }
}

/// Ceilings: the least, the greatest, small ones and any.
pub fn some_ceilings(rng: &mut Rng) -> Ceilings {
    std::array::from_fn(|_| match rng.below(4) {
        0 => 0,
        1 => u32::MAX,
        2 => rng.under(10),
        _ => rng.word(),
    })
}

/// A rising list of landings: all of them, none, or some, the first more often
/// than those that no short list has.
pub fn landings(rng: &mut Rng) -> Vec<u32> {
    let share = rng.pick(&[0, 30, 70, 95, 100, 100]);
    let most = rng.pick(&[8, 64, MOST_BUNDLES as u32]);
    (0..most).filter(|_| rng.chance(share)).collect()
}

/// The last code base at which so many bundles can lie: 2^32 − 4N.
pub fn top_base(bundles: usize) -> u32 {
    ((1 << 32) - 4 * bundles as u64) as u32
}

/// A code base at which so many bundles can lie.
pub fn base_for(rng: &mut Rng, bundles: usize) -> u32 {
    let size = 4 * bundles as u32;
    let any = match rng.below(8) {
        0 => 0,
        1 => 65_535,
        2 => 65_536,
        3 => top_base(bundles),
        4 | 5 => rng.under(65_536),
        _ => rng.word(),
    };
    any / size * size
}

/// A right layout for a list of so many bundles.
pub fn right_layout(rng: &mut Rng, bundles: usize) -> Layout {
    let states = if rng.chance(60) {
        rng.between(1, 4)
    } else {
        rng.between(1, MOST_STATES as usize)
    };
    layout_of_states(rng, bundles, states as u32)
}

/// The same with so many states.
pub fn layout_of_states(rng: &mut Rng, bundles: usize, states: u32) -> Layout {
    let most = MOST_CELLS as usize;
    let base = base_for(rng, bundles);
    let (table, landings) = ((EVENTS * states) as usize, LANDING_CELLS as usize);
    loop {
        let sandbox = 1 << rng.below(12);
        let least = sandbox + table + landings + 1;
        if least > most {
            continue;
        }
        let size = if rng.chance(70) {
            rng.between(least, (2 * least).min(most))
        } else {
            rng.between(least, most)
        };
        let low = rng.below(size / sandbox) * sandbox;
        let sandbox_cells = low..low + sandbox;
        let mut regions = Vec::from([sandbox_cells]);
        let (Some(table), Some(landings), Some(cell)) = (
            place(rng, size, table, &mut regions),
            place(rng, size, landings, &mut regions),
            place(rng, size, 1, &mut regions),
        ) else {
            continue;
        };
        let layout = Layout {
            size: size as u32,
            low: low as u32,
            high: (low + sandbox - 1) as u32,
            cell,
            table,
            states,
            base,
            landings,
            ceilings: some_ceilings(rng),
        };
        assert!(layout_right(&layout), "{layout:?}");
        return layout;
    }
}

/// A place for so many cells beside the regions, to which it is added, if a few
/// tries find one.
fn place(
    rng: &mut Rng,
    size: usize,
    length: usize,
    regions: &mut Vec<Range<usize>>,
) -> Option<u32> {
    for _ in 0..8 {
        let from = rng.below(size - length + 1);
        let place = from..from + length;
        let beside = |other: &Range<usize>| other.end <= place.start || place.end <= other.start;
        if regions.iter().all(beside) {
            regions.push(place);
            return Some(from as u32);
        }
    }
    None
}

/// How many numbers of a layout as an array come before its ceilings.
const PLACES: usize = 8;

/// A layout with one to three of its numbers altered; few of them stay right.
pub fn altered_layout(rng: &mut Rng, layout: &Layout) -> Layout {
    let mut array = layout.to_array();
    if rng.chance(10) {
        return Layout::from_array(array.map(|_| rng.word()));
    }
    for _ in 0..rng.between(1, 3) {
        // Seldom a ceiling, which makes no layout wrong.
        let fields = rng.pick(&[array.len(), PLACES, PLACES, PLACES]);
        let field = rng.below(fields);
        let other = rng.pick(&array[..PLACES]);
        array[field] = match rng.below(12) {
            0 => 0,
            1 => 1,
            2 => array[field].wrapping_add(1),
            3 => array[field].wrapping_sub(1),
            4 => u32::MAX,
            5 => rng.between(4095, 4097) as u32,
            6 => rng.between(15, 17) as u32,
            7 => rng.word(),
            8 => 1 << rng.below(32),
            9 => other,
            10 => other.wrapping_add(array[field]),
            _ => array[field] ^ 1 << rng.below(13),
        };
    }
    Layout::from_array(array)
}

/// Whether a cell is neither protected nor in the sandbox.
pub fn is_free(layout: &Layout, cell: u32) -> bool {
    let sandbox = layout.low..=layout.high;
    let table = layout.table..layout.table + EVENTS * layout.states;
    let landings = layout.landings..layout.landings + LANDING_CELLS;
    !sandbox.contains(&cell)
        && !table.contains(&cell)
        && !landings.contains(&cell)
        && cell != layout.cell
}

/// A record with any numbers, the status too.
pub fn any_record(rng: &mut Rng) -> Record {
    Record(std::array::from_fn(|_| rng.word()))
}

/// A number that is likely to matter: addresses, bounds and their neighbours.
pub fn number(rng: &mut Rng, layout: &Layout) -> u32 {
    let places = &layout.to_array()[..PLACES];
    match rng.below(13) {
        0 => 0,
        1 => rng.under(40),
        2 => rng.between(254, 256) as u32,
        3 => rng.pick(&[
            u32::MAX,
            1 << 31,
            (1 << 31) - 1,
            (1 << 31) + 1,
            0x4000_0003,
            u32::MAX - 6,
        ]),
        4 => rng.word(),
        5 => 1 << rng.below(32),
        6 | 7 => rng.pick(places).wrapping_add(rng.under(3)),
        8 => rng.pick(places).wrapping_sub(1 + rng.under(2)),
        9 => rng
            .pick(&layout.ceilings)
            .wrapping_add(rng.under(3))
            .wrapping_sub(1),
        _ => layout.low.wrapping_add(rng.under(64)),
    }
}

/// Fields of a kind with registers below `registers`, more often the first of
/// them, so that what one instruction leaves is what another finds.
fn some_fields(rng: &mut Rng, kind: u32, registers: u32, v: u32) -> Fields {
    let mut register = || match rng.below(3) {
        0 => rng.under(registers),
        _ => rng.under(5),
    };
    Fields {
        kind,
        d: register(),
        a: register(),
        b: register(),
        c: rng.under(4),
        zero: 0,
        v,
    }
}

/// The word of a kind of instruction with fields of any size, fit or not.
pub fn instr_word(kind: u32, d: u32, a: u32, b: u32, c: u32, v: u32) -> u64 {
    let zero = 0;
    model::words::word(Fields {
        kind,
        d,
        a,
        b,
        c,
        zero,
        v,
    })
}

/// A right instruction of a routine of `n`.
pub fn instruction(rng: &mut Rng, layout: &Layout, n: usize) -> u64 {
    // Shares in a hundred; few HALTs, so that routines run for a while.
    const SHARES: [usize; 13] = [1, 17, 5, 8, 7, 4, 4, 5, 12, 12, 8, 4, 13];
    let mut at = rng.below(100);
    let mut kind = 0;
    while at >= SHARES[kind] {
        at -= SHARES[kind];
        kind += 1;
    }
    let v = number(rng, layout);
    let fields = some_fields(rng, kind as u32, GUEST_REGISTERS, v);
    let instr = match Instr::of_kind(fields).expect("a kind of the table") {
        Instr::Sar { d, a, v } => Instr::Sar { d, a, v: v % 32 },
        Instr::Event { v } => Instr::Event { v: v % EVENTS },
        Instr::GoIf { a, b, c, .. } => {
            let v = rng.between(0, n) as u32;
            Instr::GoIf { a, b, c, v }
        }
        other => other,
    };
    instr.word()
}

/// A right routine of `n` instructions. Most begin by setting registers, for
/// a routine of zeros does little.
pub fn routine(rng: &mut Rng, layout: &Layout, n: usize) -> Vec<u64> {
    let mut words: Vec<u64> = (0..n).map(|_| instruction(rng, layout, n)).collect();
    if rng.chance(70) {
        let registers = 0..GUEST_REGISTERS;
        for (word, d) in words.iter_mut().take(n / 3).zip(registers) {
            let v = number(rng, layout);
            *word = Instr::Set { d, v }.word();
        }
    }
    words
}

/// A length of a routine: most short, some long, some at a power of two.
pub fn length(rng: &mut Rng) -> usize {
    match rng.below(100) {
        0..=4 => 0,
        5..=54 => rng.between(1, 8),
        55..=84 => rng.between(9, 60),
        85..=94 => {
            let power = 1 << rng.below(8);
            rng.between(power - 1, power + 1)
        }
        95..=98 => rng.between(61, 300),
        _ => rng.pick(&[
            255,
            256,
            511,
            512,
            1000,
            MOST_INSTRUCTIONS - 1,
            MOST_INSTRUCTIONS,
        ]),
    }
}

/// Spoils one word of a routine or list.
pub fn damage_word(rng: &mut Rng, word: u64) -> u64 {
    let nibble = |word: u64, at: usize, value: u64| word & !(0xf << at) | value << at;
    match rng.below(9) {
        0 => word ^ 1 << rng.below(64),
        1 => word & !0xff | rng.below(256) as u64,
        2 => word & !0xff | rng.between(0, 21) as u64,
        3 => {
            let field = rng.pick(&[8, 12, 16]);
            let low = GUEST_REGISTERS as usize - 1;
            nibble(word, field, rng.between(low, 15) as u64)
        }
        4 => nibble(word, 20, rng.below(16) as u64),
        5 => word | 1 << rng.between(24, 31),
        6 => word & 0xffff_ffff | (rng.below(70) as u64) << 32,
        7 => word & 0xffff_ffff | u64::from(rng.word()) << 32,
        _ => rng.next(),
    }
}

/// A routine, now and then with damaged words or too long.
pub fn damaged_routine(rng: &mut Rng, layout: &Layout, n: usize) -> Vec<u64> {
    let mut words = routine(rng, layout, n);
    if n > 0 && rng.chance(60) {
        for _ in 0..rng.between(1, 3) {
            let at = rng.below(n);
            words[at] = match rng.below(6) {
                0 => {
                    let v = (n + rng.below(3)) as u32;
                    Instr::GoIf {
                        a: 1,
                        b: 2,
                        c: 3,
                        v,
                    }
                    .word()
                }
                _ => damage_word(rng, words[at]),
            };
        }
    }
    if rng.chance(3) {
        words.resize(MOST_INSTRUCTIONS + rng.between(1, 3), 0);
    }
    words
}

/// The bytes of a right routine.
pub fn bytes_of(words: &[u64]) -> Vec<u8> {
    let mut bytes = vec![0; 2 + 10 * words.len()];
    let Answer::Taken(size) = model::write(words, &mut bytes) else {
        panic!("a right routine is written");
    };
    bytes.truncate(size as usize);
    bytes
}

/// The commands of a right routine.
pub fn rewritten(layout: &Layout, words: &[u64]) -> Vec<u64> {
    let mut list = vec![0; BUNDLE_LENGTH * bundles(words.len())];
    let size = list.len() as u32;
    let answer = model::rewrite(layout, words, &mut list);
    assert_eq!(answer, Answer::Taken(size));
    list
}

/// The bytes of one instruction, most of them right and some nearly so.
fn loose_instruction(rng: &mut Rng, bytes: &mut Vec<u8>) {
    let Fields {
        kind,
        d,
        a,
        b,
        c,
        mut v,
        ..
    } = model::words::fields(instruction(rng, &TRIAL, 20));
    let mut fields = [kind, d, a, b, c].map(|field| field as u8);
    let mut map = 0;
    for (bit, &field) in fields.iter().enumerate() {
        map |= u8::from(field != 0) << bit;
    }
    map |= u8::from(v != 0) << 5;
    match rng.below(30) {
        0 => map ^= 1 << rng.below(6),
        1 => map = rng.byte(),
        2 => {
            let at = rng.below(5);
            map |= 1 << at;
            fields[at] = rng.below(18) as u8;
        }
        3 => fields[rng.below(5)] = rng.byte(),
        4 => {
            map |= 32;
            v = rng.under(40);
        }
        _ => {}
    }
    bytes.push(map);
    for (bit, &field) in fields.iter().enumerate() {
        if map >> bit & 1 == 1 {
            bytes.push(field);
        }
    }
    if map >> 5 & 1 == 1 {
        bytes.extend(v.to_le_bytes());
    }
}

/// Bytes by the writer or by hand, whole or damaged.
pub fn some_bytes(rng: &mut Rng) -> Vec<u8> {
    let mut bytes = match rng.below(10) {
        0..=3 => {
            let n = length(rng);
            bytes_of(&routine(rng, &TRIAL, n))
        }
        4..=8 => {
            let n = length(rng);
            let mut bytes = (n as u16).to_le_bytes().to_vec();
            for _ in 0..n {
                loose_instruction(rng, &mut bytes);
            }
            bytes
        }
        _ => {
            let size = rng.below(24);
            (0..size).map(|_| rng.byte() & 0x3f).collect()
        }
    };
    if rng.chance(45) {
        for _ in 0..rng.between(1, 2) {
            damage_bytes(rng, &mut bytes);
        }
    }
    bytes
}

fn damage_bytes(rng: &mut Rng, bytes: &mut Vec<u8>) {
    let size = bytes.len();
    match rng.below(6) {
        0 | 1 => bytes.truncate(rng.below(size + 1)),
        2 => bytes.extend((0..rng.between(1, 4)).map(|at| at as u8)),
        3 if size > 0 => bytes[rng.below(size)] = rng.byte(),
        4 if size > 0 => bytes[rng.below(size)] ^= 1 << rng.below(8),
        5 if size > 1 => {
            let count = rng.pick(&[0, 1, 1022, 1023, 1024, 1025, 4000, 65_535]);
            bytes[..2].copy_from_slice(&u16::to_le_bytes(count));
        }
        _ => {}
    }
}

/// The instructions that a routine's first two bytes announce.
pub fn announced(bytes: &[u8]) -> usize {
    match bytes {
        &[low, high, ..] => usize::from(u16::from_le_bytes([low, high])),
        _ => 3,
    }
}

/// Room for `needed`, or now and then too little or some to spare.
pub fn room(rng: &mut Rng, needed: usize) -> usize {
    match rng.below(20) {
        0 => needed.saturating_sub(1),
        1 => rng.between(0, needed),
        2 | 3 => needed + rng.between(1, 9),
        _ => needed,
    }
}

/// An output whose words all differ from what anyone would write.
pub fn output(rng: &mut Rng, room: usize) -> Vec<u64> {
    let mark = rng.next() | 0xff;
    vec![mark; room]
}

/// Any command over all registers, for lists that no rewriter made.
pub fn any_command(rng: &mut Rng, layout: &Layout, length: usize) -> u64 {
    const NOP: u32 = 0;
    const HALT: u32 = 1;
    let kind = if rng.chance(25) {
        // Those that reach for memory, policy and log.
        rng.pick(&[12, 13, 14, 16, 17, 18, 19, 19])
    } else {
        match rng.under(20) {
            HALT if rng.chance(60) => NOP,
            kind => kind,
        }
    };
    let v = number(rng, layout);
    let fields = some_fields(rng, kind, REGISTERS as u32, v);
    let command = match Command::of_kind(fields).expect("a kind of the table") {
        Command::GoIf { a, b, c, .. } if rng.chance(93) => {
            let v = layout.base.wrapping_add(rng.below(length + 1) as u32);
            Command::GoIf { a, b, c, v }
        }
        Command::Sar { d, a, v } => Command::Sar { d, a, v: v % 32 },
        Command::Shl { d, a, v } => Command::Shl { d, a, v: v % 32 },
        Command::Look { d, v } => Command::Look { d, v: v % EVENTS },
        Command::Event { v } => Command::Event { v: v % EVENTS },
        Command::AndI { d, a, .. } if rng.chance(60) => {
            let v = layout.size.next_power_of_two() / 2 - 1;
            Command::AndI { d, a, v }
        }
        Command::OrI { d, a, .. } if rng.chance(60) => {
            let v = rng.under(16);
            Command::OrI { d, a, v }
        }
        other => other,
    };
    command.word()
}

/// A bundle of a shape that the checker passes, for a list of `bundles`.
#[rustfmt::skip]
pub fn shaped_bundle(rng: &mut Rng, layout: &Layout, bundles: usize) -> [u64; BUNDLE_LENGTH] {
    use Command::*;
    // An altered layout may have a base near the end of 32 bits.
    let at = |offset: usize| layout.base.wrapping_add(offset as u32);
    let v = number(rng, layout);
    let kind = rng.between(2, 8) as u32;
    let fields = some_fields(rng, kind, GUEST_REGISTERS, v);
    let Fields { d, a, b, c, .. } = fields;
    let event = rng.under(EVENTS);
    let access = if rng.chance(50) { Load { d, a: HIDDEN } } else { Store { a: HIDDEN, b } };
    let bundle = match rng.below(8) {
        0 => [Halt, Nop, Nop, Nop],
        1 | 2 => match Command::of_kind(fields).expect("a kind of the table") {
            Sar { d, a, v } => [Sar { d, a, v: v % 32 }, Nop, Nop, Nop],
            plain => [plain, Nop, Nop, Nop],
        },
        3 | 4 => [
            AndI { d: HIDDEN, a, v: layout.high },
            OrI { d: HIDDEN, a: HIDDEN, v: layout.low },
            access,
            Nop,
        ],
        5 => [GoIf { a, b, c, v: at(4 * rng.below(bundles)) }, Nop, Nop, Nop],
        6 => [
            Shl { d: HIDDEN, a: d, v: 2 },
            AndI { d: HIDDEN, a: HIDDEN, v: at(4 * bundles - 1) },
            OrI { d: HIDDEN, a: HIDDEN, v: at(0) },
            GoReg { d: HIDDEN, a, b, c },
        ],
        _ => [
            Look { d: HIDDEN, v: event },
            StopIf { d: HIDDEN },
            Event { v: event },
            Keep { d: HIDDEN },
        ],
    };
    bundle.map(Command::word)
}

/// A list that passes, made without the rewriter.
pub fn shaped_list(rng: &mut Rng, layout: &Layout, bundles: usize) -> Vec<u64> {
    let mut list: Vec<u64> = (1..bundles)
        .flat_map(|_| shaped_bundle(rng, layout, bundles))
        .collect();
    list.extend([Command::Halt, Command::Nop, Command::Nop, Command::Nop].map(Command::word));
    list
}

/// A right layout and a routine that fits under it.
pub fn layout_and_routine(rng: &mut Rng) -> (Layout, Vec<u64>) {
    let n = length(rng);
    let layout = right_layout(rng, bundles(n));
    let words = routine(rng, &layout, n);
    (layout, words)
}
