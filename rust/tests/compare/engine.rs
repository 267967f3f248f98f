//! The engine, request [5]: against the model, and beside the machine.

use crate::ceilings::{about, beside_its_ceiling};
use crate::common::inputs::{
    altered_layout, damaged_routine, landings, layout_and_routine, length, policy, rewritten,
    right_layout, routine,
};
use crate::common::world::World;
use crate::common::{cases, Rng, Tally};
use crate::run::{some_budget, some_log, some_readings};
use hemdroas::model::{self, bundles, Instr};
use hemdroas::names::{EVENTS, GUEST_REGISTERS, NO_ARROW, ORDERS};
use hemdroas::{
    native, Answer, Ending, Engine, EngineAnswer, EngineRecord, Layout, Refusal, Status,
};

/// The refusals and endings that `hemdroas_engine_run` can answer.
const NUMBERS: [u32; 13] = [2, 3, 4, 5, 7, 8, 20, 21, 22, 23, 24, 25, 26];

/// Those of `hemdroas_engine_continue`: only oversize (5) and bad layout (7), and every ending.
const CONTINUE_NUMBERS: [u32; 9] = [5, 7, 20, 21, 22, 23, 24, 25, 26];

/// A status above 4 counts as faulted, unless the run is refused.
const ABOVE: (&str, &[u32]) = ("engine with a status above 4", &[22]);

/// What a run is lent beside layout, words and readings.
#[derive(Clone, Debug, PartialEq)]
pub struct Lent {
    pub record: EngineRecord,
    pub memory: Vec<u32>,
    pub log: Vec<u32>,
}

/// A run of the engine, of the model or of the library, on a record `R`.
type Run<R> = fn(&Layout, &[u64], &mut R, &mut [u32], u32, &[u32], &mut [u32]) -> EngineAnswer;

/// Compares what library and model answer and leave.
fn compared(
    (modelled, given): (Run<Engine>, Run<EngineRecord>),
    layout: &Layout,
    words: &[u64],
    lent: &Lent,
    (budget, readings): (u32, &[u32]),
) -> (EngineAnswer, Lent) {
    let mut left = lent.clone();
    let (memory, log) = (&mut left.memory, &mut left.log);
    let answer = left
        .record
        .run(|engine| modelled(layout, words, engine, memory, budget, readings, log));

    let mut theirs = lent.clone();
    let (record, memory, log) = (&mut theirs.record, &mut theirs.memory, &mut theirs.log);
    let given = given(layout, words, record, memory, budget, readings, log);
    let input = || format!("{words:x?} from {lent:?} under {layout:?}, {budget}, {readings:?}");
    assert_eq!(given, answer, "running {}", input());
    assert_eq!(theirs, left, "what was lent to {}", input());
    (answer, left)
}

/// Compares `hemdroas_engine_continue`; if the words are taken, also with what
/// `hemdroas_engine_run` answered and left.
fn continues(
    tally: &mut Tally,
    layout: &Layout,
    words: &[u64],
    lent: &Lent,
    inputs: (u32, &[u32]),
    ran: (EngineAnswer, &Lent),
) {
    let by: (Run<Engine>, Run<EngineRecord>) =
        (model::engine_continue, native::engine_continue_record);
    let (answer, left) = compared(by, layout, words, lent, inputs);
    match ran.0.came {
        Err((
            Refusal::UnknownKind | Refusal::Foreign | Refusal::OffRange | Refusal::BadLanding,
            _,
        )) => {
            let faulted = answer.came == Ok(Ending::Fault) && answer.instructions > 0;
            let what = if faulted {
                "22 for a word that is no instruction"
            } else {
                "a word that is no instruction, not reached"
            };
            tally.note(what, 1);
        }
        _ => assert_eq!(
            (&answer, &left),
            (&ran.0, ran.1),
            "both entries, {words:x?} from {lent:?}"
        ),
    }
    tally.count("continue", answer.number());
}

pub fn engine(
    tally: &mut Tally,
    layout: &Layout,
    words: &[u64],
    lent: &mut Lent,
    budget: u32,
    readings: &[u32],
) -> EngineAnswer {
    let by: (Run<Engine>, Run<EngineRecord>) = (model::engine, native::engine_record);
    let (answer, left) = compared(by, layout, words, lent, (budget, readings));
    let input = || format!("{words:x?} from {lent:?} under {layout:?}, {budget}, {readings:?}");

    let status = lent.record.0[EngineRecord::STATUS];
    if answer.came.is_err() || status != 0 {
        let zeros = (answer.instructions, answer.pairs, answer.readings);
        assert_eq!((&left, zeros), (&*lent, (0, 0, 0)), "{}", input());
    }
    if answer.came.is_ok() && status > Status::Strayed.number() {
        tally.count(ABOVE.0, answer.number());
    }
    tally.count("engine", answer.number());
    tally.add("instructions", u64::from(answer.instructions));
    tally.add("pairs", u64::from(answer.pairs));
    tally.add("readings", u64::from(answer.readings));
    continues(
        tally,
        layout,
        words,
        lent,
        (budget, readings),
        (answer, &left),
    );
    *lent = left;
    answer
}

/// A memory with policy and landings installed.
fn installed(rng: &mut Rng, layout: &Layout) -> Vec<u32> {
    let mut memory = rng.cells(layout.size as usize);
    let arrows = rng.between(60, 100);
    let policy = policy(rng, layout.states, arrows);
    let landings = landings(rng);
    let (answer, _) = model::install(layout, &policy.lend(), &landings, &mut memory);
    assert_eq!(answer, Answer::Taken(0));
    memory
}

/// A record for a routine of `n` words: any registers and status, the index mostly
/// inside it.
fn some_record(rng: &mut Rng, n: usize) -> EngineRecord {
    let mut record = EngineRecord(std::array::from_fn(|_| rng.word() >> rng.below(32)));
    let bundles = bundles(n);
    record.0[EngineRecord::AT] = match rng.below(8) {
        0 => rng.pick(&[bundles as u32, bundles as u32 + 1, 1024, u32::MAX]),
        _ => rng.below(bundles) as u32,
    };
    record.0[EngineRecord::STATUS] = match rng.below(5) {
        0 => rng.between(1, 4) as u32,
        1 => rng.pick(&[5, 6, 255, 256, 1 << 16, 1 << 31, u32::MAX]),
        _ => 0,
    };
    record
}

/// Routines, some damaged, with records and memories as after installing or made
/// by hand, each run several times.
fn routines(tally: &mut Tally, rng: &mut Rng) {
    for _ in 0..cases(20_000) {
        let n = length(rng);
        let mut layout = right_layout(rng, bundles(n));
        let words = if rng.chance(40) {
            damaged_routine(rng, &layout, n)
        } else {
            routine(rng, &layout, n)
        };
        let mut memory = if rng.chance(85) {
            installed(rng, &layout)
        } else {
            rng.cells(layout.size as usize)
        };
        match rng.below(30) {
            0 => layout = altered_layout(rng, &layout),
            1 => {
                let cells = memory.len();
                memory.resize(rng.pick(&[cells - 1, cells + 1, 0, 2 * cells]), 0);
            }
            // The engine does not use the code base.
            2 => layout.base = rng.word(),
            _ => {}
        }
        let record = if rng.chance(30) {
            some_record(rng, n)
        } else {
            Engine::FIRST.to_record()
        };
        let mut lent = Lent {
            record,
            memory,
            log: Vec::new(),
        };
        for _ in 0..rng.between(1, 4) {
            lent.log = some_log(rng);
            let (budget, readings) = (some_budget(rng), some_readings(rng));
            let answer = engine(tally, &layout, &words, &mut lent, budget, &readings);
            if answer.came.is_err() {
                break;
            }
        }
    }
}

/// Each event with each table cell that matters, each pause at its bound, and some
/// budget or none. Whatever the log and the readings, a table address of U or more
/// faults first, then an event that is not allowed stops.
fn each_event(tally: &mut Tally, rng: &mut Rng) {
    let layout = right_layout(rng, 2);
    let rows = (layout.size - layout.table) / EVENTS;
    for v in 0..EVENTS {
        for state in [0, rows - 1, rows, rows + 1, 1 << 28, u32::MAX] {
            for to in [0, 254, NO_ARROW, 256, u32::MAX] {
                for (log, readings) in [(0, 0), (1, 0), (1, 1), (2, 0), (2, 1), (3, 2)] {
                    for budget in 0..2 {
                        let mut memory = rng.cells(layout.size as usize);
                        memory[layout.cell as usize] = state;
                        let entry = u64::from(layout.table + v) + u64::from(state) * 16;
                        let outside = entry >= u64::from(layout.size);
                        let own = entry == u64::from(layout.cell);
                        if !outside && !own {
                            memory[entry as usize] = to;
                        }
                        let mut lent = Lent {
                            record: Engine::FIRST.to_record(),
                            memory,
                            log: vec![7; log],
                        };
                        let words = [Instr::Event { v }.word()];
                        let readings = &[1800, 1950][..readings];
                        let answer = engine(tally, &layout, &words, &mut lent, budget, readings);
                        if budget == 0 {
                            assert_eq!(answer.came, Ok(Ending::Spent));
                        } else if outside {
                            assert_eq!(answer.came, Ok(Ending::Fault));
                            tally.note("22 for a table address", 1);
                        } else if to == NO_ARROW && !own {
                            assert_eq!(answer.came, Ok(Ending::NoArrow));
                            let pauses = log < 2 || v >= ORDERS && readings.is_empty();
                            tally.note("21 before a pause", u64::from(pauses));
                        }
                    }
                }
            }
        }
    }
}

/// Each index near N, in routines of each length near a power of two: HALT from n
/// on, a fault from N on.
fn each_index(tally: &mut Tally, rng: &mut Rng) {
    for n in [0, 1, 2, 3, 4, 7, 8, 255, 256, 1022, 1023] {
        let bundles = bundles(n);
        let layout = right_layout(rng, bundles);
        let words = vec![Instr::Set { d: 14, v: 9 }.word(); n];
        for at in [0, n, bundles - 1, bundles, bundles + 1, 1 << 20, 1 << 31] {
            for _ in 0..cases(8) {
                let mut record = some_record(rng, n);
                record.0[EngineRecord::AT] = at as u32;
                record.0[EngineRecord::STATUS] = 0;
                let mut lent = Lent {
                    record,
                    memory: installed(rng, &layout),
                    log: Vec::new(),
                };
                let answer = engine(tally, &layout, &words, &mut lent, 1, &[]);
                let expected = if at < n {
                    Ending::Spent
                } else if at < bundles {
                    Ending::Done
                } else {
                    tally.note("22 for an index of N or more", 1);
                    Ending::Fault
                };
                assert_eq!((answer.came, answer.instructions), (Ok(expected), 1));
            }
        }
    }
}

/// Request [2]: each order with r0 near its ceiling.
fn each_ceiling(tally: &mut Tally, rng: &mut Rng) {
    for _ in 0..cases(60) {
        let layout = right_layout(rng, 2);
        for v in 0..ORDERS {
            let ceiling = layout.ceilings[v as usize];
            for r0 in about(ceiling) {
                let mut memory = installed(rng, &layout);
                memory[layout.cell as usize] = 0;
                memory[(layout.table + v) as usize] = 0;
                let mut lent = Lent {
                    record: Engine::FIRST.to_record(),
                    memory,
                    log: vec![7; 2],
                };
                lent.record.0[0] = r0;
                let words = [Instr::Event { v }.word()];
                let answer = engine(tally, &layout, &words, &mut lent, 1, &[]);
                assert_eq!((answer.came, answer.pairs), (Ok(Ending::Spent), 1));
                assert_eq!(lent.log, [v, r0.min(ceiling)]);
                assert_eq!(lent.record.0[0], r0, "r0 keeps its content");
                tally.note(beside_its_ceiling(r0, ceiling), 1);
            }
        }
    }
}

#[test]
fn running_as_written() {
    let (mut tally, mut rng) = Tally::new("running as written", 30);
    for _ in 0..cases(3) {
        each_event(&mut tally, &mut rng);
    }
    each_index(&mut tally, &mut rng);
    each_ceiling(&mut tally, &mut rng);
    routines(&mut tally, &mut rng);
    tally.conclude(&[("engine", &NUMBERS), ABOVE, ("continue", &CONTINUE_NUMBERS)]);
}

/// 'It and the machine, from the same installation, given the same readings in
/// turn, agree on records, readings used, registers, sandbox and state cell each
/// time the machine reaches the first command of a bundle, the engine taken
/// after as many instructions as the machine has bundles behind it. If one ends
/// or stops in the next, so does the other', and they agree on the ending.
/// Request [12]: 'at log and probe pauses also'.
#[test]
fn the_engine_beside_the_machine() {
    let (mut tally, mut rng) = Tally::new("engine beside machine", 31);
    for _ in 0..cases(3_000) {
        let (layout, words) = layout_and_routine(&mut rng);
        let commands = rewritten(&layout, &words);
        let arrows = rng.between(70, 100);
        let policy = policy(&mut rng, layout.states, arrows);
        let landings = landings(&mut rng);
        let readings = rng.cells(300);
        let mut cells = rng.cells(layout.size as usize);
        let (answer, machine) = native::install(&layout, &policy.lend(), &landings, &mut cells);
        assert_eq!(answer, Answer::Taken(0));
        let mut world = World::new(native::run, &layout, &commands, machine, cells.clone());
        let (mut engine, mut records, mut used) = (Engine::FIRST, Vec::new(), 0);
        for _ in 0..300 {
            // Sometimes there is no reading, or too little room in the log.
            let known = if rng.chance(20) { used } else { readings.len() };
            let room = rng.pick(&[0, 1, 2, 2, 2, 3]);
            let mut log = vec![0; room];
            let answer = native::engine(
                &layout,
                &words,
                &mut engine,
                &mut cells,
                1,
                &readings[used..known],
                &mut log,
            );
            used += answer.readings as usize;
            if answer.pairs == 1 {
                records.push((log[0], log[1]));
            }
            let ending = world.bundle(&readings[..known], room);
            tally.count("engine and machine", ending.number());
            let pauses = matches!(ending, Ending::LogFull | Ending::Silent);
            assert_eq!(answer.came, Ok(ending));
            assert_eq!(answer.instructions, u32::from(!pauses));
            assert_eq!(world.machine.status, engine.status);
            assert_eq!(world.machine.regs[..GUEST_REGISTERS as usize], engine.regs);
            assert_eq!(world.memory, cells);
            assert_eq!((&world.records, world.used), (&records, used));
            if engine.status != Status::Running {
                break;
            }
            if !pauses {
                assert_eq!(world.machine.pc, layout.base + 4 * engine.at);
            }
        }
    }
    let all = [20, 21, 23, 24, 25, 26];
    tally.conclude(&[("engine and machine", &all)]);
}
