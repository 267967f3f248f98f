//! Transparency, request [14]: the raw run of a well-behaved routine beside the
//! library's machine and engine.

use crate::common::inputs::{landings, length, policy, rewritten, right_layout, routine};
use crate::common::world::World;
use crate::common::{cases, Rng, Tally};
use hemdroas::model::words::{fields, word, Fields};
use hemdroas::model::{bundles, Guest, Instr};
use hemdroas::names::{GUEST_REGISTERS, ORDERS};
use hemdroas::{native, Answer, Ending, Engine, Layout, Status};

/// Registers from this one on have addresses of the sandbox, except the last, which
/// has a landing.
const FIRST_ADDRESS: u32 = 9;
const LANDING: u32 = GUEST_REGISTERS - 1;

/// A routine that mostly behaves well: it accesses memory and jumps only through
/// registers that it has set at the start.
fn honest_routine(rng: &mut Rng, layout: &Layout, n: usize, landings: &[u32]) -> Vec<u64> {
    let mut words = routine(rng, layout, n);
    for instruction in &mut words {
        let some = fields(*instruction);
        let kept = Fields {
            d: some.d % FIRST_ADDRESS,
            ..some
        };
        let address = FIRST_ADDRESS + rng.under(LANDING - FIRST_ADDRESS);
        *instruction = match Instr::of_kind(some).expect("a right instruction") {
            Instr::Load { .. } => word(Fields { a: address, ..kept }),
            Instr::Store { .. } => word(Fields { a: address, ..some }),
            Instr::GoX { .. } => word(Fields { d: LANDING, ..some }),
            Instr::GoIf { .. } | Instr::Event { .. } | Instr::Halt => *instruction,
            _ => word(kept),
        };
    }
    let known: Vec<u32> = landings
        .iter()
        .copied()
        .filter(|&landing| (landing as usize) < bundles(n))
        .collect();
    for (instruction, d) in words.iter_mut().zip(FIRST_ADDRESS..GUEST_REGISTERS) {
        let v = if d < LANDING {
            layout.low + rng.under(layout.high - layout.low + 1)
        } else if known.is_empty() {
            0
        } else {
            rng.pick(&known)
        };
        *instruction = Instr::Set { d, v }.word();
    }
    words
}

/// Counts the instructions that the sandbox could alter.
fn note_instruction(tally: &mut Tally, words: &[u64], at: u32) {
    let instr = words
        .get(at as usize)
        .and_then(|&word| Instr::of_kind(fields(word)));
    let access = matches!(instr, Some(Instr::Load { .. } | Instr::Store { .. }));
    tally.note("LOADs and STOREs", u64::from(access));
    let jump = matches!(instr, Some(Instr::GoX { .. }));
    tally.note("GOXs", u64::from(jump));
}

/// 'The caged run, newly installed, from the same registers, sandbox and
/// readings has after equally many instructions the same records, the same r0 to
/// r14 and sandbox, and the same ending or none.' This holds while the routine
/// behaves well, whatever it does afterwards.
#[test]
fn honest_routines_are_not_disturbed() {
    let (mut tally, mut rng) = Tally::new("honest routines", 32);
    for _ in 0..cases(2_000) {
        let n = length(&mut rng).max(12);
        let layout = right_layout(&mut rng, bundles(n));
        let landings = landings(&mut rng);
        let words = honest_routine(&mut rng, &layout, n, &landings);
        let commands = rewritten(&layout, &words);
        let arrows = rng.pick(&[70, 95, 100]);
        let policy = policy(&mut rng, layout.states, arrows);
        let policy = policy.lend();
        let readings = rng.cells(300);
        let mut cells = rng.cells(layout.size as usize);
        let sandbox = layout.low as usize..=layout.high as usize;
        let own = cells[sandbox.clone()].to_vec();
        let mut raw = Guest::new(&layout, &words, &policy, &landings, &readings, own).raw();
        let (answer, machine) = native::install(&layout, &policy, &landings, &mut cells);
        assert_eq!(answer, Answer::Taken(0));
        let mut world = World::new(native::run, &layout, &commands, machine, cells.clone());
        let mut engine = Engine::FIRST;
        for _ in 0..200 {
            if !raw.behaves() {
                tally.note("routines that misbehave in the end", 1);
                break;
            }
            note_instruction(&mut tally, &words, raw.at);
            let from = raw.used;
            let status = raw.step();
            // 'A pause is no instruction, and a run that can go on follows it.'
            if rng.chance(20) {
                let ending = world.bundle(&readings[..from], 0);
                let pauses = matches!(ending, Ending::LogFull | Ending::Silent);
                tally.note("pauses", u64::from(pauses));
                if pauses {
                    let _ = world.bundle(&readings, 2);
                }
            } else {
                let _ = world.bundle(&readings, 2);
            }
            let mut log = [0; 2];
            let left = &readings[from..];
            let answer =
                native::engine(&layout, &words, &mut engine, &mut cells, 1, left, &mut log);
            assert_eq!(answer.instructions, 1);
            if answer.pairs == 1 {
                assert_eq!(raw.records.last(), Some(&(log[0], log[1])));
                tally.note("orders", u64::from(log[0] < ORDERS));
                tally.note("readings", u64::from(log[0] >= ORDERS));
            }
            assert_eq!((&world.records, world.used), (&raw.records, raw.used));
            assert_eq!(raw.used, from + answer.readings as usize);
            let regs = &world.machine.regs[..GUEST_REGISTERS as usize];
            assert_eq!((regs, engine.regs), (&raw.regs[..], raw.regs));
            assert_eq!(world.memory[sandbox.clone()], raw.sandbox);
            assert_eq!(cells[sandbox.clone()], raw.sandbox);
            assert_eq!((world.machine.status, engine.status), (status, status));
            tally.add("instructions", 1);
            if status != Status::Running {
                assert_eq!(status, Status::Ended);
                tally.note("routines that end", 1);
                break;
            }
            assert_eq!(
                (engine.at, world.machine.pc),
                (raw.at, layout.base + 4 * raw.at)
            );
        }
    }
    tally.conclude(&[]);
}
