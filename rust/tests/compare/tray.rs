//! The sample tray and the `trial` sample of the rules, on the model.

use crate::common::inputs::{
    all_landings, trial_policy, SomePolicy, SAMPLE, TRIAL, TRIAL_READINGS,
};
use hemdroas::model::{
    bundles, check, install, layout_right, mask, read, rewrite, run, write, Command, Instr,
};
use hemdroas::names::{HIDDEN, REGISTERS, UNLIMITED};
use hemdroas::{Answer, Ending, Layout, Machine, Refusal, RunAnswer};

fn sandbox(low: u32, high: u32) -> Layout {
    Layout {
        size: 1024,
        low,
        high,
        cell: 0,
        table: 16,
        states: 1,
        base: 0,
        landings: 32,
        ceilings: UNLIMITED,
    }
}

fn refused(refusal: Refusal, place: u32) -> Answer {
    Answer::Refused { refusal, place }
}

#[test]
fn addresses_mask_into_the_sandbox() {
    let layout = sandbox(256, 511);
    for (address, masked) in [(5, 261), (416, 416), (768, 256), (u32::MAX, 511)] {
        assert_eq!(mask(&layout, address), masked);
    }
    assert_eq!(mask(&sandbox(7, 7), 0), 7);
}

#[test]
fn a_sandbox_is_one_aligned_power_of_two() {
    let crooked = sandbox(6, 9);
    assert_eq!(mask(&crooked, 9), 15);
    assert_eq!(check(&crooked, &[]), refused(Refusal::BadLayout, 0));
    let fitting = Layout {
        size: 64,
        ..sandbox(8, 15)
    };
    assert!(layout_right(&fitting));
    assert!(!layout_right(&Layout {
        high: 13,
        ..fitting
    }));
}

#[test]
fn a_layout_is_right_up_to_each_of_its_bounds() {
    let right = Layout {
        size: 50,
        low: 49,
        high: 49,
        cell: 16,
        table: 0,
        states: 1,
        base: 0,
        landings: 17,
        ceilings: UNLIMITED,
    };
    assert!(layout_right(&right));
    let wrong = [
        Layout { size: 49, ..right },
        Layout {
            size: 4097,
            ..right
        },
        Layout { states: 0, ..right },
        Layout {
            size: 4096,
            table: 100,
            states: 17,
            ..right
        },
        Layout { cell: 15, ..right },
        Layout { cell: 17, ..right },
        Layout { cell: 48, ..right },
        Layout { cell: 49, ..right },
        Layout { cell: 50, ..right },
        Layout {
            landings: 16,
            ..right
        },
        Layout {
            landings: 18,
            ..right
        },
        Layout {
            landings: 0,
            ..right
        },
        Layout {
            landings: u32::MAX - 31,
            ..right
        },
        Layout { table: 1, ..right },
        Layout {
            table: u32::MAX - 15,
            ..right
        },
        Layout { low: 50, ..right },
        Layout {
            low: 0,
            high: u32::MAX,
            ..right
        },
    ];
    for layout in wrong {
        assert!(!layout_right(&layout), "{layout:?}");
    }
    // Every code base is right in a layout, odd ones too.
    for base in [1, 65_532, 65_535, 65_536, 65_537, u32::MAX - 3, u32::MAX] {
        assert!(layout_right(&Layout { base, ..right }));
    }
    // So is every ceiling.
    for ceiling in [0, 1, u32::MAX] {
        let ceilings = [ceiling; 8];
        assert!(layout_right(&Layout { ceilings, ..right }));
    }
    // The largest numbers of all.
    assert!(layout_right(&Layout {
        size: 4096,
        low: 2048,
        high: 4095,
        cell: 256,
        table: 0,
        states: 16,
        base: 0,
        landings: 257,
        ceilings: UNLIMITED,
    }));
}

/// Rewrites, checks, installs and runs a routine under a layout. Gives the
/// registers, the pc and the run's answer.
fn perform(
    layout: &Layout,
    routine: &[Instr],
    landings: &[u32],
    budget: u32,
) -> ([u32; REGISTERS], u32, RunAnswer) {
    let words: Vec<u64> = routine.iter().map(|instr| instr.word()).collect();
    let mut commands = vec![0; 4 * bundles(words.len())];
    assert_eq!(
        rewrite(layout, &words, &mut commands),
        Answer::Taken(commands.len() as u32)
    );
    assert_eq!(check(layout, &commands), Answer::Taken(0));
    let policy = SomePolicy {
        states: layout.states,
        start: 0,
        table: vec![0; 16 * layout.states as usize],
    };
    let mut memory = vec![0; layout.size as usize];
    let (answer, mut machine) = install(layout, &policy.lend(), landings, &mut memory);
    assert_eq!(answer, Answer::Taken(0));
    let answer = run(
        layout,
        &commands,
        &mut machine,
        &mut memory,
        budget,
        &[],
        &mut [],
    );
    (machine.regs, machine.pc, answer)
}

/// SET r1,target; GOX r1; and HALTs to make eight bundles.
fn jump_to(target: u32) -> [Instr; 4] {
    let (a, b, c) = (0, 0, 0);
    let jump = Instr::GoX { d: 1, a, b, c };
    [
        Instr::Set { d: 1, v: target },
        jump,
        Instr::Halt,
        Instr::Halt,
    ]
}

#[test]
fn a_jump_through_a_register_reaches_the_first_command_of_a_bundle() {
    let layout = Layout {
        base: 32,
        ..sandbox(256, 511)
    };
    for target in [3, 11, 0x4000_0003] {
        let routine = jump_to(target);
        // One command and three NOPs, then the four of the jump.
        let (_, pc, answer) = perform(&layout, &routine, &[3], 8);
        assert_eq!((pc, answer.ending), (44, Ending::Spent));
        // Without landing 3 it stops at the jump, which counts as a step.
        let (regs, pc, answer) = perform(&layout, &routine, &[4], 100);
        assert_eq!((pc, answer.ending), (39, Ending::NoLanding));
        assert_eq!((answer.steps, regs[HIDDEN as usize]), (8, 44));
    }
    // With landing 3 only, a jump to 4 stops.
    let (_, pc, answer) = perform(&layout, &jump_to(4), &[3], 100);
    assert_eq!((pc, answer.ending), (39, Ending::NoLanding));
    let base = Layout { base: 16, ..layout };
    assert_eq!(
        rewrite(&base, &[0; 4], &mut [0; 32]),
        refused(Refusal::BadBase, 0)
    );
    assert_eq!(check(&base, &[0; 32]), refused(Refusal::BadBase, 0));
}

#[test]
fn shifts_and_comparisons_know_the_sign() {
    let layout = sandbox(256, 511);
    let shift = |value: i32, by: u32| {
        let words = [
            Instr::Set {
                d: 1,
                v: value as u32,
            },
            Instr::Sar { d: 2, a: 1, v: by },
        ];
        let (regs, _, answer) = perform(&layout, &words, &[], 100);
        assert_eq!(answer.ending, Ending::Done);
        regs[2] as i32
    };
    assert_eq!(shift(-7, 1), -4);
    assert_eq!(shift(i32::MIN, 31), -1);

    let holds = |condition: u32| {
        let words = [
            Instr::Set { d: 1, v: u32::MAX },
            Instr::GoIf {
                a: 1,
                b: 0,
                c: condition,
                v: 3,
            },
            Instr::Set { d: 2, v: 1 },
        ];
        perform(&layout, &words, &[], 100).0[2] == 0
    };
    assert!(holds(3), "-1 is less than 0");
    assert!(!holds(2), "-1 is not below 0");
    assert!(!holds(1));
    assert!(holds(0));
}

#[test]
fn a_silent_probe_is_reported_before_a_full_log() {
    // Without log and readings, an order pauses for the log, a reading event for the probe.
    for (event, ending) in [
        (0, Ending::LogFull),
        (7, Ending::LogFull),
        (8, Ending::Silent),
        (15, Ending::Silent),
    ] {
        let words = [Instr::Event { v: event }];
        let (_, _, answer) = perform(&sandbox(256, 511), &words, &[], 100);
        assert_eq!((answer.ending, answer.steps), (ending, 2));
    }
}

#[test]
fn a_field_that_is_zero_is_absent() {
    let set_200: [u8; 9] = [1, 0, 0x23, 0x01, 0x01, 0xc8, 0, 0, 0];
    let mut words = [0; 1];
    assert_eq!(read(&set_200, &mut words), Answer::Taken(1));
    assert_eq!(words, [Instr::Set { d: 1, v: 200 }.word()]);
    let mut bytes = [0; 9];
    assert_eq!(write(&words, &mut bytes), Answer::Taken(9));
    assert_eq!(bytes, set_200);

    let mut bytes = [0; 9];
    let set_0 = [Instr::Set { d: 0, v: 0 }.word()];
    assert_eq!(write(&set_0, &mut bytes), Answer::Taken(4));
    assert_eq!(bytes[..4], [1, 0, 0x01, 0x01]);
    assert_eq!(read(&bytes[..4], &mut words), Answer::Taken(1));
    assert_eq!(words, set_0);

    let padded = [1, 0, 0x23, 0x01, 0x01, 0, 0, 0, 0];
    assert_eq!(read(&padded, &mut words), refused(Refusal::Foreign, 0));
}

#[test]
fn bundles_are_the_smallest_power_of_two_above() {
    assert_eq!([0, 255, 256, 1023].map(bundles), [1, 256, 512, 1024]);
    let mut commands = [7; 5];
    assert_eq!(
        rewrite(&sandbox(256, 511), &[], &mut commands),
        Answer::Taken(4)
    );
    assert_eq!(commands, [Command::Halt.word(), 0, 0, 0, 7]);
}

#[test]
fn the_longest_routine_has_1023_instructions() {
    // Every HALT is a single map byte.
    let bytes = |n: u16| {
        let mut bytes = n.to_le_bytes().to_vec();
        bytes.resize(2 + usize::from(n), 0);
        bytes
    };
    let mut words = [9; 1024];
    assert_eq!(
        read(&bytes(1024), &mut words),
        refused(Refusal::Oversize, 0)
    );
    assert_eq!(words, [9; 1024]);
    assert_eq!(read(&bytes(1023), &mut words), Answer::Taken(1023));
    assert_eq!(words[..1023], [0; 1023]);
    assert_eq!(words[1023], 9);

    let layout = sandbox(256, 511);
    let mut commands = vec![0; 4096];
    assert_eq!(
        rewrite(&layout, &words[..1023], &mut commands),
        Answer::Taken(4096)
    );
    assert_eq!(
        rewrite(&layout, &words, &mut commands),
        refused(Refusal::Oversize, 0)
    );
    assert_eq!(write(&words, &mut []), refused(Refusal::Oversize, 0));
}

/// What `trial` prints for a routine, computed by the model.
fn trial(bytes: &[u8]) -> String {
    let rejected = |answer: Answer| format!("answer {}\n", answer.number());
    let mut words = [0; 1023];
    let count = match read(bytes, &mut words) {
        Answer::Taken(count) => count as usize,
        answer => return rejected(answer),
    };
    let mut commands = [0; 4096];
    let size = match rewrite(&TRIAL, &words[..count], &mut commands) {
        Answer::Taken(size) => size as usize,
        answer => return rejected(answer),
    };
    let commands = &commands[..size];
    let answer = check(&TRIAL, commands);
    if !answer.is_taken() {
        return rejected(answer);
    }
    let mut memory = [0; 1024];
    let policy = trial_policy();
    let (answer, mut machine) = install(&TRIAL, &policy.lend(), &all_landings(), &mut memory);
    if !answer.is_taken() {
        return rejected(answer);
    }
    let mut log = [0; 64];
    let answer = run(
        &TRIAL,
        commands,
        &mut machine,
        &mut memory,
        1000,
        &TRIAL_READINGS,
        &mut log,
    );
    let mut text = "answer 0\n".to_string();
    for pair in log.chunks_exact(2).take(answer.pairs as usize) {
        text += &format!("event {} {}\n", pair[0], pair[1]);
    }
    let (ending, steps, state) = (answer.ending.number(), answer.steps, memory[0]);
    text + &format!("end {ending} steps {steps} state {state}\n")
}

#[test]
fn trial_prints_the_sample() {
    assert_eq!(
        trial(&SAMPLE),
        "answer 0\nevent 0 70\nevent 2 70\nend 21 steps 14 state 1\n"
    );
    assert_eq!(trial(&SAMPLE[..17]), "answer 1\n");
    assert_eq!(trial(&[0, 0]), "answer 0\nend 20 steps 1 state 0\n");
    // 1,023 instructions need a code base that is a multiple of 4,096.
    let mut longest = vec![0xff, 0x03];
    longest.resize(1025, 0);
    assert_eq!(trial(&longest), "answer 0\nend 20 steps 1 state 0\n");
}

#[test]
fn a_refused_installation_yields_a_faulted_machine() {
    let mut memory = [5; 1024];
    let policy = SomePolicy {
        start: 2,
        ..trial_policy()
    };
    let (answer, machine) = install(&TRIAL, &policy.lend(), &[], &mut memory);
    assert_eq!(answer, refused(Refusal::BadPolicy, 0));
    assert_eq!(memory, [5; 1024]);
    assert_eq!(machine, Machine::REFUSED);
}

#[test]
fn refusals_and_endings_print_as_the_words_of_the_tables() {
    let printed = |number: u32| match Refusal::from_number(number) {
        Some(refusal) => refusal.to_string(),
        None => Ending::from_number(number).map_or(String::new(), |ending| ending.to_string()),
    };
    assert_eq!(printed(1), "short weight");
    assert_eq!(printed(4), "off grade");
    assert_eq!(printed(9), "small hopper");
    assert_eq!(printed(14), "bad landing list");
    assert_eq!(printed(20), "ended");
    assert_eq!(printed(24), "probe silent");
    assert_eq!(printed(26), "no landing");
    for number in Refusal::ALL.iter().map(|refusal| refusal.number()) {
        assert_eq!(
            Refusal::from_number(number).map(Refusal::number),
            Some(number)
        );
    }
    assert_eq!(
        (Refusal::from_number(0), Ending::from_number(19)),
        (None, None)
    );
}
