//! run, preview and step.

use crate::common::inputs::{
    all_landings, bytes_of, rewritten, routine, trial_policy, TRIAL, TRIAL_READINGS,
};
use crate::common::{cases, seed, Rng};
use crate::{
    command, examples, file, folder, transcript, typed, with, Came, PROFILE, ROAST, SAMPLE,
};
use hemdroas::model::{self, bundles};
use hemdroas::Ending;
use std::collections::BTreeMap;
use std::fs;

#[test]
fn the_sample() {
    let readings = TRIAL_READINGS.map(|reading| reading.to_string()).join(",");
    let more = ["--readings", &readings];
    command(&with("run", SAMPLE, &more)).printed(4, include_str!("stored/sample.run"));
    command(&with("preview", SAMPLE, &more)).printed(4, include_str!("stored/sample.preview"));
    let all = ["--readings", &readings, "--all"];
    command(&with("step", SAMPLE, &all)).printed(4, include_str!("stored/sample.step"));
}

#[test]
fn the_roast() {
    let more = ["--readings", "1500 1800,1950, 2050 2100"];
    command(&with("run", ROAST, &more)).printed(0, include_str!("stored/roast.run"));
    let all = ["--readings", "1500 1800,1950, 2050 2100", "--all"];
    command(&with("step", ROAST, &all)).printed(0, include_str!("stored/roast.step"));
}

#[test]
fn bytes_run_as_their_text_does() {
    let folder = folder("run-bytes");
    let out = file(&folder, "bytes", "");
    command(&[
        "assemble",
        "roast.routine",
        "--drum",
        "roast.drum",
        "-o",
        &out,
    ])
    .printed(0, "");
    let readings = ["--readings", "1500,2000,2100"];
    let record = |routine| {
        let files = [routine, ROAST[1], ROAST[2], ROAST[3], ROAST[4]];
        let came = command(&with("run", files, &readings));
        assert_eq!(came.status, 0, "{}", came.error);
        came.out
            .lines()
            .filter(|line| !line.starts_with("at "))
            .map(str::to_string)
            .collect::<Vec<_>>()
    };
    assert_eq!(record(&out), record("roast.routine"));
}

#[test]
fn pauses_are_resumed_on_request() {
    let came = command(&with("run", ROAST, &[]));
    assert_eq!(came.status, 5);
    assert!(came.out.contains("ending 24 probe silent"), "{}", came.out);
    let answers = "1500\nnonsense\npreview 1960 2100\n1960 2000\n\n2200\n\n";
    let args = with("run", ROAST, &["--log", "6", "--resume"]);
    let (status, shown) = transcript("resumed", &args, answers);
    assert_eq!(
        (status, shown.as_str()),
        (0, include_str!("stored/roast.resumed"))
    );
    // The same pairs as in one run.
    let pairs = |text: &str| {
        let rows = text
            .lines()
            .filter(|line| line.ends_with(|c: char| c.is_ascii_digit()));
        let rows = rows
            .filter(|line| line.starts_with("  "))
            .map(str::to_string);
        rows.collect::<Vec<_>>()
    };
    let whole = command(&with("run", ROAST, &["--readings", "1500 1960 2000 2200"]));
    let resumed: Vec<String> = pairs(&shown);
    let resumed: Vec<String> = resumed[..3].iter().chain(&resumed[6..]).cloned().collect();
    assert_eq!(resumed, pairs(&whole.out));
    let came = typed(
        &with("run", SAMPLE, &["--budget", "5", "--resume"]),
        "1 2\n3\nstop\n",
    );
    assert_eq!(came.status, 5);
    assert!(
        came.out.contains("ending 25 spent: 8 steps"),
        "{}",
        came.out
    );
}

#[test]
fn a_full_log_keeps_the_readings() {
    let readings = ["--readings", "1500 1960 2000 2200"];
    let whole = command(&with("run", ROAST, &readings));
    let pairs = |text: &str| -> Vec<String> {
        let rows = text.lines().filter(|line| line.starts_with("    "));
        rows.map(str::to_string).collect()
    };
    for log in ["2", "3", "4", "6"] {
        let more = [&readings[..], &["--resume", "--log", log]].concat();
        let came = typed(&with("run", ROAST, &more), &"\n".repeat(20));
        assert_eq!(came.status, 0, "{}{}", came.out, came.error);
        assert_eq!(pairs(&came.out), pairs(&whole.out));
    }
}

#[test]
fn a_preview_asks_for_readings() {
    let came = typed(&with("preview", ROAST, &[]), "1990 2100\n");
    assert_eq!(came.status, 0, "{}", came.error);
    assert!(came.out.contains("ending 20 ended"), "{}", came.out);
    let (status, shown) = transcript(
        "asks-on",
        &with("preview", ROAST, &[]),
        "196.5\nhot\n1500\n1960\n2100\n",
    );
    assert_eq!(
        (status, shown.as_str()),
        (0, include_str!("stored/roast.asked"))
    );
}

#[test]
fn steps_are_asked_for() {
    let typed = "\n7\nnonsense\n2\n1800\n3\nstop\n";
    let (status, shown) = transcript("steps", &with("step", ROAST, &[]), typed);
    assert_eq!(
        (status, shown.as_str()),
        (5, include_str!("stored/roast.steps"))
    );
    let came = command(&with("step", SAMPLE, &[]));
    assert_eq!(came.status, 5);
    assert!(
        came.out.contains("left by you: 0 instructions"),
        "{}",
        came.out
    );
}

#[test]
fn other_endings() {
    let folder = folder("endings");
    let files = |routine| [routine, SAMPLE[1], SAMPLE[2], SAMPLE[3], SAMPLE[4]];
    let forever = file(&folder, "forever", "loop: GOIF always, loop\n");
    let came = command(&with("run", files(&forever), &["--budget", "7"]));
    assert_eq!(came.status, 5);
    assert!(
        came.out.contains("ending 25 spent: 7 steps"),
        "{}",
        came.out
    );
    let came = command(&with("step", files(&forever), &["--budget", "7", "--all"]));
    assert!(
        came.out.contains("ending 25 spent: 7 instructions"),
        "{}",
        came.out
    );
    let drum =
        include_str!("../../../examples/sample.drum").replace("landings all", "landings none");
    let none = file(&folder, "none.drum", drum);
    let jump = file(&folder, "jump", "GOX r1, always\n");
    for name in ["run", "step"] {
        let more: &[&str] = if name == "step" { &["--all"] } else { &[] };
        let came = command(&with(
            name,
            [&jump, "--drum", &none, "--policy", "sample.policy"],
            more,
        ));
        assert_eq!(came.status, 4);
        assert!(came.out.contains("ending 26 no landing"), "{}", came.out);
    }
    let empty = file(&folder, "empty", "# nothing\n");
    let came = command(&with("run", files(&empty), &[]));
    assert_eq!(came.status, 0, "{}", came.error);
}

#[test]
fn ceilings_of_drum_and_policy() {
    let folder = folder("ceilings");
    let drum = format!(
        "{}ceiling gas 60\n",
        include_str!("../../../examples/sample.drum")
    );
    let drum = file(&folder, "drum", drum);
    let policy = format!(
        "{}ceiling gas 65\nceiling door 1\n",
        include_str!("../../../examples/sample.policy")
    );
    let policy = file(&folder, "policy", policy);
    let came = command(&with(
        "run",
        ["sample.routine", "--drum", &drum, "--policy", &policy],
        &[],
    ));
    assert!(
        came.out
            .contains("0 gas           60  limited by the ceiling, r0 is 70\n    2  2 door           1  limited by the ceiling, r0 is 70\n"),
        "{}",
        came.out
    );
}

/// The steps and pairs of random routines are the model's.
#[test]
fn the_command_runs_as_the_model_does() {
    let folder = folder("random");
    let mut rng = Rng::new(seed(29));
    let mut endings = BTreeMap::new();
    for _ in 0..cases(200) {
        let n = rng.between(1, 30);
        let words = routine(&mut rng, &TRIAL, n);
        let path = file(&folder, "routine", bytes_of(&words));
        let mut commands = rewritten(&TRIAL, &words);
        commands.truncate(4 * bundles(n));
        let policy = trial_policy();
        let mut memory = vec![0; 1024];
        let (_, mut machine) = model::install(&TRIAL, &policy.lend(), &all_landings(), &mut memory);
        let mut log = vec![0; 64];
        let readings = TRIAL_READINGS;
        let answer = model::run(
            &TRIAL,
            &commands,
            &mut machine,
            &mut memory,
            500,
            &readings,
            &mut log,
        );
        let files = [path.as_str(), SAMPLE[1], SAMPLE[2], SAMPLE[3], SAMPLE[4]];
        let more = ["--readings", "1800,1950,2100", "--budget", "500"];
        let expected = format!(
            "ending {} {}: {} steps, {} pairs, {} readings used\n",
            answer.ending.number(),
            answer.ending,
            answer.steps,
            answer.pairs,
            answer.readings
        );
        for name in ["run", "preview"] {
            let came = command(&with(name, files, &more));
            assert!(
                came.out.contains(&expected),
                "{expected}{}{}",
                came.out,
                came.error
            );
            let status = match answer.ending {
                Ending::Done => 0,
                Ending::LogFull | Ending::Silent | Ending::Spent => 5,
                _ => 4,
            };
            assert_eq!(came.status, status);
            let values = came
                .out
                .lines()
                .filter(|line| line.starts_with("    ") || line.starts_with("   "));
            let values = values.filter_map(|line| line.split_whitespace().last()?.parse().ok());
            let expected = log
                .chunks(2)
                .take(answer.pairs as usize)
                .map(|pair| pair[1]);
            assert_eq!(
                values.collect::<Vec<u32>>(),
                expected.collect::<Vec<u32>>(),
                "{}",
                came.out
            );
        }
        *endings.entry(answer.ending.number()).or_insert(0) += 1;
    }
    assert!(endings.len() >= 4, "{endings:?}");
}

#[test]
fn a_preview_with_a_typo_is_asked_for_again() {
    let came = typed(
        &with("run", ROAST, &["--resume"]),
        "preview x\npreview 150 2o\npreview 15.5\nstop\n",
    );
    assert_eq!(came.status, 5, "{}", came.error);
    assert!(!came.out.contains("preview"), "{}", came.out);
    for said in [
        "'x' is no number",
        "'2o' is no number",
        "'15.5' is no whole number",
    ] {
        came.ended(5, said);
    }
    assert_eq!(came.error.matches("readings of bean: ").count(), 4);
}

/// A comma may be a decimal comma where an event has a scale: who types it is asked
/// again. Elsewhere it separates readings, and that is said.
#[test]
fn a_comma_between_digits_is_not_taken_silently() {
    let again = "'196,5' may be one reading or two: write 196.5, or 196 5";
    let shown = |typed: &str| format!("bean          {typed}");
    let lines = "196,5\n196.5 197, 198\n150,175\nstop\n";
    for (args, lines) in [
        (with("preview", PROFILE, &[]), lines.replace("stop", "")),
        (
            with("run", PROFILE, &["--resume"]),
            format!("preview 196,5\n{lines}"),
        ),
        (
            with("step", PROFILE, &[]),
            format!("until charge\n{lines}stop\n"),
        ),
    ] {
        let came = typed(&args, &lines);
        came.ended(came.status, again);
        assert_eq!(
            came.error.matches(again).count(),
            lines.matches("196,5").count()
        );
        let is_readings = args[0] != "step" || came.out.contains(&shown("150.0"));
        assert!(is_readings, "{}", came.out);
        for reading in ["196.5", "197.0", "198.0"] {
            assert!(came.out.contains(&shown(reading)), "{args:?}: {}", came.out);
        }
        assert!(!came.out.contains("196.0"), "{}", came.out);
    }
    // As an option's value it is refused; what cannot be a decimal is taken.
    for name in ["preview", "run", "step"] {
        command(&with(name, PROFILE, &["--readings=150 196,5"]))
            .ended(2, &format!("--readings: {again}"));
        let came = command(&with(name, PROFILE, &["--readings=150,175 190"]));
        assert_eq!(came.status, 5, "{}", came.error);
    }
    let came = command(&with("preview", ROAST, &["--readings=196,5"]));
    assert!(came.out.contains("2 readings used"), "{}", came.out);
    let came = typed(&with("preview", ROAST, &[]), "196,5\n\n");
    came.ended(5, "'196,5' is taken as two readings, 196 and 5");
    assert!(came.out.contains("2 readings used"), "{}", came.out);
}

#[test]
fn a_lesson_takes_its_commands_where_a_reading_is_asked_for() {
    let asked = "all\nwhat\nstate\nregs\ncells\nrecord\nhelp\nbreak door\nback\n\nuntil 19\n2000\n\n2100\nstop\n";
    let came = typed(&with("step", ROAST, &[]), asked);
    for said in [
        "bean reads the probe into r0 and records it",
        "\nstate 1 roasting\n",
        "r10 0",
        "Enter, or a number  takes one instruction",
        "breaks: event door",
        "at instruction 7, line ",
        "until line 19\n",
        "    3  8 bean           2000\n",
    ] {
        assert!(came.out.contains(said), "{said}\nis not in\n{}", came.out);
    }
    assert!(!came.error.contains("is not known"), "{}", came.error);
    let came = typed(&with("step", ROAST, &[]), "all\nhot\n-\n");
    came.ended(5, "'hot' is not known; 'help' lists what is known");
}

#[test]
fn reasons_name_what_is_meant() {
    let folder = folder("reasons");
    let run = |text: &str, drum: &str, more: &[&str]| {
        let (routine, drum) = (file(&folder, "text", text), file(&folder, "drum", drum));
        let args = ["run", &routine, "--drum", &drum, "--policy=profile.policy"];
        command(&[&args[..], more].concat())
    };
    let drum = fs::read_to_string(examples().join("profile.drum")).unwrap();
    let text = "SET r3, 7\nGOX r3, always\nlanding HALT\n";
    let why = |came: &Came, said: &str| assert!(came.out.contains(said), "{}", came.out);
    let came = run(text, &drum, &[]);
    why(&came, "why: r3 is 7, modulo 4: it would go to instruction 3, which is no landing; the landings are 2\n");
    let came = run(
        text,
        &drum.replace("landings routine", "landings none"),
        &[],
    );
    why(&came, "which is no landing; there are no landings\n");
    let came = typed(
        &with(
            "run",
            PROFILE,
            &["--budget=10", "--resume", "--readings=150 175"],
        ),
        "20\nstop\n",
    );
    why(&came, "why: the budget of 30 steps is used up");
    let came = typed(&with("preview", PROFILE, &[]), ".5\n5.\n");
    came.ended(5, "'.5' is no number; write 0.5");
    came.ended(5, "'5.' is no number; write 5");
    command(&["check", "sample.routine", "--drum="]).ended(2, "--drum wants a value");
    let text = file(
        &folder,
        "text",
        "SET r1, 5\nSTORE r1, r1\nSET r1, 300\nSTORE r1, r1\n",
    );
    let args = [
        "step",
        &text,
        "--drum=profile.drum",
        "--policy=profile.policy",
    ];
    let came = typed(&args, "1\nwhat\n2\nwhat\nstop\n");
    why(
        &came,
        "address 5 (r1) lies outside the sandbox: cell 261 is used\n",
    );
    why(&came, "address 300 (r1) lies in the sandbox\n");
}

/// What is typed at a pause and is no number of steps is asked for again.
#[test]
fn a_budget_is_not_negative() {
    let came = typed(
        &with("run", PROFILE, &["--resume", "--budget=9"]),
        "-1\n1 2\n4294967296\n0\nstop\n",
    );
    came.ended(
        5,
        "'-1' is no number of steps; 'preview NUMBERS' and 'stop' are known",
    );
    came.ended(5, "one number of steps, or none for the same again*");
    came.ended(5, "'4294967296' has more than 32 bits*");
    assert!(
        came.out.contains("ending 25 spent: 9 steps"),
        "{}",
        came.out
    );
}
