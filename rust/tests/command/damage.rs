//! Damaged files, bad usage, and places that cannot be written.

use crate::common::{cases, seed, Rng};
use crate::{command, file, folder, typed};
use hemdroas::text::{assemble, drum, policy, Names};
use std::fs;
use std::process::{Command, Stdio};

const DRUM: &str = include_str!("../../../examples/sample.drum");
const POLICY: &str = include_str!("../../../examples/sample.policy");

#[test]
fn drums() {
    let folder = folder("drums");
    let said = [
        (DRUM.replace("U 1024", ""), "U is missing"),
        (DRUM.replace("landings all", ""), "landings are missing"),
        (
            DRUM.replace("U 1024", "U many"),
            ":2:*: error: 'many' is no number",
        ),
        (
            DRUM.replace("U 1024", "U 1024 5"),
            ":2:1: error: U wants one number",
        ),
        (
            DRUM.replace("M 0", "U 1024"),
            ":5:*: error: U stands twice, first in line 2",
        ),
        (
            DRUM.replace("event 2", "event 16"),
            ":12:*: error: 16 is no event",
        ),
        (
            DRUM.replace("event 2 door", "event 2 gas"),
            ":12:*: error: 'gas' is the name of another event",
        ),
        (
            DRUM.replace("event 2 door", "event 0 door"),
            ":12:*: error: event 0 has the name 'gas'",
        ),
        (
            DRUM.replace("event 2 door", "event 2 start"),
            ":12:*: error: 'start' cannot be a name",
        ),
        (
            DRUM.replace("all", "5-3"),
            ":10:*: error: '5-3' is no range",
        ),
        (
            DRUM.replace("all", "0-1024"),
            ":10:*: error: '0-1024' is no range",
        ),
        (
            format!("{DRUM}ceiling gas 5\nceiling 0 6\n"),
            ":14:*: error: the ceiling of '0' stands twice",
        ),
        (
            format!("{DRUM}ceiling 8 5\n"),
            ":13:*: error: '8' is no order",
        ),
        (
            format!("{DRUM}ceiling fire 5\n"),
            ":13:*: error: no event is named 'fire'",
        ),
        (
            DRUM.replace("SH 511", "SH 510"),
            ":4:*SH - SL + 1, which is no power of two; refused as bad layout (7)",
        ),
        (
            DRUM.replace("U 1024", "U 4294967295"),
            ":2:*not from 1 to 4096; refused as bad layout (7)",
        ),
        (
            DRUM.replace("Q 64", "Q 40"),
            ":9:*the table and the landing cells share cell 40; refused as bad layout (7)",
        ),
        (
            DRUM.replace("B 4096", "B 4098"),
            ":8:*refused as bad base (13)",
        ),
        (
            DRUM.replace("all", "3 2"),
            ":10:*refused as bad landing list (14)",
        ),
        (
            DRUM.replace("all", "1024"),
            ":10:*refused as bad landing list (14)",
        ),
        (
            DRUM.replace("S 2", "S 3"),
            "it has 2 states, and S of *; refused as bad policy (10)",
        ),
        (
            format!("{}\n", "#".repeat(1001)),
            ":1:*: error: longer than 1000 characters",
        ),
    ];
    for (text, expected) in said {
        let drum = file(&folder, "drum", text);
        for name in ["check", "run", "preview", "step"] {
            let args = [
                name,
                "sample.routine",
                "--drum",
                &drum,
                "--policy",
                "sample.policy",
            ];
            typed(&args, "").refused(expected);
        }
    }
    let damaged = file(
        &folder,
        "damaged",
        [b"U 1024\nSL ".as_slice(), &[0xff, 0xfe, b'\n']].concat(),
    );
    command(&["forward", "sample.routine", "--drum", &damaged])
        .refused(":2:4: error: not UTF-8 text");
    let tall = file(&folder, "tall", "#\n".repeat(600_000));
    command(&["forward", "sample.routine", "--drum", &tall]).ended(3, "longer than 1048576 bytes");
}

#[test]
fn policies() {
    let folder = folder("policies");
    let said = [
        (String::new(), "no policy"),
        (
            POLICY.replace("door -> opened", "door -> ajar"),
            ":3:*: error: no state is named 'ajar'",
        ),
        (
            POLICY.replace("door -> opened", "flap -> opened"),
            ":3:*: error: no event is named 'flap'",
        ),
        (
            POLICY.replace("door -> opened", "16 -> opened"),
            ":3:*: error: 16 is no event",
        ),
        (
            POLICY.replace("door -> opened", "door -> opened shut"),
            ":3:*: error: several arrows",
        ),
        (
            POLICY.replace("start shut", "start shut opened"),
            ":8:*: error: one start",
        ),
        (
            POLICY.replace("start shut", "start ajar"),
            ":8:*: error: no state is named 'ajar'",
        ),
        (
            POLICY.replace("start shut", "start shut\nstart shut"),
            ":9:*: error: a second line with the start",
        ),
        (
            POLICY.replace("state opened", "state shut"),
            ":5:*: error: the state 'shut' stands twice",
        ),
        (
            POLICY.replace("state opened", "state none"),
            ":5:*: error: 'none' cannot be a name",
        ),
        (
            POLICY.replace("gas -> none", "others -> none"),
            ":7:*: error: 'others' stands twice here",
        ),
        (
            POLICY.replace("gas -> none", "gas none"),
            ":6:3: error: -> or before is missing after 'gas'",
        ),
        (
            POLICY.replace("gas -> none", "gas->none"),
            ":6:3: error: blanks stand around ->",
        ),
        (
            format!("gas -> shut\n{POLICY}"),
            ":1:*: error: an arrow stands under its state",
        ),
        (
            format!("{POLICY}gas before door\n"),
            ":9:*: error: states and pairs do not mix",
        ),
        (
            "gas before 300\n".to_string(),
            ":1:*: error: 300 is no event",
        ),
        (
            format!("{}2 before 3\n4 before 5\n", "0 before 1\n".repeat(50_000)),
            ":50002:*refused as bad pair (17)",
        ),
        (
            "state a\n".repeat(2),
            ":2:*: error: the state 'a' stands twice",
        ),
        (
            "0 before 1\n2 before 3\n4 before 5\n".to_string(),
            ":3:*refused as bad pair (17)",
        ),
        (
            "state a\nstate b\nstate c\n".to_string(),
            "refused as bad policy (10)",
        ),
    ];
    for (text, expected) in said {
        let policy = file(&folder, "policy", text);
        for name in ["check", "run", "step"] {
            let args = [
                name,
                "sample.routine",
                "--drum",
                "sample.drum",
                "--policy",
                &policy,
            ];
            typed(&args, "").refused(expected);
        }
        if !expected.ends_with("(10)") {
            command(&["policy", "show", &policy, "--drum", "sample.drum"]).refused(expected);
            command(&["policy", "draw", &policy, "--drum", "sample.drum"]).refused(expected);
        }
    }
}

#[test]
fn files_that_cannot_be_read() {
    let folder = folder("unread");
    command(&["list", "no-such-file"]).ended(3, "no-such-file: No such file");
    command(&["list", folder.to_str().unwrap()]).ended(3, "Is a directory");
    command(&["check", "sample.routine", "--drum", "no-such.drum"]).ended(3, "no-such.drum");
    let long = file(&folder, "long", format!("SET r1, {}\n", "9".repeat(2000)));
    command(&["assemble", &long, "-o", "-"]).refused(":1:*: error: longer than 1000 characters");
    let latin = file(&folder, "latin", b"HALT\nSET r1, 2\xb0\n");
    command(&["assemble", &latin, "-o", "-"]).refused(":2:10: error: not UTF-8 text");
    command(&["check", "/dev/zero", "--drum", "sample.drum"]).ended(3, "longer than");
}

#[test]
fn places_that_cannot_be_written() {
    let folder = folder("unwritten");
    let assemble = ["assemble", "sample.routine", "--drum", "sample.drum", "-o"];
    let to = |out: &str| command(&[&assemble[..], &[out]].concat());
    to("/dev/full").ended(3, "No space left on device");
    to(folder.to_str().unwrap()).ended(3, "Is a directory");
    to(folder.join("no/such/folder").to_str().unwrap()).ended(3, "No such file");
    assert_eq!(
        fs::read_dir(&folder).unwrap().count(),
        0,
        "nothing is left behind"
    );
    let sample = [
        "sample.routine",
        "--drum",
        "sample.drum",
        "--policy",
        "sample.policy",
    ];
    let all: [&[&str]; 7] = [
        &["run"],
        &["preview", "--readings", "1"],
        &["step", "--all"],
        &["check"],
        &["policy", "show"],
        &["policy", "draw"],
        &["--help"],
    ];
    for words in all {
        let mut args = words.to_vec();
        match words[0] {
            "policy" => args.extend(["sample.policy", "--drum", "sample.drum"]),
            "--help" => (),
            _ => args.extend(sample),
        }
        let full = fs::File::options().write(true).open("/dev/full").unwrap();
        let output = Command::new(env!("CARGO_BIN_EXE_hemdroas"))
            .args(&args)
            .current_dir(crate::examples())
            .stdin(Stdio::null())
            .stdout(full)
            .output()
            .expect("the command runs");
        let error = String::from_utf8(output.stderr).unwrap();
        assert_eq!(output.status.code(), Some(3), "{args:?}: {error}");
        assert!(
            error.contains("standard output: No space left on device"),
            "{args:?}: {error}"
        );
    }
}

#[test]
fn refusals_leave_files_as_they_were() {
    let folder = folder("kept");
    let out = file(&folder, "out", "precious");
    let bad = file(&folder, "bad", "SET r15, 1\n");
    command(&["assemble", &bad, "-o", &out]).refused("r15 is hidden*refused as off grade (4)");
    command(&["policy", "merge", &bad, &bad, "-o", &out]).refused(":1:1: error: ");
    command(&["policy", "draw", &bad, "-o", &out]).refused(":1:1: error: ");
    assert_eq!(fs::read_to_string(&out).unwrap(), "precious");
}

#[test]
fn bad_usage() {
    let uses: [&[&str]; 22] = [
        &["check", "-", "-", "--drum", "sample.drum"],
        &["check", "sample.routine", "--drum=-", "--policy=-"],
        &["help", "roast"],
        &["forward", "sample.routine", "--json=yes"],
        &[
            "assemble",
            "sample.routine",
            "-o=-",
            "--drum=sample.drum",
            "--",
            "sample.drum",
        ],
        &[
            "run",
            "sample.routine",
            "--drum=sample.drum",
            "--policy=sample.policy",
            "--readings=hot",
        ],
        &[],
        &["roast"],
        &["policy", "burn", "sample.policy"],
        &["assemble"],
        &["assemble", "sample.routine"],
        &["assemble", "sample.routine", "sample.drum", "-o", "-"],
        &["assemble", "sample.routine", "-o"],
        &["list", "sample.routine", "--all"],
        &["list", "--bundles", "sample.routine"],
        &["check", "sample.routine"],
        &["run", "sample.routine", "--drum", "sample.drum"],
        &[
            "run",
            "sample.routine",
            "--drum",
            "sample.drum",
            "--drum",
            "sample.drum",
        ],
        &["run", "sample.routine", "--budget", "many"],
        &["run", "sample.routine", "--log", "-1"],
        &["preview", "sample.routine", "--readings", "hot"],
        &["policy", "merge", "sample.policy"],
    ];
    for args in uses {
        let came = command(args);
        assert_eq!(
            (came.status, came.out.as_str()),
            (2, ""),
            "{args:?}: {}",
            came.error
        );
        assert!(!came.error.is_empty(), "{args:?}");
    }
}

#[test]
fn an_option_is_no_value_of_another() {
    for line in ["--drum -o out", "--drum -o=out"] {
        let line = format!("assemble sample.routine {line}");
        let args: Vec<&str> = line.split(' ').collect();
        command(&args).ended(2, "hemdroas: --drum wants a value");
    }
    // Readings may be none, but only at the end or behind =.
    let run = "run sample.routine --drum sample.drum --policy sample.policy";
    for (more, status) in [
        ("--readings --resume", 2),
        ("--resume --readings", 4),
        ("--readings= --resume", 4),
    ] {
        let line = format!("{run} {more}");
        let came = command(&line.split(' ').collect::<Vec<_>>());
        assert_eq!(came.status, status, "{line}: {}", came.error);
    }
    // A file may have such a name.
    let args = ["assemble", "sample.routine", "-o=-", "--drum=-o"];
    command(&args).ended(3, "hemdroas: -o: No such file or directory");
    let args = ["check", "-", "-", "--drum", "sample.drum"];
    command(&args).ended(
        2,
        "hemdroas: - stands twice: standard input can be read once",
    );
}

#[test]
fn the_version_and_the_families() {
    let version = format!("hemdroas {}\n", env!("CARGO_PKG_VERSION"));
    command(&["--version"]).printed(0, &version);
    let overview = command(&["help"]).out;
    for args in [["--help"], ["-h"]] {
        command(&args).printed(0, &overview);
    }
    let family = command(&["policy"]);
    assert_eq!(family.status, 0, "{}", family.error);
    assert!(family.out.lines().count() >= 5, "{}", family.out);
    assert!(
        family.out.lines().all(|line| line.starts_with("  policy ")),
        "{}",
        family.out
    );
    for args in [["help", "policy"], ["policy", "--help"]] {
        command(&args).printed(0, &family.out);
    }
    let page = command(&["help", "policy", "draw"]);
    command(&["policy", "draw", "--help"]).printed(0, &page.out);
    // Behind -- every word is a file.
    command(&["list", "--", "--drum"]).ended(3, "--drum: No such file");
}

#[test]
fn help_for_each() {
    let overview = command(&["--help"]);
    assert_eq!(overview.status, 0);
    let names = [
        "assemble",
        "list",
        "check",
        "forward",
        "run",
        "preview",
        "step",
        "page",
        "policy precedence",
        "policy merge",
        "policy determinise",
        "policy show",
        "policy draw",
    ];
    for name in names {
        assert!(overview.out.contains(&format!("\n  {name:<20} ")), "{name}");
        let args: Vec<&str> = name.split(' ').chain(["--help"]).collect();
        let came = command(&args);
        assert_eq!(came.status, 0, "{}", came.error);
        assert!(
            came.out.starts_with(&format!("hemdroas {name} FILE")),
            "{}",
            came.out
        );
    }
}

/// The files of the examples, whole and damaged in every way that random bytes
/// can do: they are read or refused, and nothing panics.
#[test]
fn damaged_texts() {
    let mut rng = Rng::new(seed(27));
    let texts = [
        "sample.drum",
        "sample.policy",
        "sample.routine",
        "roast.drum",
        "roast.policy",
    ];
    let more = ["roast.routine", "order.policy", "exporter.policy"];
    let texts: Vec<Vec<u8>> = texts
        .iter()
        .chain(&more)
        .map(|name| fs::read(crate::examples().join(name)).unwrap())
        .collect();
    let names = drum(&texts[3]).unwrap().names;
    let mut taken = [0; 3];
    for _ in 0..cases(30_000) {
        let mut text = texts[rng.below(texts.len())].clone();
        for _ in 0..rng.below(4) {
            let at = rng.below(text.len());
            match rng.below(5) {
                0 => text[at] = rng.byte(),
                1 => text.truncate(at.max(1)),
                2 => {
                    text.remove(at);
                    text.push(b'\n');
                }
                3 => text[at] = rng.pick(b" ,:#->\n0r"),
                _ => {
                    let end = rng.between(at, text.len() - 1);
                    let part = text[at..=end].to_vec();
                    text.extend(part);
                }
            }
        }
        taken[0] += u32::from(assemble(&text, &names).is_ok());
        taken[1] += u32::from(drum(&text).is_ok());
        taken[2] +=
            u32::from(policy(&text, &Names::default()).is_ok() || policy(&text, &names).is_ok());
    }
    assert!(taken.iter().all(|&count| count > 100), "{taken:?}");
}

#[test]
fn a_control_character_at_the_begin_of_a_text_is_named() {
    let folder = folder("first-bytes");
    for (text, place) in [("H\x01ALT\n", "1:2"), ("\x01HALT\n", "1:1")] {
        let path = file(&folder, "odd", text);
        let came = command(&["list", &path]);
        came.refused("; refused as ");
        came.refused(&format!(
            "odd:{place}: error: a control character, U+0001, among the first two"
        ));
    }
    // Bytes that are no text are not taken for one.
    let path = file(&folder, "bytes", b"\x01\x00\x41\x01");
    let came = command(&["list", &path]);
    assert_eq!(came.error.matches(": error: ").count(), 1, "{}", came.error);
}
