//! `--json`: objects of the fields that the document lists, one a line.

use crate::common::inputs::{bytes_of, routine, trial_policy, TRIAL};
use crate::common::{cases, seed, Rng};
use crate::json::{objects, Value};
use crate::{command, file, folder, typed, with, PROFILE, SAMPLE};
use hemdroas::model;
use hemdroas::{Engine, Status};
use std::collections::BTreeSet;
use std::fs;

const FILES: &str = include_str!("../../../docs/FILES.md");

/// The same with --json.
fn json<'a>(name: &'a str, files: [&'a str; 5], more: &[&'a str]) -> Vec<&'a str> {
    with(name, files, &[&["--json"], more].concat())
}

/// The words in backquotes of a cell.
fn quoted(cell: &str) -> Vec<&str> {
    cell.split('`').skip(1).step_by(2).collect()
}

/// The types that the document lists, each with the fields behind `type`.
fn documented() -> Vec<(&'static str, Vec<&'static str>)> {
    let part = FILES.split("| type | printed by | fields |").nth(1);
    let rows = part.expect("the table of objects").lines().skip(2);
    let rows = rows.take_while(|line| line.starts_with('|'));
    rows.flat_map(|row| {
        let cells: Vec<&str> = row.split('|').collect();
        let fields = quoted(cells[3]);
        quoted(cells[1])
            .into_iter()
            .map(move |name| (name, fields.clone()))
    })
    .collect()
}

/// The objects that a command prints, each with documented fields.
fn checked(printed: &str) -> Vec<Value> {
    let documented = documented();
    let all = objects(printed);
    for object in &all {
        let names = object.names();
        assert_eq!(names[0], "type");
        let kind = object.field("type").text();
        let is_listed = documented
            .iter()
            .any(|(name, fields)| *name == kind && names[1..] == fields[..]);
        assert!(is_listed, "{kind} with {names:?} is not documented");
    }
    all
}

/// Every field that the document lists has a meaning there.
#[test]
fn every_field_has_a_meaning() {
    let part = FILES.split("| field | meaning |").nth(1);
    let rows = part.expect("the table of fields").lines().skip(2);
    let rows = rows.take_while(|line| line.starts_with('|'));
    let explained: BTreeSet<&str> = rows
        .flat_map(|row| quoted(row.split('|').nth(1).expect("a row has cells")))
        .collect();
    let listed = documented().into_iter().flat_map(|(_, fields)| fields);
    let listed: BTreeSet<&str> = listed.collect();
    assert_eq!(explained, listed);
}

fn types(all: &[Value]) -> BTreeSet<String> {
    let kinds = all
        .iter()
        .map(|object| object.field("type").text().to_string());
    kinds.collect()
}

#[test]
fn every_documented_object_is_printed() {
    let folder = folder("objects");
    let wrong = file(&folder, "wrong", "SET r15, 1\nJUMP\n");
    let beware = file(&folder, "beware", "HALT\nGOX r1, always\n");
    let readings = "150 175 185 190 195 150";
    let mut printed = BTreeSet::new();
    let mut uses: Vec<(i32, Vec<&str>)> = vec![
        (4, json("run", SAMPLE, &[])),
        (5, json("run", PROFILE, &["--readings", readings])),
        (5, json("preview", PROFILE, &["--readings", readings])),
        (4, json("step", SAMPLE, &["--all"])),
        (5, json("step", PROFILE, &["--all", "--readings", readings])),
    ];
    let many = format!("check sample.routine {wrong} {beware} --drum roast.drum --json");
    let lines = [
        (1, many.as_str()),
        (0, "forward sample.routine --drum sample.drum --json"),
        (1, "forward roast.routine --drum roast.drum --json"),
        (0, "policy show order.policy --drum roast.drum --json"),
        (0, "policy precedence order.policy --drum roast.drum --json"),
        (
            0,
            "policy determinise exporter.policy --drum roast.drum --json",
        ),
        (
            0,
            "policy merge roast.policy exporter.policy --drum roast.drum --json",
        ),
        (0, "policy draw exporter.policy --drum roast.drum --json"),
        (3, "forward no-such-file --json"),
        (2, "forward --json"),
    ];
    uses.extend(lines.map(|(status, line)| (status, line.split(' ').collect())));
    for (status, args) in uses {
        let came = command(&args);
        assert_eq!(came.status, status, "{args:?}: {}{}", came.out, came.error);
        assert_eq!(came.error, "", "{args:?}");
        printed.extend(types(&checked(&came.out)));
    }
    let documented: BTreeSet<String> = documented()
        .iter()
        .map(|(name, _)| name.to_string())
        .collect();
    assert_eq!(printed, documented);
}

#[test]
fn questions_go_to_standard_error() {
    let answers = "150 175 185 190 195\nstop\n";
    for (name, more) in [
        ("run", "--resume"),
        ("preview", "--log=64"),
        ("step", "--budget=9"),
    ] {
        let mut args = json(name, PROFILE, &[more]);
        if name == "step" {
            args.push("--readings=1");
        }
        let came = typed(&args, answers);
        checked(&came.out);
        let question = if name == "step" {
            "step: "
        } else {
            "readings of bean"
        };
        assert!(came.error.contains(question), "{}", came.error);
    }
}

#[test]
fn a_routine_that_is_not_forward_has_its_object() {
    let came = command(&["forward", "roast.routine", "--drum=roast.drum", "--json"]);
    let last = r#"{"type":"forward","file":"roast.routine","forward":false,"steps":null}"#;
    assert_eq!((came.status, came.out.lines().last()), (1, Some(last)));
    assert_eq!(came.out.lines().count(), 3, "{}", came.out);
}

/// With -o the file is the same as without --json, and the object is printed.
#[test]
fn a_file_is_written_beside_the_objects() {
    let folder = folder("beside");
    let (one, other) = (file(&folder, "one.svg", ""), file(&folder, "other.svg", ""));
    for (line, kind) in [
        ("precedence order.policy", "policy"),
        ("merge roast.policy exporter.policy", "policy"),
        ("determinise exporter.policy", "policy"),
        ("draw exporter.policy", "graph"),
    ] {
        let words: Vec<&str> = line.split(' ').collect();
        let args = [&["policy"], &words[..], &["--drum=roast.drum", "-o"]].concat();
        command(&[&args[..], &[&one]].concat()).printed(0, "");
        let came = command(&[&args[..], &[&other, "--json"]].concat());
        assert_eq!(
            types(&checked(&came.out)),
            BTreeSet::from([kind.to_string()])
        );
        let written = [&one, &other].map(|path| fs::read(path).unwrap());
        assert!(!written[0].is_empty());
        assert_eq!(written[0], written[1]);
    }
}

#[test]
fn a_limited_order_says_so() {
    let came = command(&json(
        "run",
        PROFILE,
        &["--readings", "200 200 200 200 90 90 90 90"],
    ));
    let all = checked(&came.out);
    let gas = |object: &&Value| {
        *object.field("type") == Value::Text("pair".to_string())
            && *object.field("value") == Value::Number(80)
    };
    let limited = all.iter().find(gas).expect("a limited order");
    assert_eq!(limited.field("limited"), &Value::Bool(true));
    assert_eq!(limited.field("r0"), &Value::Number(85));
    let reading = &all[1];
    assert_eq!(reading.field("value"), &Value::Number(2000));
    assert_eq!(reading.field("shown").text(), "200.0");
}

/// Each step of random routines is the engine's of the model.
#[test]
fn steps_are_the_models() {
    let folder = folder("json-steps");
    let mut rng = Rng::new(seed(41));
    let mut steps = 0;
    for _ in 0..cases(60) {
        let count = rng.between(1, 20);
        let words = routine(&mut rng, &TRIAL, count);
        let path = file(&folder, "routine", bytes_of(&words));
        let files = [path.as_str(), SAMPLE[1], SAMPLE[2], SAMPLE[3], SAMPLE[4]];
        let readings = [1800, 1950, 2100];
        let more = ["--all", "--budget", "100", "--readings", "1800,1950,2100"];
        let came = command(&json("step", files, &more));
        let policy = trial_policy();
        let mut memory = vec![0; 1024];
        let landings = crate::common::inputs::all_landings();
        let _ = model::install(&TRIAL, &policy.lend(), &landings, &mut memory);
        let (mut engine, mut used) = (Engine::FIRST, 0);
        for object in checked(&came.out) {
            if object.field("type").text() != "step" {
                continue;
            }
            let before = memory.clone();
            assert_eq!(object.field("instruction").number(), u64::from(engine.at));
            let mut log = [0; 2];
            let answer = model::engine(
                &TRIAL,
                &words,
                &mut engine,
                &mut memory,
                1,
                &readings[used..],
                &mut log,
            );
            used += answer.readings as usize;
            let regs: Vec<u64> = engine.regs.iter().map(|&value| value.into()).collect();
            assert_eq!(object.field("registers").numbers(), regs);
            assert_eq!(object.field("state").number(), u64::from(memory[0]));
            assert_eq!(object.field("next").number(), u64::from(engine.at));
            let pair = object.field("pair");
            match answer.pairs {
                0 => assert_eq!(pair, &Value::Null),
                _ => {
                    let recorded = [pair.field("event").number(), pair.field("value").number()];
                    assert_eq!(recorded, log.map(u64::from));
                }
            }
            let Value::List(cells) = object.field("cells") else {
                panic!("no list of cells");
            };
            let changed = (1..1024).filter(|&cell| before[cell] != memory[cell]);
            let changed: Vec<u64> = changed.map(|cell| cell as u64).collect();
            let named: Vec<u64> = cells
                .iter()
                .map(|cell| cell.field("cell").number())
                .collect();
            assert_eq!(named, changed);
            match engine.status {
                Status::Running => assert_eq!(object.field("ending"), &Value::Null),
                _ => assert_eq!(object.field("ending").number(), u64::from(answer.number())),
            }
            steps += 1;
        }
    }
    assert!(steps > 200, "{steps}");
}

#[test]
fn check_has_a_line_for_each_file_where_the_drum_is_at_fault() {
    let folder = folder("at-fault");
    let drum = file(&folder, "drum", "U 1024\n");
    for (drum, status, why) in [
        (drum.as_str(), 1, "refused, 2 errors"),
        ("no-such-drum", 3, "cannot be read"),
    ] {
        let args = ["check", "sample.routine", "roast.routine", "--drum", drum];
        let why = format!("not checked: {drum}: {why}");
        let lines = format!("sample.routine: {why}\nroast.routine: {why}\n");
        command(&args).printed(status, &lines);
        let came = command(&[&args[..], &["--json"]].concat());
        assert_eq!(came.status, status);
        for name in ["sample", "roast"] {
            let object = format!(
                "{{\"type\":\"check\",\"file\":\"{name}.routine\",\"taken\":false,\"why\":\"{why}\"}}\n"
            );
            assert!(came.out.contains(&object), "{}", came.out);
        }
    }
}
