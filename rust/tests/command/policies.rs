//! policy precedence, merge, determinise, show and draw, and what their text
//! says.

use crate::common::inputs::{policy, some_ceilings};
use crate::common::{cases, seed, Rng};
use crate::{command, file, folder, typed};
use hemdroas::native::{determinise, merge, precedence};
use hemdroas::text::{self, policy_text, Form, Names, Table};
use hemdroas::{Ceilings, Drawing, Side};
use std::fs;

/// The table and ceilings that a text stands for.
fn of_text(text: &str) -> (Table, Ceilings) {
    let file = text::policy(text.as_bytes(), &Names::default());
    let file = file.unwrap_or_else(|fault| panic!("{fault:?}\n{text}"));
    match file.form {
        Form::States(table) => (table, file.ceilings),
        other => panic!("{other:?} of\n{text}"),
    }
}

/// The same of a file among the examples, with the roast's names.
fn of_example(name: &str) -> text::PolicyFile {
    let drum = fs::read(crate::examples().join("roast.drum")).unwrap();
    let drum = text::drum(&drum).unwrap();
    let content = fs::read(crate::examples().join(name)).unwrap();
    text::policy(&content, &drum.names).unwrap()
}

#[test]
fn the_text_of_a_policy_is_read_again_as_it() {
    let mut rng = Rng::new(seed(26));
    for _ in 0..cases(10_000) {
        let states = rng.between(1, 16) as u32;
        let arrows = rng.pick(&[0, 20, 80, 100]);
        let random = policy(&mut rng, states, arrows);
        let ceilings = some_ceilings(&mut rng);
        let mut names = Names::default();
        for event in 0..16 {
            if rng.chance(30) {
                names
                    .add(&event.to_string(), &format!("event{event}"))
                    .unwrap();
            }
        }
        let table = Table {
            states: (0..states).map(|state| format!("s{state}")).collect(),
            start: random.start,
            table: random.table,
        };
        let text = policy_text(&table, &ceilings, &names);
        assert_eq!(of_text(&text), (table, ceilings), "{text}");
    }
}

#[test]
fn precedence_is_the_librarys() {
    let came = command(&[
        "policy",
        "precedence",
        "order.policy",
        "--drum",
        "roast.drum",
    ]);
    assert_eq!(came.status, 0, "{}", came.error);
    let (table, _) = of_text(&came.out);
    let mut made = [0; 256];
    assert!(precedence(&[0, 3, 3, 2, 2, 4], &mut made).answer.is_taken());
    assert_eq!((table.table.as_slice(), table.start), (made.as_slice(), 0));
    assert_eq!(table.states[3], "gas+door");

    let folder = folder("precedence");
    let ring = file(&folder, "ring", "event 0 gas\n1 before gas\ngas before 1\n");
    let came = command(&["policy", "precedence", &ring]);
    assert!(
        came.out
            .starts_with("# never allowed, since the pairs form a ring: gas, 1\n"),
        "{}",
        came.out
    );
    came.ended(0, "never allowed, since the pairs form a ring: gas, 1");
    let came = command(&["policy", "show", &ring]);
    assert!(
        came.out
            .ends_with("never allowed, since the pairs form a ring: gas, 1\n"),
        "{}",
        came.out
    );
    let everything = file(&folder, "everything", "everything\n");
    command(&["policy", "precedence", &everything])
        .printed(0, "state start\n  others -> start\nstart start\n");
    let five = file(&folder, "five", "0 before 1\n2 before 3\n3 before 4\n");
    let out = folder.join("out");
    let to_out = ["policy", "precedence", &five, "-o", out.to_str().unwrap()];
    command(&to_out).refused(":3:*refused as bad pair (17)");
    assert!(!out.exists());
    let above = file(&folder, "above", "0 before 16\n");
    command(&["policy", "precedence", &above]).refused(":1:*refused as bad pair (17)");
    command(&[
        "policy",
        "precedence",
        "sample.policy",
        "--drum",
        "sample.drum",
    ])
    .refused("holds no pairs");
}

#[test]
fn determinise_is_the_librarys() {
    let args = [
        "policy",
        "determinise",
        "exporter.policy",
        "--drum",
        "roast.drum",
    ];
    let came = command(&args);
    came.printed(0, include_str!("stored/exporter.determinised"));
    let (table, ceilings) = of_text(&came.out);
    let Form::Drawing {
        states,
        starts,
        arrows,
    } = of_example("exporter.policy").form
    else {
        panic!("the exporter's file is a drawing");
    };
    let drawing = Drawing {
        states: states.len() as u32,
        starts,
        arrows: &arrows,
    };
    let mut made = [0; 256];
    let answer = determinise(&drawing, &mut made);
    assert_eq!(
        (answer.states, answer.start),
        (table.states.len() as u32, table.start)
    );
    assert_eq!(table.table, made[..table.table.len()]);
    assert_eq!(ceilings[0], 90);

    let folder = folder("determinise");
    let none = file(&folder, "none", "drawing\nstate a\nstart none\n");
    command(&["policy", "determinise", &none]).refused("refused as bad drawing (16)");
    let many: String = (0..17)
        .map(|state| format!("state s{state}\n  0 -> s16\n"))
        .collect();
    let many = file(&folder, "many", format!("drawing\n{many}"));
    command(&["policy", "determinise", &many]).refused("refused as bad drawing (16)");
    // Whether the fifth event before the last was 0: 32 sets.
    let mut text = "drawing\nstate a\n 0 -> a b\n 1 -> a\n".to_string();
    for (state, next) in [
        ("b", "c"),
        ("c", "d"),
        ("d", "e"),
        ("e", "f"),
        ("f", "none"),
    ] {
        text += &format!("state {state}\n 0 -> {next}\n 1 -> {next}\n");
    }
    let sets = file(&folder, "sets", text);
    command(&["policy", "determinise", &sets]).refused("refused as too many states (15)");
    command(&[
        "policy",
        "determinise",
        "roast.policy",
        "--drum",
        "roast.drum",
    ])
    .refused("holds no drawing");
}

#[test]
fn merge_is_the_librarys() {
    let came = command(&[
        "policy",
        "merge",
        "roast.policy",
        "exporter.policy",
        "--drum",
        "roast.drum",
    ]);
    came.printed(0, include_str!("stored/roast.merged"));
    let (table, ceilings) = of_text(&came.out);
    let (one, _) = of_text(
        &command(&[
            "policy",
            "determinise",
            "exporter.policy",
            "--drum",
            "roast.drum",
        ])
        .out,
    );
    let Form::States(other) = of_example("roast.policy").form else {
        panic!("the roastery's file has states");
    };
    let mut made = [0; 256];
    let most = [u32::MAX; 8];
    let merged = merge(
        &Side {
            policy: one.policy(),
            ceilings,
        },
        &Side {
            policy: other.policy(),
            ceilings: most,
        },
        &mut made,
    );
    assert_eq!(
        (merged.states, merged.start),
        (table.states.len() as u32, table.start)
    );
    assert_eq!(table.table, made[..table.table.len()]);
    assert_eq!(merged.ceilings, ceilings);

    // What was merged is installed, on a drum with as many states.
    let folder = folder("merge");
    let policy = file(&folder, "merged.policy", &came.out);
    let drum = fs::read_to_string(crate::examples().join("roast.drum")).unwrap();
    let drum = file(&folder, "drum", drum);
    let files = ["roast.routine", "--drum", &drum, "--policy", &policy];
    let run = [
        "run",
        files[0],
        files[1],
        files[2],
        files[3],
        files[4],
        "--readings",
        "1960,2100",
    ];
    let came = command(&run);
    assert_eq!(came.status, 0, "{}{}", came.out, came.error);
    let counts = |length: usize, name: &str| {
        let mut text = String::new();
        for state in 0..length {
            let next = (state + 1) % length;
            text += &format!("state s{state}\n  others -> s{next}\n");
        }
        file(&folder, name, text)
    };
    let (four, five) = (counts(4, "four"), counts(5, "five"));
    let out = folder.join("out");
    command(&["policy", "merge", &four, &five, "-o", out.to_str().unwrap()])
        .refused("refused as too many states (15)");
    assert!(!out.exists());
    command(&["policy", "merge", &four, &counts(17, "many")]).refused("refused as bad policy (10)");
}

#[test]
fn shown_and_drawn() {
    command(&["policy", "show", "sample.policy", "--drum", "sample.drum"])
        .printed(0, include_str!("stored/sample.shown"));
    command(&[
        "policy",
        "draw",
        "sample.policy",
        "--drum",
        "sample.drum",
        "--dot",
    ])
    .printed(0, include_str!("stored/sample.drawn"));
    command(&[
        "policy",
        "draw",
        "exporter.policy",
        "--drum",
        "roast.drum",
        "--dot",
    ])
    .printed(0, include_str!("stored/exporter.drawn"));
    // The head stands above its columns, also where no event has a name.
    let came = typed(&["policy", "show", "-"], "everything\nceiling 0 5\n");
    let rows: Vec<&str> = came.out.lines().take(17).collect();
    assert_eq!(rows[0], "state   0");
    assert!(
        rows.iter().all(|row| row.len() == rows[0].len()),
        "{}",
        came.out
    );
    let folder = folder("drawn");
    let out = folder.join("out.dot");
    let args = [
        "policy",
        "draw",
        "order.policy",
        "--drum",
        "roast.drum",
        "-o",
        out.to_str().unwrap(),
    ];
    command(&args).printed(0, "");
    assert!(fs::read_to_string(&out)
        .unwrap()
        .starts_with("digraph policy {\n"));
}

/// The elements of an SVG text are closed in their order.
fn is_well_formed(svg: &str) -> bool {
    let mut open = Vec::new();
    for tag in svg.split('<').skip(1) {
        let (inside, _) = tag.split_once('>').expect("a tag ends");
        let name = inside.split(' ').next().expect("a tag has a name");
        match name.strip_prefix('/') {
            Some(closed) if open.pop() != Some(closed) => return false,
            Some(_) => (),
            None if inside.ends_with('/') => (),
            None => open.push(name),
        }
    }
    open.is_empty()
}

#[test]
fn drawn_as_svg() {
    command(&["policy", "draw", "sample.policy", "--drum", "sample.drum"])
        .printed(0, include_str!("stored/sample.svg"));
    let folder = folder("svg");
    let text = "event 0 gas\nevent 1 air\nstate idle\n  gas -> warm\n  others -> idle\n  3 -> none\n\
                state warm\n  gas -> idle\n  air -> idle\nstate attic\n  others -> idle\nceiling gas 80\n";
    let policy = file(&folder, "policy", text);
    let drawn = command(&["policy", "draw", &policy]).out;
    assert!(is_well_formed(&drawn), "{drawn}");
    // Parallel arrows are one, and 'others' leaves out what is none.
    for text in [
        ">gas, air<",
        ">others<",
        ">not 3<",
        ">ceilings: gas at most 80<",
    ] {
        assert_eq!(drawn.matches(text).count(), 1, "{text} in {drawn}");
    }
    assert!(!drawn.contains("attic"), "{drawn}");
    for name in [
        "exporter.policy",
        "order.policy",
        "roast.policy",
        "profile.policy",
    ] {
        let drawn = command(&["policy", "draw", name, "--drum=roast.drum"]).out;
        assert!(is_well_formed(&drawn), "{drawn}");
    }
}

#[test]
fn the_sample_is_the_rules_policy() {
    let drum = text::drum(&fs::read(crate::examples().join("sample.drum")).unwrap()).unwrap();
    let content = fs::read(crate::examples().join("sample.policy")).unwrap();
    let Form::States(table) = text::policy(&content, &drum.names).unwrap().form else {
        panic!("the sample's file has states");
    };
    let expected = crate::common::inputs::trial_policy();
    assert_eq!((table.table, table.start), (expected.table, expected.start));
    assert_eq!(drum.layout, crate::common::inputs::TRIAL);
    assert_eq!(drum.landings.of(&[]), crate::common::inputs::all_landings());
}
