//! What people write: labels as numbers, landings, warnings, and all errors at
//! once.

use crate::{command, examples, file, folder};
use hemdroas::text::{assemble, drum, policy, Names, Routine};
use std::fs;

/// The names of the profile's drum.
fn names() -> Names {
    let content = fs::read(examples().join("profile.drum")).unwrap();
    drum(&content).unwrap().names
}

fn assembled(text: &str) -> Routine {
    assemble(text.as_bytes(), &names()).unwrap_or_else(|faults| panic!("{faults:?}\n{text}"))
}

#[test]
fn a_label_stands_for_its_number_everywhere() {
    let text = "    SET r1, end\n    SAR r1, r1, two\ntwo: GOIF always, end\n    EVENT two\nend:\n";
    let numbers = "    SET r1, 4\n    SAR r1, r1, 2\n    GOIF always, 4\n    EVENT 2\n";
    assert_eq!(assembled(text).words, assembled(numbers).words);
    // A label that is an event's name would mean two things.
    let faults = assemble(b"HALT\ngas: EVENT gas\n", &names()).unwrap_err();
    let said = "'gas' is the name of an event: choose another label";
    assert_eq!(faults.len(), 1);
    assert_eq!(
        (faults[0].message.as_str(), faults[0].place.line),
        (said, 2)
    );
}

#[test]
fn landings_are_marked_in_the_text() {
    let text = "landing HALT\nHALT\nlanding a: b: HALT\nlanding\n# a comment\nc:\nHALT\nLanding\n";
    assert_eq!(assembled(text).landings, [0, 2, 3, 4]);
    // The mark stands before the instruction, before or behind its labels.
    let text = "a: landing HALT\na1: landing b: HALT\nc: landing\n d: HALT\n";
    assert_eq!(assembled(text).landings, [0, 1, 2]);
    let folder = folder("landings");
    let drum_text = fs::read_to_string(examples().join("profile.drum")).unwrap();
    let check = |drum: &str, routine: &str| command(&["check", routine, "--drum", drum]);
    for (line, listed) in [
        ("landings routine", "landings 17-20"),
        ("landings none", "landings none"),
        ("landings all", "landings all"),
        ("landings 3\nlandings 5-7 9", "landings 3 5-7 9"),
    ] {
        let drum = file(&folder, "drum", drum_text.replace("landings routine", line));
        let came = check(&drum, "profile.routine");
        assert!(came.out.contains(listed), "{}", came.out);
        // The marks of the text count only where the drum takes them.
        if line == "landings none" {
            came.ended(0, "profile.routine:25:9: warning: there are no landings*");
        }
    }
    // What stands for all landings contradicts other lines.
    for whole in ["routine", "all", "none"] {
        for line in [
            format!("landings {whole} 3"),
            format!("landings 3 {whole}"),
            format!("landings 3\nlandings {whole}"),
            format!("landings {whole}\nlandings 3"),
            format!("landings {whole}\nlandings none"),
        ] {
            let text = drum_text.replace("landings routine", &line);
            let came = check(&file(&folder, "drum", text), "profile.routine");
            came.refused(&format!("'landings {whole}' stands alone"));
            assert_eq!(came.error.matches(": error: ").count(), 1, "{}", came.error);
        }
    }
    // Bytes mark none.
    let bytes = file(&folder, "bytes", "");
    command(&[
        "assemble",
        "profile.routine",
        "--drum",
        "profile.drum",
        "-o",
        &bytes,
    ])
    .printed(0, "");
    let came = check("profile.drum", &bytes);
    came.ended(0, "there are no landings: a GOX that is taken stops the routine (26)*instruction 16: GOX r10, always");
    assert!(came.out.contains("landings none"), "{}", came.out);
}

#[test]
fn a_phase_table_survives_an_inserted_line() {
    let folder = folder("inserted");
    let readings =
        "--readings=150 175 185 190 195 150 110 95 98 120 140 158 165 172 178 190 200 207 209 212";
    let record = |routine: &str| {
        let files = [
            "run",
            routine,
            "--drum=profile.drum",
            "--policy=profile.policy",
        ];
        let came = command(&[&files[..], &["--budget=3000", readings]].concat());
        assert_eq!(came.status, 0, "{}{}", came.out, came.error);
        let rows = came.out.lines().filter(|line| line.starts_with("  "));
        rows.map(str::to_string).collect::<Vec<_>>()
    };
    let text = fs::read_to_string(examples().join("profile.routine")).unwrap();
    let whole = record("profile.routine");
    assert_eq!(whole.len(), 27);
    let lines: Vec<&str> = text.lines().collect();
    for place in [7, 13, 20, 34, 47] {
        let longer = [&lines[..place], &["SET r14, 9"], &lines[place..]]
            .concat()
            .join("\n");
        assert_eq!(
            record(&file(&folder, "longer", longer)),
            whole,
            "line {place}"
        );
    }
}

/// Texts are listed as texts of the same words, labels and landings.
#[test]
fn listed_texts_are_taken_back() {
    let folder = folder("listed");
    let odd = "gas: landing: x"; // no text of a routine
    assert!(assemble(odd.as_bytes(), &names()).is_err());
    let odd = file(&folder, "odd", "landing a: b: SET r1, -7\nlanding\nSET r2, 0xFF\nSET r3, b\nGOIF always, 2\nGOIF always, end\nEVENT 3\nend:\n");
    for path in ["profile.routine", "roast.routine", "sample.routine", &odd] {
        let text = fs::read_to_string(examples().join(path)).unwrap();
        let came = command(&["list", path, "--drum", "profile.drum"]);
        assert_eq!(came.status, 0, "{}", came.error);
        let (one, other) = (assembled(&text), assembled(&came.out));
        assert_eq!(
            (one.words, one.landings, one.labels),
            (other.words, other.landings, other.labels)
        );
        let shown = |routine: Vec<hemdroas::text::Source>| -> Vec<_> {
            routine.into_iter().map(|source| source.shown).collect()
        };
        assert_eq!(shown(one.sources), shown(other.sources), "{}", came.out);
        // Numbered from 0.
        let numbers = came
            .out
            .lines()
            .filter_map(|line| line.split("# ").nth(1)?.parse().ok());
        let count = assembled(&text).words.len();
        assert_eq!(
            numbers.collect::<Vec<usize>>(),
            (0..count).collect::<Vec<_>>()
        );
    }
}

#[test]
fn all_errors_are_shown_at_once_with_their_words_underlined() {
    let folder = folder("underlined");
    let text = "SET r15, 1\n\tSET r1 200\nJUMP\nloop: ADD r1, r2\nGOIF r1, r2, abvoe, lop\nSET r1, loopp # far\nGOX r1, equal\nEVENT gsa\nloop: HALT\n";
    let path = file(&folder, "text", text);
    let came = command(&["assemble", &path, "--drum", "profile.drum", "-o", "-"]);
    let expected = "\
text:1:5: error: r15 is hidden: a routine has r0 to r14
SET r15, 1
    ^^^
text:2:9: error: a comma is missing before '200', as in 'SET r1, 200'
\tSET r1 200
\t       ^^^
text:3:1: error: 'JUMP' is no instruction; a label ends with a colon
JUMP
^^^^
text:4:15: error: an operand is missing, as in 'ADD r3, r1, r2'
loop: ADD r1, r2
              ^^
text:5:14: error: 'abvoe' is no condition: they are always, equal, below, less
GOIF r1, r2, abvoe, lop
             ^^^^^
text:5:21: error: no line has the label 'lop'; did you mean 'loop'?
GOIF r1, r2, abvoe, lop
                    ^^^
text:6:9: error: 'loopp' is neither a number nor a label; did you mean 'loop'?
SET r1, loopp # far
        ^^^^^
text:7:9: error: 'equal' compares two registers, and none stands before it
GOX r1, equal
        ^^^^^
text:8:7: error: no event is named 'gsa'; did you mean 'gas'?
EVENT gsa
      ^^^
text:9:1: error: the label 'loop' stands twice, first in line 4
loop: HALT
^^^^
";
    let said = came.error.replace(&format!("{}/", folder.display()), "");
    assert_eq!((said.as_str(), came.status), (expected, 1));
    let drum = file(
        &folder,
        "drum",
        "U 1o\nSL 2\nSL 3\nevent 16 a\nscale gas 7\nlandings some\n",
    );
    let came = command(&["check", "sample.routine", "--drum", &drum]);
    assert_eq!(came.error.matches(": error: ").count(), 7, "{}", came.error);
    let policy = file(
        &folder,
        "policy",
        "event 0 gas\nstate a\n gsa -> b\n gas -> bb\nstate bb\nstate a\nceiling 9 1\n",
    );
    let came = command(&["policy", "show", &policy]);
    assert_eq!(came.error.matches(": error: ").count(), 4, "{}", came.error);
    // A jump behind the end is judged beside lines that cannot be read.
    let path = file(
        &folder,
        "text",
        "JUMP\nGOIF always, 3\nSAR r1, r1, 40\nGOIF always, 4\n",
    );
    let came = command(&["forward", &path]);
    for said in [
        ":1:1: error: 'JUMP' is no instruction",
        ":3:13: error: SAR by 40: it shifts by 0 to 31",
    ] {
        came.refused(said);
    }
    assert_eq!(came.error.matches(": error: ").count(), 2, "{}", came.error);
    let path = file(&folder, "text", "JUMP\nGOIF always, 3\n");
    command(&["forward", &path])
        .refused(":2:14: error: 3 is past the routine's end, which is 2");
}

/// The one thing that is wrong with a line, and where.
#[test]
fn the_one_thing_that_is_wrong_is_named() {
    for (line, said) in [
        (
            "SET r1, 5 // five",
            "1:11 a comment begins with #, not with '//'",
        ),
        (
            "SET r1, 5 ; five",
            "1:11 a comment begins with #, not with ';'",
        ),
        ("HALT ;end", "1:6 a comment begins with #, not with ';end'"),
        (
            "SET r1, 5; HALT",
            "1:12 'HALT' begins a second instruction: write one a line",
        ),
        (
            "SET r1, 5 set r2, 6",
            "1:11 'set' begins a second instruction: write one a line",
        ),
        ("HALT SET r1, 5", "1:6 HALT takes no operand"),
        ("HALT now or never", "1:6 HALT takes no operand"),
        (
            "EVENT gas door",
            "1:11 'door' is one word too many, as in 'EVENT gas' or 'EVENT 0'",
        ),
        (
            "SET r1, 5 6",
            "1:11 '6' is one word too many, as in 'SET r1, 200'",
        ),
        ("SET r 1, 5", "1:7 a blank is too many: write 'r1'"),
        ("SET r1, - 5", "1:11 a blank is too many: write '-5'"),
        (
            "SET r1 5 6",
            "1:8 a comma is missing before '5', as in 'SET r1, 200'",
        ),
        (": HALT", "1:1 a label is missing before the colon"),
        ("EVENT r0", "1:7 'r0' is a register; an event stands here"),
        (
            "EVENT \"gas\"",
            "1:7 '\"gas\"' is no event's name or number",
        ),
        ("EVENT 1.5", "1:7 '1.5' is no whole number"),
    ] {
        let faults = assemble(line.as_bytes(), &names()).unwrap_err();
        let found: Vec<String> = faults
            .iter()
            .map(|fault| {
                format!(
                    "{}:{} {}",
                    fault.place.line, fault.place.column, fault.message
                )
            })
            .collect();
        assert_eq!(found, [said], "{line}");
    }
    let long = "a".repeat(61);
    for line in [
        format!("{long}: HALT\nGOIF always, {long}\n"),
        format!("event 0 {long}\nstate a\n {long} -> a\n"),
        format!("state {long}\n 0 -> {long}\n"),
    ] {
        let faults = match line.starts_with('a') {
            true => assemble(line.as_bytes(), &names()).unwrap_err(),
            false => policy(line.as_bytes(), &names()).unwrap_err(),
        };
        let quoted = &long[..40];
        let said = format!("'{quoted}...' is longer than 60 characters");
        assert_eq!(faults.len(), 1, "{faults:?}");
        assert_eq!(faults[0].message, said);
    }
    // Every comma that is missing.
    let faults = assemble(b"GOIF r1 r2, below end\nend:\n", &names()).unwrap_err();
    let places = faults
        .iter()
        .map(|fault| (fault.place.column, fault.place.length));
    assert_eq!(places.collect::<Vec<_>>(), [(9, 2), (19, 3)]);
    assert!(faults
        .iter()
        .all(|fault| fault.message.starts_with("a comma is missing")));
}

#[test]
fn check_warns() {
    let folder = folder("warned");
    let text = "EVENT cool\nGOX r1, always\nSET r1, 1\nHALT\nend: GOIF r1, r1, equal, end\n";
    let path = file(&folder, "odd", text);
    let came = command(&[
        "check",
        &path,
        "--drum=roast.drum",
        "--policy=profile.policy",
    ]);
    came.ended(0, "odd:2:5: warning: there are no landings");
    came.ended(0, "odd:3:1: warning: instructions 2 to 4 are never reached");
    assert_eq!(came.error.matches("warning").count(), 2, "{}", came.error);
    // Events that some state allows are fine, and those of states that are never reached are not.
    let policy = file(
        &folder,
        "policy",
        "event 4 cool\nstate a\n 0 -> a\nstate attic\n cool -> a\n",
    );
    let came = command(&["check", &path, "--drum=roast.drum", "--policy", &policy]);
    came.ended(
        0,
        "odd:1:7: warning: the policy never allows cool: the routine stops here (21)",
    );
    for (routine, drum, policy) in [
        ("sample.routine", "sample.drum", "sample.policy"),
        ("roast.routine", "roast.drum", "roast.policy"),
        ("profile.routine", "profile.drum", "profile.policy"),
    ] {
        let came = command(&["check", routine, "--drum", drum, "--policy", policy]);
        assert_eq!((came.status, came.error.as_str()), (0, ""));
    }
}

#[test]
fn check_takes_many_files() {
    let folder = folder("many");
    let refused = file(&folder, "refused", "SET r15, 1\n");
    let good = [
        "check",
        "sample.routine",
        "--drum",
        "roast.drum",
        "roast.routine",
    ];
    let statuses = [
        (vec![], 0),
        (vec![refused.as_str()], 1),
        (vec!["missing", &refused], 3),
    ];
    for (more, status) in statuses {
        let came = command(&[&good[..], &more].concat());
        assert_eq!(came.status, status, "{}", came.error);
        assert_eq!(came.out.lines().count(), 2 + more.len(), "{}", came.out);
    }
}

/// A drum that is not right is shown once, and the routines' own errors beside it.
#[test]
fn check_shows_a_bad_drum_once() {
    let folder = folder("bad-drum");
    let text = fs::read_to_string(examples().join("roast.drum")).unwrap();
    let drum = file(&folder, "drum", text.replace("SH 511", "SH 510"));
    let wrong = file(&folder, "wrong", "JUMP\n");
    let files = ["roast.routine", &wrong, "sample.routine"];
    let came = command(&[&["check", "--drum", &drum], &files[..]].concat());
    let shown = format!(
        "roast.routine: refused as bad layout (7)\n{wrong}: refused, 1 error\n\
         sample.routine: refused as bad layout (7)\n"
    );
    came.printed(1, &shown);
    assert_eq!(
        came.error.matches("no power of two").count(),
        1,
        "{}",
        came.error
    );
    assert_eq!(
        came.error.matches("'JUMP' is no instruction").count(),
        1,
        "{}",
        came.error
    );
    let came = command(&["check", "--drum", &drum, "missing"]);
    came.printed(3, "missing: cannot be read\n");
    came.ended(3, "no power of two*refused as bad layout (7)");
}

#[test]
fn check_warns_of_landings_behind_the_routine() {
    let folder = folder("far");
    let text = fs::read_to_string(examples().join("roast.drum")).unwrap();
    let drum = file(
        &folder,
        "drum",
        text.replace("landings routine", "landings 4 900-901"),
    );
    let check = |text: &str| {
        let path = file(&folder, "far", text);
        command(&["check", &path, "--drum", &drum])
    };
    let came = check("GOX r1, r2, r3, equal\nHALT\nHALT\n");
    came.ended(0, "far:1:5: warning: no landing is below 4, where the routine ends: a GOX that is taken stops the routine (26)");
    let came = check("GOX r1, r2, r3, equal\nMOVE r1, r2\nMOVE r1, r2\nHALT\n");
    assert_eq!((came.status, came.error.as_str()), (0, ""));
}

#[test]
fn empty_files_are_refused_alike() {
    let folder = folder("alike");
    for (name, content) in [("empty", ""), ("blank", " \n\n")] {
        let path = file(&folder, name, content);
        for args in [
            vec!["assemble", &path, "-o", "-"],
            vec!["check", &path, "--drum", "sample.drum"],
            vec!["list", &path],
            vec!["forward", &path],
        ] {
            command(&args).refused("the file is empty*refused as short weight (1)");
        }
    }
    let comment = file(&folder, "comment", "# nothing\n");
    command(&["assemble", &comment, "-o", "-"]).printed(0, "\0\0");
    // A routine of no instructions is listed as one.
    for content in ["# nothing\n", "\0\0"] {
        let path = file(&folder, "none", content);
        let came = command(&["list", &path]);
        came.printed(0, "# no instructions\n");
        let listed = file(&folder, "listed", &came.out);
        command(&["assemble", &listed, "-o", "-"]).printed(0, "\0\0");
    }
    let came = command(&["check", &comment, "--drum", "sample.drum"]);
    assert_eq!(came.status, 0, "{}", came.error);
}

#[test]
fn more_than_1023_instructions_are_refused_alike() {
    let folder = folder("oversize");
    let most = file(&folder, "most", "HALT\n".repeat(1023));
    let over = file(&folder, "over", "HALT\n".repeat(1024));
    for args in [
        vec!["assemble", "-o", "/dev/null"],
        vec!["check", "--drum", "sample.drum"],
        vec!["list"],
        vec!["forward"],
    ] {
        assert_eq!(command(&[&args[..], &[&most]].concat()).status, 0);
        let came = command(&[&args[..], &[&over]].concat());
        came.refused("more than 1023 instructions; refused as oversize (5)");
    }
}

/// S is the policy's where the drum's file leaves it out.
#[test]
fn a_drum_without_states_takes_any_policy() {
    let folder = folder("states");
    let halt = file(&folder, "halt", "HALT\n");
    for states in 1..=16 {
        let text: String = (0..states).map(|n| format!("state s{n}\n")).collect();
        let policy = file(&folder, "policy", text);
        let check = |drum| command(&["check", &halt, "--drum", drum, "--policy", &policy]);
        let came = check("roast.drum");
        assert!(came.out.ends_with(", installed\n"), "{}", came.error);
        let came = check("sample.drum");
        match states {
            2 => assert_eq!(came.status, 0, "{}", came.error),
            _ => came.refused(&format!(
                "it has {states} states, and S of sample.drum is 2; without its line S a drum takes any; refused as bad policy (10)"
            )),
        }
    }
}
