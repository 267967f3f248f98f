//! The one thing that is wrong is named, by its own sentence, and nothing else.

use crate::{command, examples, file, folder};
use std::fs;

/// An example with one line replaced.
fn changed(name: &str, line: &str, by: &str) -> String {
    let text = fs::read_to_string(examples().join(name)).unwrap();
    assert!(text.contains(line), "{line}");
    text.replacen(line, by, 1)
}

/// Sixteen states and so many more.
fn states(more: usize) -> String {
    (0..16 + more).map(|n| format!("state s{n}\n")).collect()
}

#[test]
fn lines_of_a_drum() {
    let folder = folder("named-drum");
    for (line, by, said) in [
        ("M 0", "M", ": error: M wants one number"),
        ("P 512", "P 1 2", ": error: P wants one number"),
        (
            "M 0",
            "M 0\nevent 5 a b\nceiling a 3",
            ": error: event wants a number and a name",
        ),
        (
            "ceiling gas 100",
            "ceiling gas",
            ": error: ceiling wants an event and a number",
        ),
        (
            "ceiling gas 100",
            "ceiling gas -1",
            ": error: '-1' is negative, and a ceiling is not",
        ),
        (
            "scale bean 10",
            "scale 10",
            ": error: scale wants an event and a scale",
        ),
        (
            "landings routine",
            "landings",
            ": error: landings wants all, none, routine or a list",
        ),
        (
            "event 0 gas ",
            "event 0 \x01gas ",
            ": error: a control character, U+0001",
        ),
        (
            "U 1024",
            "U\x01 1024",
            ": error: a control character, U+0001",
        ),
    ] {
        let drum = file(&folder, "drum", changed("profile.drum", line, by));
        let came = command(&["check", "sample.routine", "--drum", &drum]);
        came.refused(said);
        assert_eq!(came.error.matches(": error: ").count(), 1, "{}", came.error);
    }
}

#[test]
fn lines_of_a_policy() {
    let folder = folder("named-policy");
    let ring = |events: &str| {
        let pairs = events.split(' ').map(|event| format!("0 before {event}\n"));
        pairs.collect::<String>()
    };
    let drawing = |more: &str| format!("drawing\nstate a\n{more}");
    let cases = [
        ("state a\n gas ->\n".to_string(), ":2:6: error: -> wants a state or none"),
        ("gas before\n".to_string(), ":1:5: error: before wants a second event"),
        ("gas before door cool\n".to_string(), ":1:17: error: 'cool' is one word too many"),
        ("state a b\n".to_string(), ":1:1: error: state wants one name"),
        ("event -1 tap\n".to_string(), ":1:7: error: -1 is no event: they are 0 to 15"),
        ("-1 before 2\n".to_string(), ":1:1: error: -1 is no event: they are 0 to 15"),
        ("2 before 300\n".to_string(), ":1:10: error: 300 is no event: they are 0 to 15"),
        ("everything\n0 before 1\n".to_string(), ":1:1: error: everything stands alone"),
        ("everything\nstate a\n".to_string(), ":1:1: error: states and pairs do not mix"),
        ("drawing\n0 before 1\n".to_string(), ":1:1: error: a drawing has states and their arrows"),
        ("state a\nstart\n".to_string(), ":2:1: error: start wants a state"),
        (ring("1 2 3 4"), ":4:10: error: cool is a fifth event: pairs name at most four; refused as bad pair (17)"),
        (ring("1 16"), ":2:10: error: 16 is no event: they are 0 to 15; refused as bad pair (17)"),
        (drawing("start none\n"), ":3:7: error: the drawing has no start*; refused as bad drawing (16)"),
        (format!("drawing\n{}", states(1)), ":18:7: error: the file has 17 states, and at most 16 are taken; refused as bad drawing (16)"),
        (states(1), ":17:7: error: the file has 17 states, and at most 16 are taken; refused as bad policy (10)"),
        ("state a\n\x01state b\n gas -> b\n".to_string(), ":2:1: error: a control character, U+0001"),
    ];
    for (text, said) in cases {
        let policy = file(&folder, "policy", text);
        for args in [
            vec!["policy", "show", &policy, "--drum=profile.drum"],
            vec![
                "check",
                "profile.routine",
                "--drum=profile.drum",
                "--policy",
                &policy,
            ],
        ] {
            let came = command(&args);
            came.refused(&format!("policy{said}"));
            assert_eq!(came.error.matches(": error: ").count(), 1, "{}", came.error);
        }
    }
    // As many as there may be are taken.
    let policy = file(&folder, "policy", states(0));
    assert_eq!(command(&["policy", "show", &policy]).status, 0);
}

#[test]
fn words_of_a_routine() {
    let folder = folder("named-routine");
    for (text, said) in [
        (
            "GOIF always, r1\n",
            ":1:14: error: 'r1' is a register; a label stands here",
        ),
        (
            "SAR r1, r2, -1\n",
            ":1:13: error: SAR by -1: it shifts by 0 to 31; refused as off grade (4)",
        ),
        (
            "SAR r1, r2, 4294967295\n",
            ":1:13: error: SAR by 4294967295: ",
        ),
        ("EVENT -2\n", ":1:7: error: -2 is no event"),
        (
            "GOIF always, -1\n",
            ":1:14: error: -1 is no instruction; refused as bad landing (8)",
        ),
        (
            "GOIF always, end\n\x01end: HALT\n",
            ":2:1: error: a control character, U+0001",
        ),
    ] {
        let path = file(&folder, "text", text);
        let came = command(&["check", &path, "--drum=profile.drum"]);
        came.refused(said);
        assert_eq!(came.error.matches(": error: ").count(), 1, "{}", came.error);
    }
}

#[test]
fn labels_and_events_share_no_name() {
    let folder = folder("shared-names");
    let text = file(&folder, "text", "gas: HALT\n");
    command(&["forward", &text, "--drum=profile.drum"])
        .refused(":1:1: error: 'gas' is the name of an event: choose another label");
    // A listing's own labels are no event's name either.
    let drum = changed("profile.drum", "event 1 air ", "event 1 at1 ")
        .replace("ceiling air", "ceiling at1");
    let drum = file(&folder, "drum", drum);
    let bytes = file(&folder, "bytes", "");
    let text = file(&folder, "text", "EVENT 1\nGOIF always, 1\n");
    command(&["assemble", &text, "-o", &bytes]).printed(0, "");
    let listed = command(&["list", &bytes, "--drum", &drum]);
    let again = file(&folder, "again", &listed.out);
    let out = file(&folder, "again.bytes", "");
    command(&["assemble", &again, "--drum", &drum, "-o", &out]).printed(0, "");
    assert_eq!(fs::read(&bytes).unwrap(), fs::read(&out).unwrap());
}

/// How many errors are shown, and that this is one of them.
fn counted(args: &[&str], count: usize, said: &str) {
    let came = command(args);
    came.refused(said);
    assert_eq!(
        came.error.matches(": error: ").count(),
        count,
        "{}",
        came.error
    );
}

#[test]
fn what_follows_from_an_error_is_not_said() {
    let folder = folder("follows");
    for (text, said) in [
        (
            "event 16 gas\nstate a\n gas -> a\nceiling gas 5\n",
            ":1:7: error: 16 is no event",
        ),
        (
            "state a:\n 0 -> a\nstate b\n 0 -> a\nstart a\n",
            ":1:7: error: 'a:' cannot be a name",
        ),
        (
            "event 0 gas,\nstate a\n gas -> a\n",
            ":1:9: error: 'gas,' cannot be a name",
        ),
        (
            "event 0 1x\nstate a\n 1x -> a\n",
            ":1:9: error: '1x' cannot be a name",
        ),
        (
            "event 0 gas\nevent 0 fire\nstate a\n fire -> a\n",
            ":2:9: error: event 0 has the name 'gas'",
        ),
        (
            "evnt 0 gas\nstate a\n gas -> a\n",
            ":1:1: error: 'evnt' begins no line of a policy; did you mean 'event'?",
        ),
        (
            "state a\n 0 -> a\nstate 1b\n 0 -> 1b\n",
            ":3:7: error: '1b' cannot be a name",
        ),
        (
            "state a\n 0 -> a\nstate a\n 0 -> a\n",
            ":3:7: error: the state 'a' stands twice, first in line 1",
        ),
        (
            "state a\n 0 -> a\nstate b c\n 0 -> b\n",
            ":3:1: error: state wants one name",
        ),
        (
            "a\n 0 -> a\n",
            ":1:1: error: 'a' begins no line of a policy: they are state NAME",
        ),
        (
            "state a\n 1 0 -> a\n",
            ":2:4: error: '0' is one word too many before ->",
        ),
        (
            "state a\n -> a\n",
            ":2:2: error: an event is missing before ->",
        ),
        (
            "sate a\n 0 -> a\nstart a\n",
            ":1:1: error: 'sate' begins no line of a policy; did you mean 'state'?",
        ),
    ] {
        let path = file(&folder, "policy", text);
        counted(&["policy", "show", &path], 1, &format!("policy{said}"));
    }
    for (line, by, said) in [
        ("event 2 door", "event 22 door", ": error: 22 is no event"),
        (
            "landings",
            "landing",
            ": error: 'landing' begins no line of a drum; did you mean 'landings'?",
        ),
        (
            "U 1024",
            "u 1024",
            ":2:1: error: 'u' begins no line of a drum; did you mean 'U'?",
        ),
    ] {
        let path = file(&folder, "drum", changed("profile.drum", line, by));
        counted(&["check", "sample.routine", "--drum", &path], 1, said);
    }
    for (text, said) in [
        (
            "start\nGOIF always, start\n",
            ":1:1: error: 'start' is no instruction; a label ends with a colon",
        ),
        (
            "gas: HALT\nGOIF always, gas\nSET r1, gas\n",
            ":1:1: error: 'gas' is the name of an event",
        ),
        (
            "1st: HALT\nGOIF always, 1st\n",
            ":1:1: error: '1st' cannot be a label",
        ),
        (
            "lnading HALT\n",
            ":1:1: error: 'lnading' is no instruction; did you mean 'landing'?",
        ),
        (
            "EVENT gas\u{200b}\n",
            ":1:10: error: a character that nobody sees, U+200B: delete it",
        ),
    ] {
        let path = file(&folder, "text", text);
        counted(&["check", &path, "--drum=profile.drum"], 1, said);
    }
    // Such a character is fine in a comment.
    let path = file(&folder, "text", "HALT # \u{200b}\n");
    assert_eq!(command(&["forward", &path]).status, 0);
}

#[test]
fn what_does_not_follow_is_said_too() {
    let folder = folder("follows-not");
    let path = file(&folder, "text", ": HALT\nSET r0,\n");
    counted(
        &["forward", &path],
        2,
        "text:2:8: error: a number is missing",
    );
    let text = "event 16 gas\nevent 1 2 3\nstate a\n gas -> a\n air -> a\n 0 -> b\nsate c\nceiling dor 5x\n";
    let path = file(&folder, "policy", text);
    counted(
        &["policy", "show", &path],
        7,
        "policy:5:2: error: no event is named 'air'",
    );
    let path = file(
        &folder,
        "policy",
        "0 before 16\n17 before 3\n1 before 4\n5 before 6\n",
    );
    counted(
        &["policy", "show", &path],
        4,
        "policy:4:10: error: 6 is a sixth event",
    );
    let path = file(&folder, "policy", "0 before 16\nfire before water\n");
    counted(
        &["policy", "show", &path],
        3,
        "policy:1:10: error: 16 is no event",
    );
    let path = file(&folder, "policy", format!("{}gas\n", states(2)));
    counted(
        &["policy", "show", &path],
        2,
        "policy:17:7: error: the file has 18 states",
    );
}

#[test]
fn all_that_is_wrong_with_a_drum_is_said() {
    let folder = folder("all-of-drum");
    let cells = "cell 5000 1 above\ncell 300 1 inside\ncell 0 1 state\ncell 32 1 landings\ncell 512 1 table\ncell 8 1 mine\n";
    let drum = |line: &str, by: &str| file(&folder, "drum", changed("profile.drum", line, by));
    let cases = [(
        drum("M 0\n", &format!("M 0\n{cells}")),
        5,
        ":7:6: error: cell 300 is not the drum's own",
    )];
    for (path, count, said) in cases {
        counted(&["check", "sample.routine", "--drum", &path], count, said);
        let args = [
            "check",
            "sample.routine",
            "--drum",
            &path,
            "--policy=profile.policy",
        ];
        counted(&args, count, said);
    }
    for (line, by, count, said) in [
        (
            "landings routine",
            "landings 5 3 9999 2 8888",
            4,
            ":9:21: error: a landing is at most 1023; refused as bad landing list (14)",
        ),
        (
            "landings routine",
            "landings 5 x 3-1 y",
            3,
            ":9:18: error: 'y' is no landing",
        ),
        (
            "M 0\n",
            "M 300\ncell 5000 1 x\nevent 16 fire\n",
            3,
            ":5:3: error: the sandbox and the state cell share cell 300",
        ),
        (
            "SH 511\n",
            "SH 510\ncell 5000 1 x\n",
            2,
            ":5:6: error: cell 5000 is not the drum's own",
        ),
        (
            "ceiling gas 100",
            "ceiling gaz 1oo",
            2,
            ": error: '1oo' is no number",
        ),
        (
            "scale bean 10",
            "scale been 7",
            2,
            ": error: a scale is 1, 10, 100 or 1000",
        ),
        (
            "M 0\n",
            "M 0\ncell x y z\n",
            2,
            ":6:8: error: 'y' is no number",
        ),
    ] {
        counted(
            &["check", "sample.routine", "--drum", &drum(line, by)],
            count,
            said,
        );
    }
    let path = file(
        &folder,
        "drum",
        changed("profile.drum", "M 0\n", "M 300\n").replace("Q 32", "Q 256"),
    );
    counted(
        &["check", "sample.routine", "--drum", &path],
        2,
        "the sandbox and the landing cells share cell 256; refused as bad layout (7)",
    );
}
