//! What a class types at the prompt of step, each command on its own.

use crate::{command, file, folder, typed, Came};

/// Jumps of every condition, cells, an order above its ceiling and two readings.
const LESSON: &str = "\
    SET r0, 1500
    SET r1, 1800
    GOIF r0, r1, below, preheat
    HALT
preheat: SET r2, -5
    SET r3, 3
    GOIF r2, r3, less, go
go: GOIF r2, r3, below, preheat
    GOIF r0, r0, equal, on
    HALT
on: SET r5, 258
    STORE r5, r1
    EVENT bean
    SET r0, 300
    EVENT gas
    SET r7, on
    GOX r7, r0, r1, equal
    GOX r7, always
";

/// How a class with these lines comes back.
fn class(test: &str, more: &[&str], lines: &str) -> Came {
    let folder = folder(test);
    let path = file(&folder, "lesson", LESSON);
    let args = [
        "step",
        &path,
        "--drum=profile.drum",
        "--policy=profile.policy",
    ];
    typed(&[&args[..], more].concat(), lines)
}

/// What a class with these lines shows.
fn shown(test: &str, lines: &str) -> String {
    let came = class(test, &["--readings=196.5"], lines);
    assert!(!came.error.contains("is not known"), "{}", came.error);
    came.out
}

/// Each of these is shown, one behind the other.
fn in_order(shown: &str, all: &[&str]) {
    let mut rest = shown;
    for said in all {
        let at = rest.find(said);
        assert!(at.is_some(), "{said}\nis not in\n{rest}");
        rest = &rest[at.unwrap_or(0) + said.len()..];
    }
}

#[test]
fn what_says_why_a_jump_is_taken() {
    let lines = "2\nwhat\nuntil 7\nwhat\n\nwhat\n\nwhat\nuntil 12\nwhat\n\nwhat\nuntil gas\nwhat\nuntil 17\nwhat\n\nwhat\nstop\n";
    in_order(
        &shown("what", lines),
        &[
            "\n1500 below 1800: yes, to preheat\n",
            "\n-5 less 3: yes, to go\n",
            "\n4294967291 below 3: no, on to instruction 8, line 9: GOIF r0, r0, equal, on\n",
            "\n1500 equal 1500: yes, to on\n",
            "\naddress 258 (r5) lies in the sandbox\n",
            "\nbean reads the probe into r0 and records it; state 0 cold -> 1 warm\n",
            "\ngas records 80, limited from 300; state 1 warm -> 1 warm\n",
            "\n300 equal 1800: no, on to instruction 17, line 18: GOX r7, always\n",
            "\nalways: yes, to on, which is no landing; there are no landings: it will stop (26)\n",
        ],
    );
}

/// What an instruction without a jump will do, and a GOX above the routine's end.
#[test]
fn what_says_what_will_change() {
    let folder = folder("changes");
    let text = "SET r1, 7\nSET r1, 12\nADD r2, r1, r1\nGOX r1, always\nlanding\nHALT\n";
    let path = file(&folder, "changes", text);
    let args = [
        "step",
        &path,
        "--drum=profile.drum",
        "--policy=profile.policy",
    ];
    let lines = "what\n\nwhat\nback\n2\nwhat\n\nwhat\n\nwhat\n\nwhat\nstop\n";
    let came = typed(&args, lines);
    in_order(
        &came.out,
        &[
            "\nr1: 0 -> 7\n   1 ",
            "\nr1: 7 -> 12\nat",
            "\nr2: 0 -> 24\n",
            "\nalways: yes, r1 is 12, modulo 8: to instruction 4\n",
            "\nit will end (20)\n",
            "\nit is over",
        ],
    );
}

#[test]
fn until_and_break_take_a_line_an_event_or_a_label() {
    for order in ["until", "break"] {
        let go = if order == "break" { "all\n" } else { "" };
        let lines = format!("{order} 6\n{go}{order} on\n{go}{order} gas\n{go}clear\nstop\n");
        in_order(
            &shown(order, &lines),
            &[
                "line 6\n",
                "at instruction 5, line 6: SET r3, 3; state 0 cold\n",
                "label on\n",
                "at instruction 10, line 11: SET r5, 258; state 0 cold\n",
                "event gas\n",
                "at instruction 14, line 15: EVENT gas; state 1 warm\n",
            ],
        );
    }
    let all = shown(
        "breaks",
        "break 6\nbreak on\nbreak gas\nbreak\nclear\nbreak\nstop\n",
    );
    in_order(
        &all,
        &[
            "breaks: line 6, label on, event gas\n",
            "no breaks\n",
            "no breaks\n",
        ],
    );
}

#[test]
fn the_rest_of_a_lesson_shows_and_goes_back() {
    let lines =
        "until 16\nregs\ncells\ncells 257 259\nstate\nrecord\nback\nback 2\nregs\nhelp\nstop\n";
    in_order(
        &shown("rest", lines),
        &[
            "r0  300 ",
            "\n258: 1800\n",
            "257: 0  258: 1800  259: 0\n",
            "state 1 warm\n",
            "    1  8 bean          196.5\n    2  0 gas              80  limited by the ceiling, r0 is 300\n",
            "at instruction 14, line 15: EVENT gas; state 1 warm\n",
            "at instruction 12, line 13: EVENT bean; state 0 cold\n",
            "r0  1500 ",
            "stop                ends the lesson\n",
        ],
    );
}

/// The status of each way to end, as the documents list them.
#[test]
fn statuses() {
    let folder = folder("statuses");
    let halt = file(&folder, "halt", "HALT\n");
    let lost = file(&folder, "lost", "GOX r0, always\n");
    let wrong = file(&folder, "wrong", "JUMP\n");
    for (status, line) in [
        (
            0,
            format!("run {halt} --drum=profile.drum --policy=profile.policy"),
        ),
        (0, format!("check {halt} --drum=profile.drum")),
        (
            1,
            format!("run {wrong} --drum=profile.drum --policy=profile.policy"),
        ),
        (1, format!("check {halt} {wrong} --drum=profile.drum")),
        (1, "forward roast.routine --drum=roast.drum".to_string()),
        (2, "run".to_string()),
        (2, "check sample.routine".to_string()),
        (3, "list no-such-file".to_string()),
        (
            3,
            format!("check {wrong} no-such-file {halt} --drum=profile.drum"),
        ),
        (
            4,
            "run sample.routine --drum=sample.drum --policy=sample.policy".to_string(),
        ),
        (
            4,
            format!("run {lost} --drum=profile.drum --policy=profile.policy"),
        ),
        (
            5,
            "run roast.routine --drum=roast.drum --policy=roast.policy".to_string(),
        ),
        (
            5,
            "run roast.routine --drum=roast.drum --policy=roast.policy --budget=1".to_string(),
        ),
        (
            5,
            "run roast.routine --drum=roast.drum --policy=roast.policy --log=0".to_string(),
        ),
        (
            5,
            "step sample.routine --drum=sample.drum --policy=sample.policy".to_string(),
        ),
    ] {
        let came = command(&line.split(' ').collect::<Vec<_>>());
        assert_eq!(came.status, status, "{line}: {}{}", came.out, came.error);
    }
}

/// A silent probe and --all: nothing is asked, whatever could be read.
#[test]
fn all_asks_nothing() {
    let args = [
        "step",
        "roast.routine",
        "--drum=roast.drum",
        "--policy=roast.policy",
        "--all",
    ];
    let came = typed(&args, "1960\n2100\n");
    assert_eq!((came.status, came.error.as_str()), (5, ""));
    assert!(came.out.contains("0 readings used"), "{}", came.out);
}

/// What cannot be understood is said, and asked for again.
#[test]
fn typos_are_named() {
    let lines = "re\x07gs\nback 0\n-1\n4294967296\nback x\ncells 5 1\ncells x\nuntil nowhere\nbreak 99\nwhat now\nregs\nuntil bean\n\n\n196.55\n196.5\nall\nwhat\n\nstop\n";
    let came = class("typos", &[], lines);
    for said in [
        "'re\u{fffd}gs' is not known; 'help' lists what is known",
        "'0' is no number of instructions; 'help' lists what is known",
        "'-1' is no number of instructions;*",
        "'4294967296' has more than 32 bits;*",
        "'x' is not known;*",
        "cell 5 comes after cell 1;*",
        "'x' is no number;*",
        "'nowhere' is no line, no event and no label;*",
        "no instruction stands in line 99;*",
        "'what now' is not known;*",
        "a reading is wanted;*",
        "'196.55' has more decimals than the scale 10 takes;*",
    ] {
        came.ended(4, said);
    }
    // After the end nothing will be done.
    let over = "it is over: 'back' goes back, 'stop' ends the lesson\n";
    assert_eq!(came.out.matches(over).count(), 2, "{}", came.out);
    assert!(!came.out.contains("it will stop"), "{}", came.out);
}
