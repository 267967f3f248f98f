//! Lines as they are typed at a terminal, key by key.

#[path = "../../src/bin/hemdroas/editing.rs"]
mod editing;

use editing::{key, Editor, Typed};

/// What comes of bytes that a terminal sends, after these lines.
fn typed(before: &[&str], sent: &str) -> Option<Typed> {
    let before: Vec<String> = before.iter().map(|line| line.to_string()).collect();
    let mut editor = Editor::new(&before);
    let mut bytes = sent.bytes();
    while let Some(key) = key(&mut bytes) {
        if let Some(typed) = editor.press(key) {
            return Some(typed);
        }
        assert!(editor.at <= editor.line.len());
    }
    None
}

#[test]
fn keys_edit_a_line() {
    let lines = [
        ("regs\r", "regs"),
        ("reg\x1b[D\x1b[D\x1b[Cx\n", "rexg"),
        ("rex\x7fgs\n", "regs"),
        ("gs\x1b[Hre\x1b[F!\n", "regs!"),
        ("gs\x1b[1~re\x1b[4~!\n", "regs!"),
        ("gs\x01re\x05!\n", "regs!"),
        ("xregs\x01\x1b[3~\n", "regs"),
        ("xregs\x01\x04\n", "regs"),
        ("cells 1 2\x17\x17\n", "cells "),
        ("nonsense\x15regs\n", "regs"),
        (
            "regs and more\x1b[D\x02\x1bOH\x06\x06\x06\x06\x0b\n",
            "regs",
        ),
        ("\u{e9}t\u{e9}\x7f\n", "\u{e9}t"),
        ("\x1b[5~\x1b[Za\x1bq\x00\n", "a"),
        // With Control, Shift or Alt the arrow keys send numbers, and no ~.
        ("reg\x1b[1;5D\x1b[1;2D\x1b[1;3Cx\n", "rexg"),
        ("gs\x1b[1;5Hre\x1b[1;5F!\n", "regs!"),
        ("xregs\x01\x1b[3;5~\n", "regs"),
        ("\x1b[15~\x1b[200~regs\x1b[201~\n", "regs"),
        // The function keys of a console.
        ("\x1b[[Aregs\x1b[[E\n", "regs"),
        ("\x7f\x1b[D\x1b[3~\x17\n", ""),
    ];
    for (sent, line) in lines {
        assert_eq!(
            typed(&[], sent),
            Some(Typed::Line(line.to_string())),
            "{sent:?}"
        );
    }
}

#[test]
fn earlier_lines_come_back() {
    let before = ["regs", "until charge"];
    let lines = [
        ("\x1b[A\n", "until charge"),
        ("\x10\x10\n", "regs"),
        ("\x1b[A\x1b[A\x1b[A\x1b[B\n", "until charge"),
        ("\x1b[A\x0e\n", ""),
        ("\x1b[A\x17door\n", "until door"),
    ];
    for (sent, line) in lines {
        assert_eq!(
            typed(&before, sent),
            Some(Typed::Line(line.to_string())),
            "{sent:?}"
        );
    }
}

#[test]
fn a_person_may_leave() {
    assert_eq!(typed(&[], "regs\x03"), Some(Typed::Left));
    assert_eq!(typed(&[], "\x04"), Some(Typed::Left));
    assert_eq!(typed(&[], "regs\x04"), None);
}

#[test]
fn a_long_line_is_shown_around_the_cursor() {
    let mut editor = Editor::new(&[]);
    let mut bytes = "123456789 123456789 123456789".bytes();
    while let Some(key) = key(&mut bytes) {
        editor.press(key);
    }
    let shown = "\rstep:  123456789 123456789\x1b[K\r\x1b[26C";
    assert_eq!(editor.drawn("step: ", 27), shown);
}
