//! The largest files that are read: all that is wrong with them is said soon.

use crate::{command, file, folder};
use std::time::{Duration, Instant};

/// The most bytes of a file.
const LARGEST: usize = 1 << 20;

/// What no command may need for one file, on a machine with other work too.
const SOON: Duration = Duration::from_secs(10);

/// As many of these lines as fit.
fn filled(line: impl Fn(usize) -> String) -> String {
    let mut text = String::new();
    for place in 0.. {
        let next = line(place);
        if text.len() + next.len() > LARGEST {
            break;
        }
        text += &next;
    }
    text
}

#[test]
fn the_largest_files_are_refused_soon() {
    let folder = folder("largest");
    let texts = [
        filled(|_| "SET r1, 5\n".to_string()),
        filled(|_| "SET r1 5\n".to_string()),
        filled(|_| "SAR r1, r1, 40\n".to_string()),
        filled(|place| format!("at{place}: GOIF always, to{place}\n")),
        filled(|place| format!("cell {place} 0 a\ncell {place} 0 a\n")),
        filled(|place| format!("state a{}\n 0 -> b{place}\n", place % 190)),
        filled(|place| match place < 900 {
            true => format!("label{place}:\n"),
            false => format!("GOIF always, labes{place}\n"),
        }),
        filled(|_| "a\n".to_string()),
        "state a\n".to_string() + &filled(|_| format!("0 ->{}\n", " b".repeat(400)))[100..],
    ];
    for text in texts {
        let path = file(&folder, "large", text);
        for args in [
            vec!["policy", "show", &path],
            vec!["check", "sample.routine", "--drum", &path],
            vec!["check", &path, "--drum=sample.drum"],
        ] {
            let begin = Instant::now();
            command(&args).refused(": error: ");
            assert!(begin.elapsed() < SOON, "{args:?}: {:?}", begin.elapsed());
        }
    }
}

#[test]
fn all_errors_are_printed() {
    const LINES: usize = 5000;
    let folder = folder("all-errors");
    let path = file(&folder, "wrong", "JUMP\n".repeat(LINES));
    let came = command(&["check", &path, "--drum=sample.drum"]);
    came.refused("wrong:5000:1: error: 'JUMP' is no instruction");
    assert_eq!(came.error.matches(": error: ").count(), LINES);
    assert!(
        came.out.ends_with(": refused, 5000 errors\n"),
        "{}",
        came.out
    );
    let came = command(&["forward", &path, "--json"]);
    assert_eq!(came.out.lines().count(), LINES);
    // Drums and policies too.
    for args in [
        vec!["check", "sample.routine", "--drum", &path],
        vec!["policy", "show", &path],
    ] {
        let came = command(&args);
        came.refused("wrong:5000:1: error: 'JUMP' begins no line of a ");
        assert!(came.error.matches(": error: ").count() >= LINES);
        // What a line may be is listed once.
        assert_eq!(came.error.matches("they are").count(), 1);
    }
}
