//! page, and the drum's own cells.

use super::{command, examples, file, folder};
use std::fs;

const ROAST: [&str; 5] = [
    "roast.routine",
    "--drum",
    "roast.drum",
    "--policy",
    "roast.policy",
];

/// The roast's drum with other lines at its end.
fn drum_with(name: &str, lines: &str) -> String {
    let drum = fs::read_to_string(examples().join("roast.drum")).expect("the example is there");
    file(&folder(name), "other.drum", format!("{drum}{lines}\n"))
}

#[test]
fn a_page_is_written_or_the_missing_library_named() {
    let out = folder("page").join("roast.html");
    let path = out.to_str().expect("paths are text");
    let came = command(&[&["page"], &ROAST[..], &["-o", path]].concat());
    if came.status != 0 {
        came.ended(
            3,
            "run tools/build-for wasm32-unknown-unknown, then build the command again",
        );
        assert!(!out.exists());
        return;
    }
    let page = fs::read_to_string(out).expect("the page is written");
    assert!(page.starts_with("<!doctype html>"));
    assert!(page.contains("<title>roast.routine in its sandbox</title>"));
    assert!(page.contains(r#"{"cell":8,"value":600,"name":"purge timer"}"#));
    assert!(!page.contains("{{"));
}

#[test]
fn a_refused_routine_makes_no_page() {
    let folder = folder("no-page");
    let out = folder.join("bad.html");
    let path = out.to_str().expect("paths are text");
    let routine = file(&folder, "bad.routine", "GOIF always, 9\n");
    let came = command(&[&["page", &routine], &ROAST[1..], &["-o", path]].concat());
    came.refused("refused as bad landing (8)");
    assert!(!out.exists());
}

#[test]
fn named_cells_hold_their_value_and_are_the_drums_own() {
    let run = |drum: &str| {
        command(&[
            "check",
            "roast.routine",
            "--drum",
            drum,
            "--policy",
            "roast.policy",
        ])
    };
    assert_eq!(
        run(&drum_with("cells", "cell 20 7 hopper weight")).status,
        0
    );
    for (cell, said) in [
        ("cell 0 1 x", "cell 0 is not the drum's own"),
        ("cell 300 1 x", "cell 300 is not the drum's own"),
        ("cell 512 1 x", "cell 512 is not the drum's own"),
        ("cell 40 1 x", "cell 40 is not the drum's own"),
        ("cell 1024 1 x", "cell 1024 is not the drum's own"),
        ("cell 8 1 x", "cell 8 stands twice"),
        ("cell eight 1 x", "'eight' is no number"),
        ("cell 20 7", "cell wants an address, a value and a name"),
    ] {
        run(&drum_with("cells", cell)).refused(said);
    }
}

#[test]
fn help_says_that_the_output_is_needed() {
    for name in ["assemble", "page"] {
        let came = command(&["help", name]);
        assert!(came.out.contains("it is needed"), "{}", came.out);
        assert!(!came.out.contains("without it, or for -"), "{}", came.out);
    }
    let came = command(&["help", "run"]);
    let said = "All cells are 0 at first, but for those that the drum's file names.";
    assert!(came.out.contains(said), "{}", came.out);
}
