//! The documents: every line behind `$ ` is typed as it stands, in the
//! repository's folder, and prints what stands below it.

use crate::{examples, folder};
use std::path::Path;
use std::process::Command;

/// The commands of a document, each with what it prints.
fn commands(text: &str) -> Vec<(String, String)> {
    let mut found: Vec<(String, String)> = Vec::new();
    let mut is_code = false;
    let mut is_output = false;
    for line in text.lines() {
        if line.starts_with("```") {
            (is_code, is_output) = (!is_code, false);
        } else if let (true, Some(typed)) = (is_code, line.strip_prefix("$ ")) {
            found.push((typed.to_string(), String::new()));
            is_output = true;
        } else if is_output {
            let (_, printed) = found.last_mut().expect("a command stands above");
            *printed += line;
            *printed += "\n";
        }
    }
    found
}

/// Types a document's lines one after the other.
fn type_all(name: &str, text: &str) {
    // What the lines write goes to a folder of this test that looks like the repository's.
    let here = folder(name);
    let root = Path::new(env!("CARGO_MANIFEST_DIR")).join("..");
    std::fs::create_dir(here.join("target")).expect("a folder can be made");
    let (from, to) = (root.join("examples"), here.join("examples"));
    std::fs::create_dir(&to).expect("a folder can be made");
    for entry in std::fs::read_dir(from).expect("the examples can be listed") {
        let entry = entry.expect("an example can be named");
        std::fs::copy(entry.path(), to.join(entry.file_name())).expect("an example is copied");
    }
    let binary = Path::new(env!("CARGO_BIN_EXE_hemdroas"));
    let folder = binary.parent().expect("the command lies in a folder");
    let path = std::env::var("PATH").unwrap_or_default();
    let all = commands(text);
    assert!(!all.is_empty());
    for (typed, printed) in all {
        let output = Command::new("sh")
            .args(["-c", &format!("exec 2>&1; {typed}")])
            .env("PATH", format!("{}:{path}", folder.display()))
            .current_dir(&here)
            .output()
            .expect("a shell runs");
        let came = String::from_utf8(output.stdout).expect("text is printed");
        assert_eq!(came, printed, "$ {typed}");
    }
}

/// The examples of the manual page, in a folder with the files that they name.
#[test]
fn the_manual_page() {
    let here = folder("doc-manual");
    for name in ["roast.routine", "roast.drum", "roast.policy"] {
        std::fs::copy(examples().join(name), here.join(name)).expect("an example is copied");
    }
    let page = include_str!("../../../docs/hemdroas.1");
    let (_, rest) = page.split_once("\n.EX\n").expect("examples begin");
    let (lines, _) = rest.split_once("\n.EE\n").expect("examples end");
    for line in lines.lines() {
        let typed = line.replace('\\', "");
        let words = typed
            .strip_prefix("hemdroas ")
            .expect("a line of the command");
        let output = Command::new(env!("CARGO_BIN_EXE_hemdroas"))
            .args(words.split(' '))
            .current_dir(&here)
            .output()
            .expect("the command runs");
        assert!(output.status.success(), "{typed}: {output:?}");
    }
}

#[test]
fn routines() {
    type_all("doc-routines", include_str!("../../../docs/ROUTINES.md"));
}

#[test]
fn files() {
    type_all("doc-files", include_str!("../../../docs/FILES.md"));
}

#[test]
fn readme() {
    type_all("doc-readme", include_str!("../../../README.md"));
}
