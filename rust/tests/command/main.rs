//! The command `hemdroas`: its text forms, and every subcommand on good and
//! damaged input, with what it prints as it is stored in `stored`.

#[path = "../common/mod.rs"]
mod common;

mod building;
mod damage;
mod documents;
mod json;
mod junk;
mod keys;
mod large;
mod lessons;
mod named;
mod objects;
mod page;
mod policies;
mod routines;
mod running;
#[cfg(all(
    target_os = "linux",
    any(target_arch = "x86_64", target_arch = "aarch64")
))]
mod terminal;
mod writing;

use std::fs;
use std::io::Write;
use std::path::{Path, PathBuf};
use std::process::{Command, Output, Stdio};

/// The routine, drum and policy of an example, as arguments.
macro_rules! files {
    ($name:literal) => {
        [
            concat!($name, ".routine"),
            "--drum",
            concat!($name, ".drum"),
            "--policy",
            concat!($name, ".policy"),
        ]
    };
}

/// The folder of the example files.
fn examples() -> PathBuf {
    Path::new(env!("CARGO_MANIFEST_DIR")).join("../examples")
}

const SAMPLE: [&str; 5] = files!("sample");
const ROAST: [&str; 5] = files!("roast");
const PROFILE: [&str; 5] = files!("profile");

/// The arguments of a subcommand that runs one of these.
fn with<'a>(name: &'a str, files: [&'a str; 5], more: &[&'a str]) -> Vec<&'a str> {
    [&[name], &files[..], more].concat()
}

/// A folder for the files of one test, empty at first.
fn folder(test: &str) -> PathBuf {
    let folder = Path::new(env!("CARGO_TARGET_TMPDIR")).join(test);
    if folder.exists() {
        fs::remove_dir_all(&folder).expect("the folder can be emptied");
    }
    fs::create_dir_all(&folder).expect("the folder can be made");
    folder
}

/// A file of a test's folder.
fn file(folder: &Path, name: &str, content: impl AsRef<[u8]>) -> String {
    let path = folder.join(name);
    fs::write(&path, content).expect("the file can be written");
    path.to_str().expect("paths are text").to_string()
}

/// How the command came back: its status, and what it printed.
struct Came {
    status: i32,
    out: String,
    error: String,
}

impl Came {
    fn of(output: Output) -> Came {
        let text = |bytes| String::from_utf8(bytes).expect("the command prints text");
        let came = Came {
            status: output.status.code().expect("no signal ended the command"),
            out: text(output.stdout),
            error: text(output.stderr),
        };
        assert!(!came.error.contains("panicked"), "{}", came.error);
        came
    }

    /// It did what it was asked and printed this.
    fn printed(&self, status: i32, out: &str) {
        assert_eq!(
            (self.out.as_str(), self.status),
            (out, status),
            "{}",
            self.error
        );
    }

    /// It ended with a status and this on standard error, in which * stands for
    /// anything within a line.
    fn ended(&self, status: i32, said: &str) {
        assert_eq!(self.status, status, "{}", self.error);
        let has = |line: &str| {
            let mut rest = Some(line);
            for part in said.split('*') {
                rest = rest.and_then(|rest| Some(&rest[rest.find(part)? + part.len()..]));
            }
            rest.is_some()
        };
        let found = self.error.lines().any(has);
        assert!(found, "{said}\nis not in\n{}", self.error);
    }

    /// It refused with this on standard error, and printed nothing, but for the
    /// line that check has for each file.
    fn refused(&self, said: &str) {
        self.ended(1, said);
        assert!(
            self.out.is_empty() || self.out.contains(": refused"),
            "{}",
            self.out
        );
    }
}

/// What a terminal would show: both outputs in one, with so much typed in.
fn transcript(name: &str, args: &[&str], input: &str) -> (i32, String) {
    let path = folder(name).join("shown");
    let shown = fs::File::create(&path).expect("a file can be made");
    let mut child = Command::new(env!("CARGO_BIN_EXE_hemdroas"))
        .args(args)
        .current_dir(examples())
        .stdin(Stdio::piped())
        .stdout(shown.try_clone().expect("a file has two ends"))
        .stderr(shown)
        .spawn()
        .expect("the command starts");
    let mut stdin = child.stdin.take().expect("standard input is piped");
    let _ = stdin.write_all(input.as_bytes());
    drop(stdin);
    let status = child.wait().expect("the command ends");
    let shown = fs::read_to_string(path).expect("the command prints text");
    assert!(!shown.contains("panicked"), "{shown}");
    (status.code().expect("no signal ended the command"), shown)
}

/// Runs the command in the examples' folder, with so much typed in.
fn typed(args: &[&str], input: &str) -> Came {
    let mut child = Command::new(env!("CARGO_BIN_EXE_hemdroas"))
        .args(args)
        .current_dir(examples())
        .stdin(Stdio::piped())
        .stdout(Stdio::piped())
        .stderr(Stdio::piped())
        .spawn()
        .expect("the command starts");
    let mut stdin = child.stdin.take().expect("standard input is piped");
    // The command may have ended without reading it.
    let _ = stdin.write_all(input.as_bytes());
    drop(stdin);
    Came::of(child.wait_with_output().expect("the command ends"))
}

/// Runs the command in the examples' folder.
fn command(args: &[&str]) -> Came {
    typed(args, "")
}
