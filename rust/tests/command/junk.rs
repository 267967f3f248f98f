//! Every subcommand on files that are none, and on outputs that cannot be used.

use crate::json::{objects, Value};
use crate::{command, examples, file, folder, Came};
use std::fs;
use std::io::pipe;
use std::os::unix::fs::PermissionsExt;
use std::os::unix::process::CommandExt;
use std::path::Path;
use std::process::{Command, Stdio};

/// The subcommands with files that they take, each with its status on them.
const GOOD: [(&str, i32); 12] = [
    ("assemble sample.routine --drum=sample.drum -o -", 0),
    ("list sample.routine --drum sample.drum --bundles", 0),
    (
        "check sample.routine --drum sample.drum --policy sample.policy",
        0,
    ),
    ("forward sample.routine --drum sample.drum", 0),
    (
        "run sample.routine --drum sample.drum --policy sample.policy",
        4,
    ),
    (
        "preview sample.routine --drum sample.drum --policy sample.policy",
        4,
    ),
    (
        "step sample.routine --drum sample.drum --policy sample.policy --all",
        4,
    ),
    ("policy precedence order.policy --drum roast.drum", 0),
    (
        "policy merge roast.policy exporter.policy --drum roast.drum",
        0,
    ),
    ("policy determinise exporter.policy --drum roast.drum", 0),
    ("policy show exporter.policy --drum roast.drum", 0),
    ("policy draw exporter.policy --drum roast.drum", 0),
];

/// The same for page, which needs the proved library for browsers.
const PAGE: &str = "page sample.routine --drum sample.drum --policy sample.policy -o -";

/// The arguments of each, and its status.
fn good() -> Vec<(Vec<&'static str>, i32)> {
    let mut all: Vec<(Vec<&str>, i32)> = GOOD
        .map(|(line, status)| (line.split(' ').collect(), status))
        .into();
    let page: Vec<&str> = PAGE.split(' ').collect();
    if command(&page).status == 0 {
        all.push((page, 0));
    }
    all
}

/// Those that can print objects, doing so.
fn good_json() -> impl Iterator<Item = (Vec<&'static str>, i32)> {
    let mut all = good();
    all.retain(|(args, _)| !["assemble", "list", "page"].contains(&args[0]));
    all.into_iter().map(|(mut args, status)| {
        args.push("--json");
        (args, status)
    })
}

/// Whether an argument names a file of the examples, behind an option too.
fn named(word: &str) -> Option<&str> {
    let name = word.split('=').next_back()?;
    let is_file = [".routine", ".drum", ".policy"]
        .iter()
        .any(|end| name.ends_with(end));
    is_file.then_some(name)
}

/// The same arguments with one of their files replaced, for each of them.
fn replaced(args: &[&str], by: impl Fn(&str) -> String) -> Vec<Vec<String>> {
    let places = (0..args.len()).filter(|&place| named(args[place]).is_some());
    places
        .map(|place| {
            let mut words: Vec<String> = args.iter().map(|word| word.to_string()).collect();
            let name = named(args[place]).expect("it names a file");
            words[place] = args[place].replace(name, &by(name));
            words
        })
        .collect()
}

fn run(words: &[String]) -> Came {
    let output = Command::new(env!("CARGO_BIN_EXE_hemdroas"))
        .args(words)
        .current_dir(examples())
        .stdin(Stdio::null())
        .output()
        .expect("the command runs");
    let text = |bytes: &[u8]| String::from_utf8_lossy(bytes).into_owned();
    let came = Came {
        status: output.status.code().expect("no signal ended the command"),
        out: text(&output.stdout),
        error: text(&output.stderr),
    };
    assert!(
        !came.error.contains("panicked"),
        "{words:?}: {}",
        came.error
    );
    came
}

/// The file among these arguments that lies in a folder.
fn copied<'a>(words: &'a [String], folder: &Path) -> &'a str {
    let folder = folder.to_str().expect("paths are text");
    let parts = words.iter().flat_map(|word| word.split('='));
    let mut inside = parts.filter(|part| part.starts_with(folder));
    inside.next().expect("a file was copied")
}

/// Runs the command with a shell's line behind it, in the examples' folder.
fn shell(line: &str) -> Came {
    let output = Command::new("sh")
        .args([
            "-c",
            &format!("exec '{}' {line}", env!("CARGO_BIN_EXE_hemdroas")),
        ])
        .current_dir(examples())
        .stdin(Stdio::null())
        .output()
        .expect("a shell runs");
    Came::of(output)
}

/// Files that are none, each with the status and what is said of it.
fn junk(folder: &Path) -> Vec<(String, i32, &'static str)> {
    let bytes: Vec<u8> = (0..4000u32)
        .map(|i| (i.wrapping_mul(2_654_435_761) >> 13) as u8)
        .collect();
    let noise = [b"\x7fELF".as_slice(), &bytes].concat();
    vec![
        (file(folder, "empty", ""), 1, ": error: "),
        (file(folder, "blank", "\n \t\n"), 1, ": error: "),
        (file(folder, "binary", noise), 1, ": error: "),
        (file(folder, "zeros", [0; 600]), 1, ": error: "),
        (
            file(folder, "huge", vec![b'#'; 2 << 20]),
            3,
            "longer than 1048576 bytes",
        ),
        (
            file(folder, "latin", b"HALT # 20\xb0\n"),
            1,
            ":1:10: error: not UTF-8 text",
        ),
        (
            file(folder, "mark", "\u{feff}HALT\n"),
            1,
            ":1:1: error: a byte-order mark",
        ),
        (
            file(folder, "bell", "HALT\n \x07\n"),
            1,
            ":2:2: error: a control character, U+0007",
        ),
        (
            file(folder, "utf16", b"\xff\xfeH\0"),
            1,
            ":1:1: error: UTF-16 text",
        ),
        (
            folder.join("missing").to_str().unwrap().to_string(),
            3,
            "No such file or directory",
        ),
        (folder.to_str().unwrap().to_string(), 3, "Is a directory"),
    ]
}

#[test]
fn files_that_are_none() {
    let folder = folder("junk");
    let mut tried = 0;
    for (path, status, said) in junk(&folder) {
        for (args, _) in good() {
            for words in replaced(&args, |_| path.clone()) {
                let came = run(&words);
                assert_eq!(came.status, status, "{words:?}: {}", came.error);
                came.ended(status, said);
                tried += 1;
            }
        }
    }
    let files =
        |(args, _): &(Vec<&str>, i32)| args.iter().filter(|word| named(word).is_some()).count();
    let files: usize = good().iter().map(files).sum();
    assert!(files >= 29, "every file of every subcommand");
    assert_eq!(tried, 11 * files);
}

/// With --json the status is the same, and what is wrong is an object.
#[test]
fn files_that_are_none_have_objects() {
    let folder = folder("junk-json");
    for (path, status, said) in junk(&folder) {
        for (args, _) in good_json() {
            for words in replaced(&args, |_| path.clone()) {
                let came = run(&words);
                assert_eq!(
                    (came.status, came.error.as_str()),
                    (status, ""),
                    "{words:?}"
                );
                let message = said.split("error: ").last().unwrap();
                let all = objects(&came.out);
                let is_error = |object: &&Value| object.field("type").text() == "error";
                let mut errors = all.iter().filter(is_error);
                let is_said = |error: &Value| error.field("message").text().contains(message);
                assert!(errors.any(is_said), "{words:?}: {}", came.out);
            }
        }
    }
}

#[test]
fn lines_may_end_as_on_windows() {
    let folder = folder("crlf");
    for (args, status) in good() {
        let plain = command(&args);
        assert_eq!(plain.status, status, "{args:?}: {}", plain.error);
        let windows = |name: &str| {
            let text = fs::read_to_string(examples().join(name)).unwrap();
            file(&folder, name, text.replace('\n', "\r\n"))
        };
        for words in replaced(&args, windows) {
            let came = run(&words);
            let same = came
                .out
                .replace(folder.to_str().unwrap(), "")
                .replace('/', "");
            assert_eq!(
                (same, came.status),
                (plain.out.replace('/', ""), status),
                "{words:?}"
            );
        }
    }
}

#[test]
fn an_output_that_nobody_reads_ends_quietly() {
    for (args, _) in good().into_iter().chain(good_json()) {
        let (reader, writer) = pipe().expect("a pipe can be made");
        drop(reader);
        let output = Command::new(env!("CARGO_BIN_EXE_hemdroas"))
            .args(&args)
            .current_dir(examples())
            .stdin(Stdio::null())
            .stdout(writer)
            .stderr(Stdio::piped())
            .spawn()
            .and_then(|child| child.wait_with_output())
            .expect("the command runs");
        let error = String::from_utf8_lossy(&output.stderr);
        assert_eq!(
            (output.status.code(), error.as_ref()),
            (Some(3), ""),
            "{args:?}"
        );
    }
}

#[test]
fn an_output_that_is_closed_cannot_be_written() {
    let others = ["--version", "help", "help run", "policy"];
    let others = others.map(|line| (line.split(' ').collect(), 0));
    for (args, _) in good().into_iter().chain(good_json()).chain(others) {
        let came = shell(&format!("{} >&-", args.join(" ")));
        let said = "hemdroas: standard output: it is closed\n";
        assert_eq!((came.status, came.error.as_str()), (3, said), "{args:?}");
    }
}

#[test]
fn an_output_that_is_an_input_is_refused() {
    let folder = folder("same");
    for (args, _) in good() {
        let takes_output =
            !["check", "forward", "run", "preview", "step"].contains(&args[0]) && args[1] != "show";
        if !takes_output {
            continue;
        }
        let text = |name: &str| fs::read(examples().join(name)).unwrap();
        let copy = |name: &str| file(&folder, name, text(name));
        for words in replaced(&args, copy) {
            let words: Vec<String> = words
                .into_iter()
                .filter(|word| word != "-o" && word != "-")
                .collect();
            let input = copied(&words, &folder);
            let name = Path::new(input).file_name().unwrap().to_str().unwrap();
            let (hard, soft) = (folder.join("hard"), folder.join("soft"));
            let _ = (fs::remove_file(&hard), fs::remove_file(&soft));
            fs::hard_link(input, &hard).unwrap();
            std::os::unix::fs::symlink(input, &soft).unwrap();
            for out in [input, hard.to_str().unwrap(), soft.to_str().unwrap()] {
                let words = [&words[..], &["-o".to_string(), out.to_string()]].concat();
                let came = run(&words);
                came.ended(3, "it is the input *, and would be overwritten");
                assert_eq!(fs::read(input).unwrap(), text(name), "{words:?}");
            }
            fs::remove_file(&soft).unwrap(); // rt refuses a folder with links
        }
    }
}

#[test]
fn standard_output_that_is_an_input_is_refused() {
    let folder = folder("printed");
    for (args, status) in good() {
        let copy = |name: &str| file(&folder, name, fs::read(examples().join(name)).unwrap());
        for words in replaced(&args, copy) {
            let input = copied(&words, &folder);
            let before = fs::read(input).unwrap();
            let came = shell(&format!("{} >> {input}", words.join(" ")));
            came.ended(
                3,
                "standard output: it is the input *, and would be overwritten",
            );
            assert_eq!(fs::read(input).unwrap(), before, "{words:?}");
        }
        // Other files, and what is no plain file, are written.
        let other = folder.join("other");
        for out in ["/dev/null", other.to_str().unwrap()] {
            assert_eq!(
                shell(&format!("{} >> {out}", args.join(" "))).status,
                status
            );
        }
    }
    shell("list - < /dev/null > /dev/null").ended(1, "the file is empty");
}

/// Messages are not written to an input either: standard output has this one.
#[test]
fn standard_error_that_is_an_input_is_refused() {
    let folder = folder("said");
    for (args, _) in good() {
        let copy = |name: &str| file(&folder, name, fs::read(examples().join(name)).unwrap());
        for words in replaced(&args, copy) {
            let input = copied(&words, &folder);
            let before = fs::read(input).unwrap();
            let said = format!(
                "hemdroas: standard error: it is the input {input}, and would be overwritten\n"
            );
            shell(&format!("{} 2>> {input}", words.join(" "))).printed(3, &said);
            assert_eq!(fs::read(input).unwrap(), before, "{words:?}");
        }
    }
}

#[test]
fn a_file_that_is_written_keeps_its_mode() {
    let folder = folder("mode");
    let out = file(&folder, "out", "before");
    for mode in [0o640, 0o755] {
        fs::set_permissions(&out, fs::Permissions::from_mode(mode)).unwrap();
        let line = format!("assemble sample.routine --drum sample.drum -o {out}");
        command(&line.split(' ').collect::<Vec<_>>()).printed(0, "");
        let found = fs::metadata(&out).unwrap().permissions().mode();
        assert_eq!(found & 0o777, mode);
    }
}

/// Writes a file of a mode in a folder of a mode, as a user who may not write all files.
/// None if the folders above the command are closed to that user.
fn written_by_nobody(folder: &Path, file_mode: u32, folder_mode: u32) -> Option<(Came, Vec<u8>)> {
    const NOBODY: u32 = 65534;
    let mode = fs::Permissions::from_mode;
    let out = file(folder, "out", "before");
    fs::set_permissions(&out, mode(0o444)).unwrap();
    let mut command = Command::new(env!("CARGO_BIN_EXE_hemdroas"));
    command.args("assemble sample.routine --drum sample.drum -o".split(' '));
    command.arg(&out).current_dir(examples());
    if fs::File::options().write(true).open(&out).is_ok() {
        command.uid(NOBODY);
    }
    fs::set_permissions(&out, mode(file_mode)).unwrap();
    fs::set_permissions(folder, mode(folder_mode)).unwrap();
    let output = command.output();
    fs::set_permissions(folder, mode(0o755)).unwrap();
    Some((Came::of(output.ok()?), fs::read(&out).unwrap()))
}

#[test]
fn a_file_that_may_not_be_written_is_not_replaced() {
    let folder = folder("kept");
    if let Some((came, content)) = written_by_nobody(&folder, 0o444, 0o777) {
        came.ended(3, "out: Permission denied");
        assert_eq!(content, b"before");
    }
}

#[test]
fn a_file_is_written_where_no_other_can_be_made() {
    let folder = folder("alone");
    let bytes = "assemble sample.routine --drum sample.drum -o -";
    let bytes = command(&bytes.split(' ').collect::<Vec<_>>()).out;
    if let Some((came, content)) = written_by_nobody(&folder, 0o666, 0o555) {
        came.printed(0, "");
        assert_eq!(content, bytes.as_bytes());
    }
    let out = file(&folder, &"n".repeat(250), "before");
    let line = format!("assemble sample.routine --drum sample.drum -o {out}");
    command(&line.split(' ').collect::<Vec<_>>()).printed(0, "");
    assert_eq!(fs::read(&out).unwrap(), bytes.as_bytes());
}

#[test]
fn questions_that_a_folder_should_answer_end_with_a_message() {
    for line in ["preview", "step", "run --resume"] {
        let mut words = line.split(' ').collect::<Vec<_>>();
        words.extend("profile.routine --drum profile.drum --policy profile.policy".split(' '));
        let output = Command::new(env!("CARGO_BIN_EXE_hemdroas"))
            .args(words)
            .current_dir(examples())
            .stdin(fs::File::open(examples()).expect("a folder opens"))
            .output()
            .expect("the command runs");
        let came = Came::of(output);
        assert_eq!(came.status, 3, "{line}: {}", came.error);
        let said = "\nhemdroas: standard input: Is a directory\n";
        assert!(came.error.ends_with(said), "{line}: {}", came.error);
    }
}
