//! Questions at a real terminal: what is typed, and what its screen is sent.

use crate::{examples, with, PROFILE, ROAST};
use std::ffi::CStr;
use std::fs::{File, OpenOptions};
use std::io::{Read, Write};
use std::os::fd::FromRawFd;
use std::os::unix::process::CommandExt;
use std::process::{Command, Stdio};
use std::sync::mpsc;
use std::thread;
use std::time::Duration;

extern "C" {
    fn posix_openpt(flags: i32) -> i32;
    fn grantpt(file: i32) -> i32;
    fn unlockpt(file: i32) -> i32;
    fn ptsname(file: i32) -> *const std::ffi::c_char;
    fn ioctl(file: i32, request: u64, ...) -> i32;
    fn setsid() -> i32;
}

/// How long a command may take to ask.
const PATIENCE: Duration = Duration::from_secs(20);

/// Read and write.
const BOTH: i32 = 2;
/// The request that gives a terminal its size.
const SET_SIZE: u64 = 0x5414;

/// A terminal of so many columns: the side of the person, and the name of the other. None
/// where the system gives no terminals.
fn terminal(columns: u16) -> Option<(File, String)> {
    // SAFETY: calls of the C library with a descriptor of its own, and with a live array.
    unsafe {
        let size: [u16; 4] = [24, columns, 0, 0];
        let person = posix_openpt(BOTH);
        if person < 0 {
            return None;
        }
        assert!(grantpt(person) == 0 && unlockpt(person) == 0);
        assert_eq!(ioctl(person, SET_SIZE, &raw const size), 0);
        let name = CStr::from_ptr(ptsname(person)).to_str().unwrap();
        Some((File::from_raw_fd(person), name.to_string()))
    }
}

/// The status and the screen of the command at such a terminal. Each word is typed once
/// the question is asked again, with nothing behind it.
fn session(columns: u16, args: &[&str], question: &str, words: &[&str]) -> Option<(i32, String)> {
    let (mut person, name) = terminal(columns)?;
    let other = || {
        let opened = OpenOptions::new().read(true).write(true).open(&name);
        Stdio::from(opened.expect("the terminal opens"))
    };
    let mut command = Command::new(env!("CARGO_BIN_EXE_hemdroas"));
    command
        .args(args)
        .current_dir(examples())
        .env("TERM", "xterm");
    command.stdin(other()).stdout(other()).stderr(other());
    // SAFETY: the call is allowed between fork and exec. The tests' own terminal stays theirs.
    unsafe {
        command.pre_exec(|| match setsid() {
            -1 => Err(std::io::Error::last_os_error()),
            _ => Ok(()),
        })
    };
    let mut child = command.spawn().expect("the command starts");
    drop(command);
    // A command that no longer listens to its keys is ended, and its status is none.
    let (done, is_done) = mpsc::channel::<()>();
    let id = child.id().to_string();
    thread::spawn(move || {
        if is_done.recv_timeout(PATIENCE) == Err(mpsc::RecvTimeoutError::Timeout) {
            let _ = Command::new("kill").arg(id).status();
        }
    });
    let (mut screen, mut part) = (Vec::new(), [0; 4096]);
    let mut words = words.iter();
    let asked = format!("\r{question}\x1b[K\r\x1b[{}C", question.len());
    // The read fails when the command has ended and closed its side.
    while let Ok(count @ 1..) = person.read(&mut part) {
        screen.extend(&part[..count]);
        if screen.ends_with(asked.as_bytes()) {
            let word = words.next().expect("the command asks no more than this");
            person
                .write_all(word.as_bytes())
                .expect("keys can be pressed");
        }
    }
    assert!(words.next().is_none(), "the command asks for all of them");
    let status = child.wait().expect("the command ends");
    drop(done);
    let screen = String::from_utf8(screen).expect("text is shown");
    Some((status.code().expect("no signal ended the command"), screen))
}

#[test]
fn keys_with_control_do_not_swallow_what_follows() {
    let Some((status, screen)) = session(
        80,
        &with("step", ROAST, &[]),
        "step: ",
        &[
            "tate\x1b[1;5D\x1b[1;5D\x1b[1;5D\x1b[1;5Ds\r",
            "\x1b[A\r",
            "stop\r",
        ],
    ) else {
        return;
    };
    assert_eq!(screen.matches("state 0 empty\r\n").count(), 4, "{screen}");
    assert_eq!(status, 5, "{screen}");
}

#[test]
fn a_line_has_room_on_a_narrow_terminal() {
    let typed = "what a long line this is\r";
    let args = with("step", ROAST, &[]);
    let Some((status, screen)) = session(20, &args, "step: ", &[typed, "stop\r"]) else {
        return;
    };
    assert_eq!(status, 5, "{screen}");
    let drawn = screen.split('\r').filter(|part| part.starts_with("step: "));
    for part in drawn {
        let shown = part.split('\x1b').next().unwrap();
        assert!(shown.len() < 20, "{shown:?}");
    }
}

#[test]
fn a_preview_asks_at_a_terminal() {
    let Some((status, screen)) = session(
        80,
        &with("preview", PROFILE, &[]),
        "readings of bean, or Enter: ",
        &["196.55\r", "\x1b[A\x7f\r", "\r"],
    ) else {
        return;
    };
    assert!(
        screen.contains("has more decimals than the scale 10 takes"),
        "{screen}"
    );
    assert!(screen.contains("8 bean          196.5"), "{screen}");
    assert_eq!(status, 5, "{screen}");
}
