//! Reading and writing.

use super::args::Args;
use super::closed::was_closed;
use super::json::Json;
use super::problem::Problem;
use std::fs::{self, File, Metadata, Permissions};
use std::io::{self, ErrorKind, Read, Write};
use std::os::fd::AsFd;
use std::os::unix::fs::MetadataExt;
use std::path::{Path, PathBuf};

/// The most bytes of a file.
const LARGEST_FILE: u64 = 1 << 20;

/// What messages call the outputs that have no name.
const STANDARD_OUTPUT: &str = "standard output";
const STANDARD_ERROR: &str = "standard error";

/// The problem that a file cannot be read or written. A broken pipe is not reported.
pub fn failed(path: &str, error: io::Error) -> Problem {
    match error.kind() {
        ErrorKind::BrokenPipe => Problem::Quiet,
        // The system's words, without its number.
        _ => {
            let said = error.to_string();
            let plain = said.split(" (os error").next().unwrap_or("");
            Problem::File(path.to_string(), plain.to_string())
        }
    }
}

/// The content of a file, or of standard input for -.
pub fn read(path: &str) -> Result<Vec<u8>, Problem> {
    let mut content = Vec::new();
    let mut limited: Box<dyn Read> = match path {
        "-" => Box::new(io::stdin().take(LARGEST_FILE + 1)),
        _ => {
            let file = File::open(path).map_err(|error| failed(path, error))?;
            Box::new(file.take(LARGEST_FILE + 1))
        }
    };
    let read = limited.read_to_end(&mut content);
    read.map_err(|error| failed(path, error))?;
    if content.len() as u64 > LARGEST_FILE {
        let said = format!("longer than {LARGEST_FILE} bytes");
        return Err(Problem::File(path.to_string(), said));
    }
    Ok(content)
}

/// The identity of a plain file.
fn identity_of(about: io::Result<Metadata>) -> Option<(u64, u64)> {
    let about = about.ok()?;
    about.is_file().then(|| (about.dev(), about.ino()))
}

fn identity(path: &str) -> Option<(u64, u64)> {
    identity_of(fs::metadata(path))
}

/// The identity of standard output or standard error, if it goes to a plain file.
fn printed_identity(out: impl AsFd) -> Option<(u64, u64)> {
    let out = out.as_fd().try_clone_to_owned().ok()?;
    identity_of(File::from(out).metadata())
}

/// The outputs of the arguments, each with its identity if it is a plain file. With
/// `-o` and `--json` there are two: the file, and standard output for the object.
fn outputs(args: &Args) -> Vec<(&str, Option<(u64, u64)>)> {
    let named = args.value("-o").filter(|&out| out != "-");
    let mut outputs: Vec<_> = named.iter().map(|&out| (out, identity(out))).collect();
    if named.is_none() || args.is_json() {
        outputs.push((STANDARD_OUTPUT, printed_identity(io::stdout())));
    }
    outputs.push((STANDARD_ERROR, printed_identity(io::stderr())));
    outputs
}

/// Refuses an output that is one of the inputs, whatever its name is, and an input
/// that would be read twice.
pub fn keep_inputs(args: &Args) -> Result<(), Problem> {
    let options = ["--drum", "--policy"].map(|name| args.value(name));
    let files = args.files().iter().map(String::as_str);
    let inputs: Vec<&str> = files.chain(options.into_iter().flatten()).collect();
    if inputs.iter().filter(|&&input| input == "-").count() > 1 {
        let said = "- stands twice: standard input can be read once";
        return Err(Problem::Usage(said.to_string()));
    }
    for (out, written) in outputs(args) {
        for input in inputs.iter().filter(|_| written.is_some()) {
            let opened = if *input == "-" { "/dev/stdin" } else { input };
            if identity(opened) == written {
                let said = format!("it is the input {input}, and would be overwritten");
                // The message would overwrite the input, so it goes to standard output.
                if out == STANDARD_ERROR && !args.is_json() {
                    print(&format!("hemdroas: {out}: {said}\n"))?;
                    return Err(Problem::Quiet);
                }
                return Err(Problem::File(out.to_string(), said));
            }
        }
    }
    Ok(())
}

/// Errors that mean that no file can be made beside another: the folder may not be
/// written, or the name is too long.
const NO_NEIGHBOUR: [ErrorKind; 2] = [ErrorKind::PermissionDenied, ErrorKind::InvalidFilename];

/// The mode of a file that is to be written, if the file exists. If it may not be
/// written, this fails, so that it is not replaced either.
fn mode(path: &Path) -> io::Result<Option<Permissions>> {
    match File::options().write(true).open(path) {
        Ok(file) => Ok(Some(file.metadata()?.permissions())),
        Err(error) if error.kind() == ErrorKind::NotFound => Ok(None),
        Err(error) => Err(error),
    }
}

/// Writes a file beside the path and moves it there, so that a full disk leaves
/// what was there before. The file keeps its mode. If none can be made beside it,
/// the file is written in place.
fn replace(path: &Path, content: &[u8]) -> io::Result<()> {
    let mode = mode(path)?;
    let mut beside = path.as_os_str().to_owned();
    beside.push(format!(".{}.part", std::process::id()));
    let beside = PathBuf::from(beside);
    let fill = |mut file: File| {
        file.write_all(content)?;
        let made = file.metadata()?.permissions();
        if let Some(other) = mode.filter(|mode| *mode != made) {
            file.set_permissions(other)?;
        }
        file.sync_all()
    };
    let made = match File::create(&beside) {
        Err(error) if NO_NEIGHBOUR.contains(&error.kind()) => return fill(File::create(path)?),
        made => made?,
    };
    let written = fill(made).and_then(|()| fs::rename(&beside, path));
    if written.is_err() {
        // The error is returned below, whether or not the file can be removed.
        let _ = fs::remove_file(&beside);
    }
    written
}

/// Writes a file, or standard output for -. What is no plain file is written in place.
pub fn write(path: &str, content: &[u8]) -> Result<(), Problem> {
    if path == "-" {
        return print_bytes(content);
    }
    let written = match fs::symlink_metadata(path) {
        Ok(about) if !about.is_file() => File::options()
            .write(true)
            .truncate(true)
            .open(path)
            .and_then(|mut file| file.write_all(content)),
        _ => replace(Path::new(path), content),
    };
    written.map_err(|error| failed(path, error))
}

fn print_bytes(content: &[u8]) -> Result<(), Problem> {
    if was_closed() {
        let said = "it is closed".to_string();
        return Err(Problem::File(STANDARD_OUTPUT.to_string(), said));
    }
    let mut out = io::stdout().lock();
    let written = out.write_all(content).and_then(|()| out.flush());
    written.map_err(|error| failed(STANDARD_OUTPUT, error))
}

/// Prints text at once.
pub fn print(text: &str) -> Result<(), Problem> {
    print_bytes(text.as_bytes())
}

/// Prints an object, on a line of its own.
pub fn print_json(object: &Json) -> Result<(), Problem> {
    print(&format!("{object}\n"))
}

/// Says something on standard error, if that takes it.
pub fn complain(said: &str) {
    let mut error = io::stderr();
    let _ = error
        .write_all(said.as_bytes())
        .and_then(|()| error.flush());
}
