//! `hemdroas`: routines and policies for drums, from the command line.
//!
//! Every decision is the library's; the command reads, prints and explains.
//! `problem::Status` has the statuses that it ends with.

mod args;
mod check;
mod closed;
mod commands;
mod dot;
mod drums;
mod editing;
mod endings;
mod files;
mod graph;
mod help;
mod json;
mod layouts;
mod load;
mod making;
mod orders;
mod page;
mod placed;
mod policies;
mod preview;
mod problem;
mod prompt;
mod records;
mod report;
mod routes;
mod routines;
mod running;
mod school;
mod shown;
mod sources;
mod step;
mod stretch;
mod svg;
mod terminal;
mod warnings;
mod what;

use args::Args;
use commands::{Command, COMMANDS};
use hemdroas::text::hint;
use problem::{Done, Problem, Status};
use std::process::ExitCode;

fn is_help(word: &str) -> bool {
    word == "--help" || word == "-h"
}

/// The subcommand that words begin with, and the words after it.
fn find(words: &[String]) -> Option<(&'static Command, &[String])> {
    COMMANDS.iter().find_map(|command| {
        let count = command.name.split(' ').count();
        let named = words.len() >= count && words[..count].join(" ") == command.name;
        named.then(|| (command, &words[count..]))
    })
}

fn print(text: &str) -> Done {
    files::print(text).map(|()| Status::Well)
}

/// Words that begin with no subcommand.
fn other(words: &[String]) -> Done {
    let first = words.first().map(String::as_str);
    let rest = words.get(1).map(String::as_str);
    match (first, rest) {
        (Some("--version" | "-V"), _) => {
            print(&format!("hemdroas {}\n", env!("CARGO_PKG_VERSION")))
        }
        (Some("help"), Some(_)) => match find(&words[1..]) {
            Some((command, _)) => print(&help::page(command)),
            None => other(&words[1..]),
        },
        (Some("help" | "--help" | "-h"), _) => print(&help::overview()),
        (None, _) => Err(Problem::Usage(
            "a command is missing: see hemdroas help".to_string(),
        )),
        (Some(word), rest) => match help::family(word) {
            Some(lines) if rest.is_none_or(is_help) => print(&lines),
            family => {
                let named = if family.is_some() {
                    words[..2].join(" ")
                } else {
                    word.to_string()
                };
                let near = hint(&named, COMMANDS.iter().map(|command| command.name));
                Err(Problem::Usage(format!(
                    "'{named}' is no command, see hemdroas help{near}"
                )))
            }
        },
    }
}

fn dispatch(words: &[String]) -> Done {
    let Some((command, rest)) = find(words) else {
        return other(words);
    };
    if rest.iter().any(|word| is_help(word)) {
        return print(&help::page(command));
    }
    let done = Args::of(rest, command)
        .map_err(Problem::Usage)
        .and_then(|args| {
            files::keep_inputs(&args)?;
            (command.run)(&args)
        });
    done.map_err(|problem| match problem {
        Problem::Usage(said) => Problem::Usage(format!("{said}\nusage: {}", help::usage(command))),
        other => other,
    })
}

fn main() -> ExitCode {
    let words: Result<Vec<String>, _> = std::env::args_os()
        .skip(1)
        .map(|word| word.into_string())
        .collect();
    let is_json = words
        .as_ref()
        .is_ok_and(|words| words.iter().any(|word| word == "--json"));
    let done = match words {
        Ok(words) => dispatch(&words),
        Err(_) => Err(Problem::Usage("an argument is not UTF-8 text".to_string())),
    };
    let status = done.unwrap_or_else(|problem| {
        problem.say(is_json);
        problem.status()
    });
    ExitCode::from(status as u8)
}
