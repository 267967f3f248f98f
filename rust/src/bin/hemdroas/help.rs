//! What help and --help print.

use super::commands::{Command, Opt, COMMANDS};

/// A line of names and what they are.
fn line(name: &str, about: &str) -> String {
    format!("  {name:<20} {about}\n")
}

/// Commands, a line each.
fn lines<'a>(commands: impl Iterator<Item = &'a Command>) -> String {
    commands
        .map(|command| line(command.name, command.line))
        .collect()
}

/// The page without a subcommand.
pub fn overview() -> String {
    format!(
        "hemdroas: routines and policies for drums\n\n{}{}{}\n\
         'hemdroas help COMMAND' tells more of one. A file named - is standard input, or output\n\
         after -o. An option's value comes after it or after =.\n\
         Status: 0 well; 1 refused; 2 bad usage; 3 a file cannot be read or written;\n\
         4 the routine stopped or faulted; 5 it paused.\n",
        lines(COMMANDS.iter()),
        line("help [COMMAND]", "this page, or that of a command"),
        line("--version", "the version")
    )
}

/// The commands whose first word this is, if they have two.
pub fn family(word: &str) -> Option<String> {
    let is_member = |command: &&Command| command.name.split(' ').next() == Some(word);
    let members = COMMANDS
        .iter()
        .filter(|command| command.name.contains(' '))
        .filter(is_member);
    let text = lines(members);
    (!text.is_empty()).then_some(text)
}

/// How an option is written.
fn written(option: &Opt) -> String {
    format!("{} {}", option.name, option.value)
        .trim_end()
        .to_string()
}

/// How a command is called.
pub fn usage(command: &Command) -> String {
    let needed = command
        .needed
        .iter()
        .map(|option| format!(" {}", written(option)));
    let options = command
        .options
        .iter()
        .map(|option| format!(" [{}]", written(option)));
    let all: String = needed.chain(options).collect();
    format!("hemdroas {} {}{all}", command.name, command.operands)
}

/// The page of a command.
pub fn page(command: &Command) -> String {
    let options = command.needed.iter().chain(command.options);
    let options: String = options
        .map(|option| line(&written(option), option.about))
        .collect();
    let mut first = command.line.to_string();
    first[..1].make_ascii_uppercase();
    format!(
        "{}\n\n{first}.\n{}\n{options}",
        usage(command),
        command.about
    )
}
