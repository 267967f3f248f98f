//! Arguments.

use super::commands::{Command, Opt};
use super::problem::Problem;
use hemdroas::text::{hint, number};

/// The arguments of a subcommand. All of its options are known ones.
pub struct Args {
    files: Vec<String>,
    options: Vec<(&'static str, String)>,
}

/// The only kind of value that may be empty: a list of readings.
const MAY_BE_EMPTY: &str = "LIST";

/// How many files a subcommand takes.
#[derive(Clone, Copy)]
pub enum Files {
    Exactly(usize),
    Some,
}

/// Whether a word looks like an option.
fn is_option(word: &str) -> bool {
    word.len() > 1 && word.starts_with('-')
}

impl Args {
    /// The arguments of a command, from the words of the command line.
    pub fn of(words: &[String], command: &Command) -> Result<Args, String> {
        let mut args = Args {
            files: Vec::new(),
            options: Vec::new(),
        };
        let mut words = words.iter();
        while let Some(word) = words.next() {
            if word == "--" {
                args.files.extend(words.by_ref().cloned());
            } else if is_option(word) {
                args.option(word, &mut words, command)?;
            } else {
                args.files.push(word.clone());
            }
        }
        match (command.files, args.files.len()) {
            (Files::Some, 0) => Err("a file is missing".to_string()),
            (Files::Exactly(files), found) if found < files => Err("a file is missing".to_string()),
            (Files::Exactly(files), found) if found > files => {
                Err(format!("'{}' is one file too many", args.files[files]))
            }
            _ => args.complete(command),
        }
    }

    /// Takes an option. Its value follows `=`, or is the next word.
    fn option<'a>(
        &mut self,
        word: &str,
        words: &mut impl Iterator<Item = &'a String>,
        command: &Command,
    ) -> Result<(), String> {
        let (name, value) = match word.split_once('=') {
            Some((name, value)) => (name, Some(value.to_string())),
            None => (word, None),
        };
        let Some(&Opt {
            name, value: wants, ..
        }) = command.option(name)
        else {
            let near = hint(name, command.options().map(|option| option.name));
            return Err(format!("'{name}' is no option here{near}"));
        };
        let value = match (wants, value) {
            ("", None) => String::new(),
            ("", Some(_)) => return Err(format!("{name} takes no value")),
            (_, Some(value)) => value,
            // An option of the command is no value, unless it follows `=`.
            (_, None) => match words.next() {
                Some(next)
                    if command
                        .option(next.split('=').next().unwrap_or(""))
                        .is_some() =>
                {
                    return Err(format!("{name} wants a value"));
                }
                next => next.cloned().unwrap_or_default(),
            },
        };
        if value.is_empty() && !["", MAY_BE_EMPTY].contains(&wants) {
            return Err(format!("{name} wants a value"));
        }
        if self.has(name) {
            return Err(format!("{name} stands twice"));
        }
        self.options.push((name, value));
        Ok(())
    }

    /// The arguments, if no needed option is missing.
    fn complete(self, command: &Command) -> Result<Args, String> {
        match command.needed.iter().find(|option| !self.has(option.name)) {
            Some(option) => Err(format!("{} {} is missing", option.name, option.value)),
            None => Ok(self),
        }
    }

    /// A file, by its place.
    pub fn file(&self, place: usize) -> &str {
        &self.files[place]
    }

    /// All files.
    pub fn files(&self) -> &[String] {
        &self.files
    }

    /// An option's value, or that of a flag, if it was given.
    pub fn value(&self, name: &str) -> Option<&str> {
        let found = self.options.iter().find(|(option, _)| *option == name);
        found.map(|(_, value)| value.as_str())
    }

    /// Whether a flag was given.
    pub fn has(&self, name: &str) -> bool {
        self.value(name).is_some()
    }

    /// Whether objects are asked for.
    pub fn is_json(&self) -> bool {
        self.has("--json")
    }

    /// The value of an option that is needed.
    pub fn needed(&self, name: &str) -> Result<&str, Problem> {
        let missing = || Problem::Usage(format!("{name} is missing"));
        self.value(name).ok_or_else(missing)
    }

    /// An option's number, up to a bound, or the usual one.
    pub fn number(&self, name: &str, usual: u32, most: u32) -> Result<u32, Problem> {
        let Some(value) = self.value(name) else {
            return Ok(usual);
        };
        match number(value) {
            Ok(number) if number <= most && !value.starts_with('-') => Ok(number),
            _ => Err(Problem::Usage(format!(
                "{name} wants a number up to {most}, not '{value}'"
            ))),
        }
    }
}
