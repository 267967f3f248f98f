//! check: a line for each routine.

use super::args::Args;
use super::files;
use super::json::{list, object, Json};
use super::load::{Checked, Setup};
use super::problem::{Done, Problem, Status};
use super::warnings::warnings;
use hemdroas::names::BUNDLE_LENGTH;
use hemdroas::text::landings_text;

/// The routine, rewritten, checked and, where there is a policy, installed.
fn checked(setup: &Setup, path: &str) -> Result<Checked, Problem> {
    match setup.policy {
        Some(_) => Ok(setup.load(path)?.checked),
        None => setup.check(path),
    }
}

/// The last address of the commands.
fn last(checked: &Checked) -> u64 {
    u64::from(checked.layout.base) + checked.commands.len() as u64 - 1
}

fn line(checked: &Checked, is_installed: bool) -> String {
    let (count, length) = (checked.routine.words.len(), checked.commands.len());
    let (bundles, first) = (length / BUNDLE_LENGTH, checked.layout.base);
    let installed = if is_installed { ", installed" } else { "" };
    format!(
        "{}: taken: {count} instructions, {bundles} bundles, {length} commands at {first} to {}, landings {}{installed}\n",
        checked.routine.path,
        last(checked),
        landings_text(&checked.landings)
    )
}

fn object_of(checked: &Checked, is_installed: bool) -> Json {
    let length = checked.commands.len();
    object([
        ("type", "check".into()),
        ("file", checked.routine.path.as_str().into()),
        ("taken", true.into()),
        ("instructions", checked.routine.words.len().into()),
        ("bundles", (length / BUNDLE_LENGTH).into()),
        ("commands", length.into()),
        ("first", checked.layout.base.into()),
        ("last", last(checked).into()),
        ("landings", list(checked.landings.iter().copied())),
        ("installed", is_installed.into()),
    ])
}

/// Says of a routine that it is taken, and what to beware of.
fn show(args: &Args, setup: &Setup, checked: &Checked) -> Result<(), Problem> {
    let policy = setup.policy.as_ref().map(|policy| &policy.table);
    let found = warnings(checked, policy, &setup.names);
    if args.is_json() {
        found
            .iter()
            .try_for_each(|report| files::print_json(&report.json()))?;
        return files::print_json(&object_of(checked, policy.is_some()));
    }
    for report in found {
        files::complain(&report.text());
    }
    files::print(&line(checked, policy.is_some()))
}

/// Says of a routine that it is not taken, and why.
fn show_problem(args: &Args, path: &str, problem: Problem) -> Done {
    if !matches!(problem, Problem::Refused(_) | Problem::File(..)) {
        return Err(problem);
    }
    problem.say(args.is_json());
    show_why(args, path, &problem.short()).map(|()| problem.status())
}

/// The line or the object of a routine that is not taken.
fn show_why(args: &Args, path: &str, why: &str) -> Result<(), Problem> {
    if args.is_json() {
        return files::print_json(&object([
            ("type", "check".into()),
            ("file", path.into()),
            ("taken", false.into()),
            ("why", why.into()),
        ]));
    }
    files::print(&format!("{path}: {why}\n"))
}

/// Says of every routine that it was not checked, because the drum or the policy
/// is wrong.
fn show_unchecked(args: &Args, problem: Problem) -> Done {
    let fault = match &problem {
        Problem::File(file, _) => file.clone(),
        Problem::Refused(reports) => reports
            .first()
            .map_or(String::new(), |report| report.file.to_string()),
        _ => return Err(problem),
    };
    problem.say(args.is_json());
    let why = format!("not checked: {fault}: {}", problem.short());
    for path in args.files() {
        show_why(args, path, &why)?;
    }
    Ok(problem.status())
}

/// Says of a routine whether it is taken, and gives its status.
fn show_routine(args: &Args, setup: &Setup, path: &str) -> Done {
    match checked(setup, path) {
        Ok(checked) => show(args, setup, &checked).map(|()| Status::Well),
        Err(problem) => show_problem(args, path, problem),
    }
}

/// The same on a drum that is not right. Its errors were shown before, so only the
/// routine's own errors are shown here.
fn show_on_bad_drum(args: &Args, setup: &Setup, drum: &Problem, path: &str) -> Done {
    match setup.read(path) {
        Ok(_) => show_why(args, path, &drum.short()).map(|()| drum.status()),
        Err(problem) => show_problem(args, path, problem),
    }
}

pub fn check(args: &Args) -> Done {
    let setup = match Setup::of(args) {
        Ok(setup) => setup,
        Err(problem) => return show_unchecked(args, problem),
    };
    let bad_drum = setup.sound().err();
    if let Some(problem) = &bad_drum {
        problem.say(args.is_json());
    }
    let mut worst = Status::Well;
    for path in args.files() {
        let status = match &bad_drum {
            Some(drum) => show_on_bad_drum(args, &setup, drum, path)?,
            None => show_routine(args, &setup, path)?,
        };
        worst = worst.max(status);
    }
    Ok(worst)
}
