//! assemble, list and forward.

use super::args::Args;
use super::drums::{self, DrumFile};
use super::files;
use super::json::{object, Json};
use super::problem::{Done, Problem, Status};
use super::report::{Level, Report};
use super::sources::{commands, Routine};
use hemdroas::names::BUNDLE_LENGTH;
use hemdroas::text::{command, listing, objections, Names};
use hemdroas::{model, native, Answer, Refusal};

/// Warns of jumps past the end: such a routine has bytes, but no drum takes it.
fn warn_of_jumps(routine: &Routine) {
    let Answer::Refused {
        refusal: Refusal::BadLanding,
        ..
    } = native::forward(&routine.words)
    else {
        return;
    };
    for (&word, place) in routine.words.iter().zip(0..) {
        for mut found in objections(word, routine.words.len(), routine.is_signed(place)) {
            found.message += "; check will refuse it as bad landing (8)";
            files::complain(&routine.report(Level::Warning, place, &found).text());
        }
    }
}

pub fn assemble(args: &Args) -> Done {
    let out = args.needed("-o")?;
    let routine = Routine::of_file(args.file(0), &drums::names(args)?)?;
    if routine.text.is_none() {
        let said = "the file holds bytes already; 'hemdroas list' prints them as text";
        return Err(Report::error(args.file(0), said).into());
    }
    files::write(out, &routine.bytes()?)?;
    warn_of_jumps(&routine);
    Ok(Status::Well)
}

/// The lines under an instruction: its bundle's commands, with their addresses.
/// After the last instruction, one line stands for the HALTs that fill the list.
fn bundle_lines(
    place: usize,
    count: usize,
    base: u32,
    commands: &[u64],
    names: &Names,
) -> Vec<String> {
    let address = |index: usize| u64::from(base) + index as u64;
    let first = BUNDLE_LENGTH * place;
    if place < count {
        let bundle = &commands[first..][..BUNDLE_LENGTH];
        let line = |(index, &word): (usize, &u64)| {
            format!("{}  {}", address(first + index), command(word, names))
        };
        return bundle.iter().enumerate().map(line).collect();
    }
    let (last, end) = (
        commands.len() / BUNDLE_LENGTH - 1,
        address(commands.len() - 1),
    );
    vec![format!(
        "{} to {end}  HALT, NOP, NOP, NOP for each of the instructions {place} to {last}",
        address(first)
    )]
}

pub fn list(args: &Args) -> Done {
    let signed = args.has("--signed");
    let text = match args.has("--bundles") {
        false => {
            let routine = Routine::of_file(args.file(0), &drums::names(args)?)?;
            listing(&routine.listed(signed), |_| Vec::new())
        }
        true => {
            let file = DrumFile::of(args.needed("--drum")?)?;
            let drum = &file.drum;
            let routine = Routine::of_file(args.file(0), &drum.names)?;
            let commands = commands(&file, &drum.layout, &routine)?;
            let count = routine.words.len();
            listing(&routine.listed(signed), |place| {
                bundle_lines(place, count, drum.layout.base, &commands, &drum.names)
            })
        }
    };
    files::write(args.value("-o").unwrap_or("-"), text.as_bytes())?;
    Ok(Status::Well)
}

/// Checks the bundles of a routine for the class too, where a drum is named.
fn check_bundles(args: &Args, routine: &Routine) -> Result<(), Problem> {
    let Some(path) = args.value("--drum") else {
        return Ok(());
    };
    let file = DrumFile::of(path)?;
    let layout = &file.drum.layout;
    let list = commands(&file, layout, routine)?;
    file.taken(layout, routine, native::check_forward(layout, &list))?;
    Ok(())
}

/// The object of a routine that is forward, with its most steps, or is not.
fn forward_object(path: &str, most: Option<u64>) -> Json {
    object([
        ("type", "forward".into()),
        ("file", path.into()),
        ("forward", most.is_some().into()),
        ("steps", most.into()),
    ])
}

pub fn forward(args: &Args) -> Done {
    let path = args.file(0);
    let routine = Routine::of_file(path, &drums::names(args)?)?;
    let answer = native::forward(&routine.words);
    if let Err(problem) = routine.taken(answer) {
        problem.say(args.is_json());
        if args.is_json() {
            files::print_json(&forward_object(path, None))?;
        }
        return Ok(problem.status());
    }
    check_bundles(args, &routine)?;
    let bundles = (routine.words.len() + 1).next_power_of_two();
    let most = model::most_steps(bundles);
    match args.is_json() {
        true => files::print_json(&forward_object(path, Some(most as u64)))?,
        false => files::print(&format!(
            "forward: it ends or stops within {most} steps over all its runs\n"
        ))?,
    }
    Ok(Status::Well)
}
