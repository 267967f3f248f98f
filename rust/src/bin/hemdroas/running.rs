//! run.

use super::args::Args;
use super::endings::{is_pause, End, Given};
use super::files;
use super::load::{load, Loaded, Stand};
use super::preview::{look_ahead, show_preview};
use super::problem::{Done, Problem, Status};
use super::prompt::{ask, typed_readings, words};
use super::records::{head, pair_objects, rows};
use super::stretch::{event_at, instruction_at, stretch, How, Stretch, Supply};
use hemdroas::text::{number, scaled};
use hemdroas::Ending;
use std::collections::VecDeque;

/// The most cells of a log that can be asked for.
const LARGEST_LOG: u32 = 1 << 20;

/// The steps of a run that is given no budget.
pub const USUAL_BUDGET: u32 = 1000;

/// The cells of a log that is given no length.
pub const USUAL_LOG: u32 = 64;

/// The scale with the most decimals, for a reading whose event is not known yet.
const FINEST_SCALE: u32 = 1000;

/// What the arguments give a run. All readings must be numbers, even if unused.
pub fn given(args: &Args, unit: &'static str) -> Result<Given, Problem> {
    for reading in readings(args) {
        let said = scaled(&reading, FINEST_SCALE);
        said.map_err(|said| Problem::Usage(format!("--readings: {said}")))?;
    }
    Ok(Given {
        budget: args.number("--budget", USUAL_BUDGET, u32::MAX)?,
        unit,
        log: match unit {
            "steps" => args.number("--log", USUAL_LOG, LARGEST_LOG)?,
            _ => USUAL_LOG,
        },
    })
}

/// The readings that the arguments list.
pub fn readings(args: &Args) -> VecDeque<String> {
    words(args.value("--readings").unwrap_or("")).collect()
}

/// What a run may use at first.
pub fn supply(args: &Args, given: &Given) -> Supply {
    Supply {
        steps: given.budget,
        log: given.log,
        readings: readings(args),
        unused: None,
    }
}

/// Refuses the arguments if a reading could not be used.
pub fn all_used(supply: &mut Supply) -> Result<(), Problem> {
    match supply.unused.take() {
        Some(said) => Err(Problem::Usage(format!("--readings: {said}"))),
        None => Ok(()),
    }
}

/// What the person chose at a pause.
enum Resumed {
    On,
    Preview(VecDeque<String>),
    Stopped,
}

/// What is asked for at a pause.
fn question(loaded: &Loaded, stand: &Stand, ending: Ending) -> String {
    match (ending, event_at(loaded, stand)) {
        (Ending::Silent, Some(event)) => format!("readings of {}: ", loaded.names.word(event)),
        (Ending::Spent, _) => "further steps: ".to_string(),
        _ => "Enter when the log is emptied: ".to_string(),
    }
}

/// Takes what is typed at a pause, or says what is wrong with it. A reading has
/// the scale of the event that waits for it.
fn take(
    ending: Ending,
    typed: &VecDeque<String>,
    scale: u32,
    given: &Given,
    supply: &mut Supply,
) -> Result<(), String> {
    match (ending, typed.front()) {
        (Ending::Silent, None) => return Err("a reading is wanted".to_string()),
        (Ending::Silent, Some(word)) => {
            scaled(word, scale)?;
            supply.readings.extend(typed.iter().cloned());
        }
        (Ending::Spent, None) => supply.steps = given.budget,
        (Ending::Spent, Some(word)) => match (number(word)?, typed.len()) {
            _ if word.starts_with('-') => return Err(format!("'{word}' is no number of steps")),
            (steps, 1) => supply.steps = steps,
            _ => return Err("one number of steps, or none for the same again".to_string()),
        },
        (_, None) => (),
        (_, Some(word)) => return Err(format!("'{word}' is not known here")),
    }
    // After a pause the run gets an empty log.
    supply.log = given.log;
    Ok(())
}

/// Asks how to go on, until the answer can be understood.
fn resume(
    loaded: &Loaded,
    stand: &Stand,
    ending: Ending,
    given: &Given,
    supply: &mut Supply,
) -> Result<Resumed, Problem> {
    let scale = event_at(loaded, stand).map_or(1, |event| loaded.scale(event));
    loop {
        let Some(line) = ask(&question(loaded, stand, ending))? else {
            return Ok(Resumed::Stopped);
        };
        let read = match ending {
            Ending::Silent => typed_readings(&line, scale),
            _ => Ok(words(&line).collect()),
        };
        let mut typed = match read {
            Ok(typed) => VecDeque::from(typed),
            Err(said) => {
                files::complain(&format!("{said}\n"));
                continue;
            }
        };
        let first = typed.front().map(String::as_str);
        match first {
            Some("stop") => return Ok(Resumed::Stopped),
            Some("preview") => {
                typed.pop_front();
                match typed
                    .iter()
                    .find_map(|word| scaled(word, FINEST_SCALE).err())
                {
                    Some(said) => files::complain(&format!("{said}\n")),
                    None => return Ok(Resumed::Preview(typed)),
                }
            }
            _ => match take(ending, &typed, scale, given, supply) {
                Ok(()) => return Ok(Resumed::On),
                Err(said) => {
                    files::complain(&format!("{said}; 'preview NUMBERS' and 'stop' are known\n"));
                }
            },
        }
    }
}

/// Shows the pairs of a stretch.
pub fn show_pairs(
    args: &Args,
    loaded: &Loaded,
    before: usize,
    part: &Stretch,
) -> Result<(), Problem> {
    if !args.is_json() {
        return files::print(&rows(loaded, before, &part.pairs));
    }
    let objects = pair_objects(loaded, before, &part.pairs);
    objects.iter().try_for_each(files::print_json)
}

/// Says where a run pauses.
fn show_pause(
    args: &Args,
    loaded: &Loaded,
    stand: &Stand,
    all: &Stretch,
    given: &Given,
) -> Result<(), Problem> {
    if args.is_json() {
        return files::print_json(&End::of(loaded, stand, all, given).json());
    }
    let ending = all.ending;
    let place = loaded.routine().place(instruction_at(loaded, stand));
    let state = loaded.state_text(loaded.state_in(&stand.memory));
    files::print(&format!(
        "pause {} {ending}, state {state}, at {place}\n",
        ending.number()
    ))
}

/// Asks at a pause until the run can go on; false if it shall not.
fn go_on(
    args: &Args,
    loaded: &Loaded,
    stand: &Stand,
    all: &Stretch,
    given: &Given,
    supply: &mut Supply,
) -> Result<bool, Problem> {
    if let Some(said) = supply.unused.take() {
        files::complain(&format!("{said}\n"));
    }
    show_pause(args, loaded, stand, all, given)?;
    loop {
        match resume(loaded, stand, all.ending, given, supply)? {
            Resumed::On => return Ok(true),
            Resumed::Stopped => return Ok(false),
            Resumed::Preview(readings) => {
                let mut ahead = Supply {
                    steps: given.budget,
                    log: given.log,
                    readings,
                    unused: None,
                };
                let mut copy = stand.clone();
                let part = look_ahead(loaded, &mut copy, &mut ahead)?;
                if let Some(said) = ahead.unused {
                    files::complain(&format!("{said}\n"));
                    continue;
                }
                show_preview(args, loaded, (stand, &copy), &part, given)?;
            }
        }
    }
}

pub fn run(args: &Args) -> Done {
    let given = given(args, "steps")?;
    let mut supply = supply(args, &given);
    let loaded = load(args)?;
    let mut stand = loaded.first.clone();
    let mut all: Option<Stretch> = None;
    loop {
        let part = stretch(&loaded, &mut stand, How::Run, &mut supply)?;
        if all.is_none() {
            all_used(&mut supply)?;
            if !args.is_json() {
                files::print(&head(&loaded))?;
            }
        }
        let before = all.as_ref().map_or(0, |all| all.pairs.len());
        show_pairs(args, &loaded, before, &part)?;
        let sum = match all.take() {
            Some(mut sum) => {
                sum.add(part);
                sum
            }
            None => part,
        };
        let goes_on = args.has("--resume")
            && is_pause(sum.ending)
            && go_on(args, &loaded, &stand, &sum, &given, &mut supply)?;
        if !goes_on {
            End::of(&loaded, &stand, &sum, &given).show(args.is_json())?;
            return Ok(Status::of(sum.ending));
        }
        all = Some(sum);
    }
}
