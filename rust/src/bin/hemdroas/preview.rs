//! preview.

use super::args::Args;
use super::endings::{End, Given};
use super::files;
use super::load::{load, Loaded, Stand};
use super::problem::{Done, Problem, Status};
use super::prompt::{ask, typed_readings};
use super::records::head;
use super::running::{all_used, given, show_pairs, supply};
use super::stretch::{event_at, stretch, How, Stretch, Supply};
use hemdroas::Ending;

/// What a run would do from a stand. The stand becomes the one after that run.
pub fn look_ahead(
    loaded: &Loaded,
    stand: &mut Stand,
    supply: &mut Supply,
) -> Result<Stretch, Problem> {
    stretch(loaded, stand, How::Preview, supply)
}

/// Shows that a preview begins.
fn show_begin(args: &Args, loaded: &Loaded) -> Result<(), Problem> {
    match args.is_json() {
        true => Ok(()),
        false => files::print(&format!("preview: nothing is touched\n{}", head(loaded))),
    }
}

/// Shows how a run between two stands would end.
fn show_end(
    args: &Args,
    loaded: &Loaded,
    (before, after): (&Stand, &Stand),
    all: &Stretch,
    given: &Given,
) -> Result<(), Problem> {
    let end = End::of(loaded, after, all, given);
    end.show(args.is_json())?;
    match args.is_json() {
        true => Ok(()),
        false => files::print(&end.contents(&before.memory)),
    }
}

/// Shows what a run between two stands would do.
pub fn show_preview(
    args: &Args,
    loaded: &Loaded,
    stands: (&Stand, &Stand),
    all: &Stretch,
    given: &Given,
) -> Result<(), Problem> {
    show_begin(args, loaded)?;
    show_pairs(args, loaded, 0, all)?;
    show_end(args, loaded, stands, all, given)
}

/// Asks for readings that a silent probe waits for; false if there are no more.
fn more_readings(loaded: &Loaded, stand: &Stand, supply: &mut Supply) -> Result<bool, Problem> {
    if let Some(said) = supply.unused.take() {
        files::complain(&format!("{said}\n"));
    }
    let event = event_at(loaded, stand).unwrap_or(0);
    let question = format!("readings of {}, or Enter: ", loaded.names.word(event));
    loop {
        let line = ask(&question)?.unwrap_or_default();
        match typed_readings(&line, loaded.scale(event)) {
            Ok(readings) => supply.readings.extend(readings),
            Err(said) => {
                files::complain(&format!("{said}\n"));
                continue;
            }
        }
        return Ok(!supply.readings.is_empty());
    }
}

pub fn preview(args: &Args) -> Done {
    let given = given(args, "steps")?;
    let mut supply = supply(args, &given);
    let loaded = load(args)?;
    let mut stand = loaded.first.clone();
    let mut all = look_ahead(&loaded, &mut stand, &mut supply)?;
    all_used(&mut supply)?;
    show_begin(args, &loaded)?;
    show_pairs(args, &loaded, 0, &all)?;
    let asks = !args.has("--readings");
    while asks && all.ending == Ending::Silent && more_readings(&loaded, &stand, &mut supply)? {
        let next = look_ahead(&loaded, &mut stand, &mut supply)?;
        show_pairs(args, &loaded, all.pairs.len(), &next)?;
        all.add(next);
    }
    show_end(args, &loaded, (&loaded.first, &stand), &all, &given)?;
    Ok(Status::of(all.ending))
}
