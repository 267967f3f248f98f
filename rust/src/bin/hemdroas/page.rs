//! page: one HTML file in which the proved library runs a routine.

use super::args::Args;
use super::files;
use super::json::{list, object, Json};
use super::load::{Loaded, Setup};
use super::preview::look_ahead;
use super::problem::{Done, Problem, Status};
use super::running::{all_used, readings, USUAL_BUDGET, USUAL_LOG};
use super::stretch::Supply;
use super::what::event_of;
use hemdroas::names::{EVENTS, ORDERS};
use hemdroas::text::{assemble, scaled};
use std::path::Path;

/// The page without what a routine hands in. It is empty if the library for it
/// was missing when the command was built.
const PAGE: &str = include_str!(concat!(env!("OUT_DIR"), "/page.html"));

/// The library for the page.
const WASM: &str = "target/portable/wasm32-unknown-unknown/hemdroas.wasm";

/// Where the page takes its data and its title.
const DATA: &str = "{{DATA}}";
const TITLE: &str = "{{TITLE}}";

/// What the page can be given at most, as web/model/ has it.
const MOST_BUDGET: u32 = 10_000;
const MOST_LOG: u32 = 4096;
const MOST_READINGS: usize = 4096;

/// The last part of a path, which is what a page names a file by.
fn file_name(path: &str) -> String {
    let name = Path::new(path).file_name();
    name.map_or(path.into(), |name| name.to_string_lossy().into_owned())
}

/// Text between the tags of a page.
fn escaped(text: &str) -> String {
    text.replace('&', "&amp;")
        .replace('<', "&lt;")
        .replace('>', "&gt;")
}

/// Rising numbers as ranges, each its first and its last.
fn ranges_json(numbers: &[u32]) -> Json {
    let mut ranges: Vec<[u32; 2]> = Vec::new();
    for &number in numbers {
        match ranges.last_mut() {
            Some([_, last]) if *last + 1 == number => *last = number,
            _ => ranges.push([number, number]),
        }
    }
    list(ranges.into_iter().map(list))
}

/// The routine: its text, each instruction's line and words, the labels, the bytes.
/// Bytes are shown as their listing.
fn routine_json(loaded: &Loaded) -> Result<[(&'static str, Json); 5], Problem> {
    let routine = loaded.routine();
    let source = routine.source();
    let text = assemble(source.as_bytes(), &routine.names).unwrap_or_default();
    let labels = text
        .labels
        .iter()
        .map(|(label, place)| (label.clone(), (*place).into()));
    Ok([
        ("source", list(source.lines())),
        ("lines", list(text.lines())),
        (
            "texts",
            list((0..routine.words.len()).map(|place| routine.instruction(place as u32))),
        ),
        ("labels", Json::Object(labels.collect())),
        ("routine", list(routine.bytes()?.into_iter().map(u32::from))),
    ])
}

fn policy_json(loaded: &Loaded) -> Json {
    let table = &loaded.policy;
    object([
        ("names", list(table.states.iter().map(String::as_str))),
        ("start", table.start.into()),
        ("table", list(table.table.iter().copied().map(u32::from))),
    ])
}

/// The scale of readings that no event takes: the largest of the probes that
/// the routine reads.
fn reading_scale(loaded: &Loaded) -> u32 {
    let words = loaded.routine().words.iter();
    let read = words
        .filter_map(|&word| event_of(word))
        .filter(|&event| event >= ORDERS);
    read.map(|event| loaded.scale(event)).max().unwrap_or(1)
}

/// The readings that the arguments list, each scaled for the event that takes
/// it in the longest run of a page.
fn listed_readings(args: &Args, loaded: &Loaded) -> Result<Vec<u32>, Problem> {
    let mut supply = Supply {
        steps: MOST_BUDGET,
        log: u32::MAX,
        readings: readings(args),
        unused: None,
    };
    if supply.readings.len() > MOST_READINGS {
        let said = format!("--readings: a page takes {MOST_READINGS} at most");
        return Err(Problem::Usage(said));
    }
    let done = look_ahead(loaded, &mut loaded.first.clone(), &mut supply)?;
    all_used(&mut supply)?;
    let taken = done.pairs.iter().filter(|pair| pair.event >= ORDERS);
    let mut numbers: Vec<u32> = taken.map(|pair| pair.value).collect();
    let scale = reading_scale(loaded);
    for word in &supply.readings {
        let said = |said| Problem::Usage(format!("--readings: {said}"));
        numbers.push(scaled(word, scale).map_err(said)?);
    }
    Ok(numbers)
}

/// What the page is handed in.
fn data(args: &Args, setup: &Setup, loaded: &Loaded) -> Result<Json, Problem> {
    let cells = setup.drum.drum.cells.iter().map(|named| {
        object([
            ("cell", named.cell.into()),
            ("value", named.value.into()),
            ("name", named.name.as_str().into()),
        ])
    });
    let mut fields = vec![
        ("name", file_name(args.file(0)).into()),
        ("drum", file_name(args.needed("--drum")?).into()),
        ("policyName", file_name(args.needed("--policy")?).into()),
        ("layout", list(loaded.layout().to_array())),
        ("landings", ranges_json(&loaded.checked.landings)),
        (
            "events",
            list((0..EVENTS).map(|event| loaded.names.of(event))),
        ),
        ("policy", policy_json(loaded)),
        ("free", Json::List(cells.collect())),
        ("readings", list(listed_readings(args, loaded)?)),
        ("scales", list(loaded.scales)),
        (
            "budget",
            args.number("--budget", USUAL_BUDGET, MOST_BUDGET)?.into(),
        ),
        ("log", args.number("--log", USUAL_LOG, MOST_LOG)?.into()),
    ];
    fields.extend(routine_json(loaded)?);
    let named = fields
        .into_iter()
        .map(|(name, value)| (name.to_string(), value));
    Ok(Json::Object(named.collect()))
}

pub fn page(args: &Args) -> Done {
    let setup = Setup::of(args)?;
    let loaded = setup.load(args.file(0))?;
    // A tag cannot begin in the data, whatever the routine's text says.
    let data = data(args, &setup, &loaded)?
        .to_string()
        .replace('<', "\\u003c");
    let Some((head, tail)) = PAGE.split_once(DATA) else {
        let said = "was missing when this command was built: run tools/build-for \
                    wasm32-unknown-unknown, then build the command again";
        return Err(Problem::File(WASM.to_string(), said.to_string()));
    };
    let title = escaped(&file_name(args.file(0)));
    let [head, tail] = [head, tail].map(|part| part.replace(TITLE, &title));
    files::write(args.needed("-o")?, format!("{head}{data}{tail}").as_bytes())?;
    Ok(Status::Well)
}
