//! Records as tables and as objects.

use super::json::{object, Json};
use super::load::Loaded;
use super::stretch::Recorded;
use hemdroas::names::EVENTS;
use hemdroas::text::scaled_text;

/// The width of the events in a table.
fn width(loaded: &Loaded) -> usize {
    let widths = (0..EVENTS).map(|event| loaded.names.both(event).len());
    widths.max().unwrap_or(0).max("event".len())
}

/// The head of a table.
pub fn head(loaded: &Loaded) -> String {
    let width = width(loaded);
    format!("{:>5}  {:<width$}  {:>10}\n", "pair", "event", "value")
}

/// A value as a person reads it, and what a ceiling made of it.
pub fn value_text(loaded: &Loaded, pair: &Recorded) -> String {
    let scale = loaded.scale(pair.event);
    let value = scaled_text(pair.value, scale);
    match pair.wanted {
        Some(r0) => format!(
            "{value}, limited by the ceiling, r0 is {}",
            scaled_text(r0, scale)
        ),
        None => value,
    }
}

/// The rows of pairs, numbered on from those before.
pub fn rows(loaded: &Loaded, before: usize, pairs: &[Recorded]) -> String {
    let width = width(loaded);
    let row = |(pair, number): (&Recorded, usize)| {
        let event = loaded.names.both(pair.event);
        let scale = loaded.scale(pair.event);
        let value = scaled_text(pair.value, scale);
        let limited = pair.wanted.map_or(String::new(), |r0| {
            format!("  limited by the ceiling, r0 is {}", scaled_text(r0, scale))
        });
        format!("{number:>5}  {event:<width$}  {value:>10}{limited}\n")
    };
    pairs.iter().zip(before + 1..).map(row).collect()
}

/// The fields of a pair.
pub fn pair_json(loaded: &Loaded, pair: &Recorded) -> Vec<(String, Json)> {
    let scale = loaded.scale(pair.event);
    let fields = object([
        ("event", pair.event.into()),
        ("name", loaded.names.of(pair.event).into()),
        ("value", pair.value.into()),
        ("shown", scaled_text(pair.value, scale).into()),
        ("limited", pair.wanted.is_some().into()),
        ("r0", pair.wanted.into()),
    ]);
    match fields {
        Json::Object(fields) => fields,
        _ => Vec::new(),
    }
}

/// The objects of pairs, numbered on from those before.
pub fn pair_objects(loaded: &Loaded, before: usize, pairs: &[Recorded]) -> Vec<Json> {
    let pair = |(pair, number): (&Recorded, usize)| {
        let mut fields = vec![
            ("type".to_string(), "pair".into()),
            ("pair".to_string(), number.into()),
        ];
        fields.extend(pair_json(loaded, pair));
        Json::Object(fields)
    };
    pairs.iter().zip(before + 1..).map(pair).collect()
}
