//! policy precedence, merge, determinise, show and draw.

use super::args::Args;
use super::dot;
use super::drums;
use super::files;
use super::graph::Graph;
use super::json::{list, object, Json};
use super::making::{self, make, met, named, Given, MadePolicy, LONGEST_TABLE};
use super::problem::{meaning, Done, Problem, Status};
use super::report::Report;
use hemdroas::names::{EVENTS, NO_ARROW};
use hemdroas::text::{policy_text, Form, Names, Table};
use hemdroas::{native, Answer, Ceilings, Side};

/// A policy with all that its file says of it.
struct Whole {
    made: MadePolicy,
    ceilings: Ceilings,
    names: Names,
}

/// The policy file of the arguments.
fn given(args: &Args, place: usize, names: &Names) -> Result<Given, Problem> {
    making::policy(args.file(place), names)
}

/// The problem that a file has another form than the command needs.
fn no_form(args: &Args, form: &str) -> Problem {
    Report::error(args.file(0), format!("this file holds no {form}")).into()
}

/// The events of a map.
fn events(map: u16) -> impl Iterator<Item = u32> {
    (0..EVENTS).filter(move |event| map >> event & 1 == 1)
}

impl Whole {
    /// The policy of the first file of the arguments.
    fn of(args: &Args) -> Result<Whole, Problem> {
        Whole::of_given(args, given(args, 0, &drums::names(args)?)?)
    }

    fn of_given(args: &Args, file: Given) -> Result<Whole, Problem> {
        Ok(Whole {
            made: make(args.file(0), &file)?,
            ceilings: file.said.ceilings,
            names: file.said.names,
        })
    }

    /// The line about events that are never allowed.
    fn never_line(&self) -> String {
        let names: Vec<String> = events(self.made.never)
            .map(|event| self.names.word(event))
            .collect();
        match names.is_empty() {
            true => String::new(),
            false => format!(
                "never allowed, since the pairs form a ring: {}\n",
                names.join(", ")
            ),
        }
    }

    /// The ceilings, a line each.
    fn ceiling_lines(&self) -> String {
        let limited = (0..)
            .zip(&self.ceilings)
            .filter(|(_, &most)| most != u32::MAX);
        limited
            .map(|(order, most)| format!("ceiling {} {most}\n", self.names.word(order)))
            .collect()
    }

    fn json(&self) -> Json {
        let table = &self.made.table;
        let name = |event: u32| Json::from(self.names.of(event));
        let row = |state: u32| {
            let after = move |event| table.policy().after(state, event);
            list((0..EVENTS).map(after))
        };
        let states = 0..table.states.len() as u32;
        let most = |&most: &u32| (most != u32::MAX).then_some(most);
        object([
            ("type", "policy".into()),
            ("states", list(table.states.iter().map(String::as_str))),
            ("start", table.start.into()),
            ("table", Json::List(states.map(row).collect())),
            ("ceilings", list(self.ceilings.iter().map(most))),
            ("events", Json::List((0..EVENTS).map(name).collect())),
            ("never", list(events(self.made.never))),
        ])
    }

    /// Writes its text and its object where the arguments say.
    fn write(&self, args: &Args) -> Done {
        let never = self.never_line();
        if !never.is_empty() && !args.is_json() {
            files::complain(&format!("hemdroas: {}: {never}", args.file(0)));
        }
        let never = if never.is_empty() {
            never
        } else {
            format!("# {never}")
        };
        let text = never + &policy_text(&self.made.table, &self.ceilings, &self.names);
        write(args, &text, &self.json())
    }
}

/// Writes a text where the arguments say, and prints the object where they ask for it.
fn write(args: &Args, text: &str, object: &Json) -> Done {
    let named = args.value("-o").filter(|&out| out != "-");
    match named {
        Some(out) => files::write(out, text.as_bytes())?,
        None if args.is_json() => (),
        None => files::print(text)?,
    }
    if args.is_json() {
        files::print_json(object)?;
    }
    Ok(Status::Well)
}

pub fn precedence(args: &Args) -> Done {
    let file = given(args, 0, &drums::names(args)?)?;
    match file.said.form {
        Form::Before(_) => Whole::of_given(args, file)?.write(args),
        _ => Err(no_form(args, "pairs: EVENT before EVENT")),
    }
}

pub fn determinise(args: &Args) -> Done {
    let file = given(args, 0, &drums::names(args)?)?;
    match file.said.form {
        Form::Drawing { .. } => Whole::of_given(args, file)?.write(args),
        _ => Err(no_form(args, "drawing")),
    }
}

/// The merged policy's states, each named after its pair.
fn pair_names(table: &[u8], states: usize, first: &Table, second: &Table) -> Vec<String> {
    let after =
        |table: &Table, state, event| table.policy().after(state, event).unwrap_or(NO_ARROW);
    let next = |&(a, b): &(u32, u32), event| (after(first, a, event), after(second, b, event));
    let pairs = met(table, (first.start, second.start), next);
    let name = |&(a, b): &(u32, u32)| format!("{}.{}", first.name(a), second.name(b));
    named(states, pairs.iter().map(name).collect())
}

pub fn merge(args: &Args) -> Done {
    let one = given(args, 0, &drums::names(args)?)?;
    // Both sides use the same events, so the second may use the first one's names.
    let other = given(args, 1, &one.said.names)?;
    let first = make(args.file(0), &one)?.table;
    let second = make(args.file(1), &other)?.table;
    let mut table = vec![0; LONGEST_TABLE];
    let merged = native::merge(
        &Side {
            policy: first.policy(),
            ceilings: one.said.ceilings,
        },
        &Side {
            policy: second.policy(),
            ceilings: other.said.ceilings,
        },
        &mut table,
    );
    let count = match merged.answer {
        Answer::Taken(count) => count,
        Answer::Refused { refusal, .. } => {
            let both = format!("{} with {}", args.file(0), args.file(1));
            return Err(Report::refusal(&both, refusal, meaning(refusal)).into());
        }
    };
    table.truncate(count as usize);
    let states = pair_names(&table, merged.states as usize, &first, &second);
    let start = merged.start;
    let table = Table {
        states,
        start,
        table,
    };
    let whole = Whole {
        made: MadePolicy { table, never: 0 },
        ceilings: merged.ceilings,
        names: other.said.names,
    };
    whole.write(args)
}

/// A policy as a table: a line for each event, a column for each state, which
/// are named below.
fn table_text(table: &Table, names: &Names) -> String {
    const HEAD: &str = "state";
    let labels = (0..EVENTS).map(|event| names.both(event).len());
    let width = labels.max().unwrap_or(0).max(HEAD.len());
    let line = |label: &str, cells: Vec<String>| {
        let cells: String = cells.iter().map(|cell| format!("{cell:>4}")).collect();
        format!("{label:<width$}{cells}\n")
    };
    let states = 0..table.states.len() as u32;
    let numbers = states.clone().map(|state| state.to_string()).collect();
    let mut text = line(HEAD, numbers);
    for event in 0..EVENTS {
        let after = |state| table.policy().after(state, event);
        let shown = |after: Option<u32>| after.map_or("-".to_string(), |state| state.to_string());
        let cells = states.clone().map(|state| shown(after(state)));
        text += &line(&names.both(event), cells.collect());
    }
    for state in states {
        let start = if state == table.start {
            ", the start"
        } else {
            ""
        };
        text += &format!("state {state} {}{start}\n", table.name(state));
    }
    text
}

pub fn show(args: &Args) -> Done {
    let whole = Whole::of(args)?;
    if args.is_json() {
        files::print_json(&whole.json())?;
        return Ok(Status::Well);
    }
    let table = table_text(&whole.made.table, &whole.names);
    files::print(&format!(
        "{table}{}{}",
        whole.ceiling_lines(),
        whole.never_line()
    ))?;
    Ok(Status::Well)
}

/// The graph of the first file: a drawing as it is, any other as its policy.
fn graph(args: &Args) -> Result<Graph, Problem> {
    let file = given(args, 0, &drums::names(args)?)?;
    if let Form::Drawing {
        states,
        starts,
        arrows,
    } = &file.said.form
    {
        // Refused if it is no drawing.
        make(args.file(0), &file)?;
        return Ok(Graph::of(
            states,
            *starts,
            arrows,
            &file.said.ceilings,
            &file.said.names,
        ));
    }
    let whole = Whole::of_given(args, file)?;
    let table = &whole.made.table;
    let bit = |&entry: &u8| 1u16.checked_shl(entry.into()).unwrap_or(0);
    let arrows: Vec<u16> = table.table.iter().map(bit).collect();
    let starts = 1 << table.start;
    Ok(Graph::of(
        &table.states,
        starts,
        &arrows,
        &whole.ceilings,
        &whole.names,
    ))
}

pub fn draw(args: &Args) -> Done {
    let graph = graph(args)?;
    let is_dot = |out: &str| out.ends_with(".dot") || out.ends_with(".gv");
    let text = match args.has("--dot") || args.value("-o").is_some_and(is_dot) {
        true => dot::text(&graph),
        false => super::svg::text(&graph),
    };
    write(args, &text, &graph.json())
}
