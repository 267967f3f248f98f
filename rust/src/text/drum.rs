//! Drum files: a layout, its landings, ceilings and scales, and names of events
//! and of the drum's own cells.

use super::hints::nearest;
use super::said::{lines, quoted, Fault, Faults, Parsed, Place, Said};
use super::{number, Names};
use crate::names::{EVENTS, MOST_BUNDLES, ORDERS, UNLIMITED};
use crate::{Ceilings, Layout};
use std::collections::BTreeSet;
use std::ops::RangeInclusive;

/// Where a GOX may go on.
#[derive(Clone, Debug, PartialEq, Eq)]
pub enum Landings {
    /// The ranges of landings that the file lists, in its order, each with its place.
    Listed(Vec<(RangeInclusive<u32>, Place)>),
    /// The landings that the routine's text marks.
    Routine,
}

impl Landings {
    /// The landings for a routine that marks these itself.
    pub fn of(&self, marked: &[u32]) -> Vec<u32> {
        match self {
            Landings::Listed(listed) => {
                let all = listed.iter().flat_map(|(range, _)| range.clone());
                // So many numbers cannot rise: the library refuses them without seeing more.
                all.take(2 * MOST_BUNDLES).collect()
            }
            Landings::Routine => marked.to_vec(),
        }
    }
}

/// The scale of each event: the reading that a typed 1 means. It is 10 if readings
/// are tenths.
pub type Scales = [u32; EVENTS as usize];

/// A cell of the drum's own that the file names.
#[derive(Clone, Debug, PartialEq, Eq)]
pub struct NamedCell {
    /// Its address.
    pub cell: u32,
    /// Where the file has the address.
    pub place: Place,
    /// What it holds before a routine is installed.
    pub value: u32,
    /// Its name, of one or more words.
    pub name: String,
}

/// The layout's numbers, in the rules' order.
pub const LETTERS: [&str; 8] = ["U", "SL", "SH", "M", "P", "S", "B", "Q"];

/// The words that begin a drum's other lines.
const KEYWORDS: [&str; 5] = ["event", "landings", "ceiling", "scale", "cell"];

/// The words that stand for landings without a list.
const WHOLE_LANDINGS: [&str; 3] = ["all", "none", "routine"];

/// A drum's lines.
const LINES: &str = "U 1024 (or SL SH M P S B Q), landings 0 3 8-15, ceiling EVENT 100, \
                     scale EVENT 10, event 0 NAME, cell 8 600 NAME";

/// The place of S among the letters. It may be left out.
const STATES: usize = 5;

/// The scales that a line may say.
const KNOWN_SCALES: [u32; 4] = [1, 10, 100, 1000];

/// What a drum file says.
#[derive(Clone, Debug, PartialEq, Eq)]
pub struct Drum {
    /// Where everything lies, and the ceilings of the orders. Where the file
    /// leaves S out, it is 1.
    pub layout: Layout,
    /// Whether the file leaves S out. Then S is the policy's.
    pub takes_states: bool,
    /// The place of each of the layout's letters.
    pub places: [Place; LETTERS.len()],
    /// The landings.
    pub landings: Landings,
    /// The names of events.
    pub names: Names,
    /// The scales of events.
    pub scales: Scales,
    /// The drum's own cells that have names.
    pub cells: Vec<NamedCell>,
}

impl Drum {
    /// The layout for a policy of so many states.
    pub fn layout_for(&self, states: u32) -> Layout {
        let states = if self.takes_states {
            states
        } else {
            self.layout.states
        };
        Layout {
            states,
            ..self.layout
        }
    }
}

/// Landings as a drum's file lists them: numbers, and ranges such as 3-7.
fn landings_of(word: &str) -> Result<Option<RangeInclusive<u32>>, String> {
    let top = MOST_BUNDLES as u32 - 1;
    match word.split_once('-') {
        _ if word == "all" => Ok(Some(0..=top)),
        _ if word == "none" => Ok(None),
        Some((low, high)) if !low.is_empty() => {
            let (low, high) = (number(low)?, number(high)?);
            match low <= high && high <= top {
                true => Ok(Some(low..=high)),
                false => Err(format!("{} is no range up to {top}", quoted(word))),
            }
        }
        _ => match number(word) {
            Ok(landing) => Ok(Some(landing..=landing)),
            Err(_) => Err(format!(
                "{} is no landing: they are numbers, ranges such as 3-7, all, none or routine",
                quoted(word)
            )),
        },
    }
}

/// A rising list of landings, as a drum's file lists it.
pub fn landings_text(landings: &[u32]) -> String {
    if landings.is_empty() {
        return "none".to_string();
    }
    if landings.len() == MOST_BUNDLES {
        return "all".to_string();
    }
    let mut runs: Vec<(u32, u32)> = Vec::new();
    for &landing in landings {
        match runs.last_mut() {
            Some((_, last)) if *last + 1 == landing => *last = landing,
            _ => runs.push((landing, landing)),
        }
    }
    let run = |&(first, last): &(u32, u32)| match first == last {
        true => first.to_string(),
        false => format!("{first}-{last}"),
    };
    runs.iter().map(run).collect::<Vec<_>>().join(" ")
}

/// What a line of a drum's or a policy's file must have after its first word.
pub(super) fn wanted(word: &str) -> Option<&'static str> {
    Some(match word {
        "event" => "event wants a number and a name, as in 'event 0 gas'",
        "landings" => "landings wants all, none, routine or a list, as in 'landings 0 3 8-15'",
        "ceiling" => "ceiling wants an event and a number, as in 'ceiling gas 100'",
        "scale" => "scale wants an event and a scale, as in 'scale bean 10'",
        "cell" => "cell wants an address, a value and a name, as in 'cell 8 600 purge timer'",
        "state" => "state wants one name, as in 'state shut'",
        "start" => "start wants a state, as in 'start shut'",
        "drawing" => "drawing stands alone",
        "everything" => "everything stands alone",
        _ => return None,
    })
}

/// The ceiling of an order, said in a drum's or a policy's file.
pub(super) fn set_ceiling(
    ceilings: &mut Ceilings,
    names: &Names,
    (event, most): (Said, Said),
    faults: &mut Faults,
) -> Result<(), Fault> {
    let value = match number(most.text) {
        Ok(_) if most.text.starts_with('-') => {
            let message = format!("{} is negative, and a ceiling is not", quoted(most.text));
            Err(message)
        }
        value => value,
    };
    let value = faults.keep(most.check(value));
    let order = event.event(names.known_event(event.text))?;
    match ceilings.get_mut(order as usize) {
        Some(ceiling) if *ceiling != u32::MAX => Err(event.fault(format!(
            "the ceiling of {} stands twice",
            quoted(event.text)
        ))),
        Some(ceiling) => {
            *ceiling = value.unwrap_or(u32::MAX);
            Ok(())
        }
        None => Err(event.fault(format!(
            "{} is no order: they are 0 to {}",
            quoted(event.text),
            ORDERS - 1
        ))),
    }
}

/// The word that begins a line, or the one that was meant.
pub(super) fn meant(words: &[Said], known: &[&'static str]) -> Option<&'static str> {
    let first = words[0].text;
    let same = known.iter().find(|&&known| known == first).copied();
    same.or_else(|| nearest(first, known.iter().copied()))
}

/// The message about a line that begins with no known word. It lists the possible
/// lines only once for a file.
pub(super) fn no_line(word: &str, meant: Option<&str>, file: &str, all: &mut &str) -> String {
    let begin = format!("{} begins no line of a {file}", quoted(word));
    match meant {
        Some(meant) => format!("{begin}; did you mean '{meant}'?"),
        None if all.is_empty() => begin,
        None => format!("{begin}: they are {}", std::mem::take(all)),
    }
}

/// The names that the `event` lines of a file add to those that are given.
pub(super) fn event_names(
    said: &[Vec<Said>],
    known: &[&'static str],
    given: &Names,
    faults: &mut Faults,
) -> Names {
    let mut names = given.clone();
    let is_event = |words: &&Vec<Said>| meant(words, known) == Some("event");
    for words in said.iter().filter(is_event) {
        let added = match words[..] {
            [keyword, event, name] if keyword.text == "event" => {
                let is_event = number(event.text).is_ok_and(|event| event < EVENTS);
                let at = if is_event { name } else { event };
                faults.keep(at.check(names.add(event.text, name.text)))
            }
            // Its errors are reported where the lines are read.
            _ => None,
        };
        if added.is_none() {
            words[1..].iter().for_each(|word| faults.lose(word.text));
        }
    }
    names
}

/// A drum file, as its lines are read.
struct Reader {
    numbers: [Option<(u32, Place)>; LETTERS.len()],
    landings: Option<Landings>,
    ceilings: Ceilings,
    scales: Scales,
    names: Names,
    cells: Vec<NamedCell>,
    /// The addresses of these cells.
    addresses: BTreeSet<u32>,
    /// The word for the landings, where no list gives them.
    whole: Option<&'static str>,
    /// Whether a number of the layout could not be read.
    is_unread: bool,
    /// The lines that there are, until they are listed.
    lines: &'static str,
}

impl Reader {
    /// Takes a line.
    fn line(&mut self, words: &[Said], faults: &mut Faults) -> Result<(), Fault> {
        let texts: Vec<&str> = words.iter().map(|word| word.text).collect();
        match texts[..] {
            ["event", _, _] => Ok(()),
            ["landings", _, ..] => self.landings(words, faults),
            ["ceiling", _, _] => {
                let said = (words[1], words[2]);
                set_ceiling(&mut self.ceilings, &self.names, said, faults)
            }
            ["scale", _, _] => self.scale(words[1], words[2], faults),
            ["cell", _, _, _, ..] => {
                let said = (words[1], words[2]);
                self.cell(said, &texts[3..].join(" "), faults)
            }
            [letter, _] if LETTERS.contains(&letter) => self.number(words[0], words[1]),
            _ => self.odd_line(words),
        }
    }

    /// What is wrong with a line that has no line's words.
    fn odd_line(&mut self, words: &[Said]) -> Result<(), Fault> {
        let first = words[0];
        let meant = meant(words, &LETTERS).or_else(|| meant(words, &KEYWORDS));
        // The line that was meant is not reported as missing.
        if let Some(letter) = LETTERS.iter().position(|&known| Some(known) == meant) {
            self.numbers[letter].get_or_insert((0, first.place()));
            self.is_unread = true;
        }
        if meant == Some("landings") {
            self.landings.get_or_insert(Landings::Listed(Vec::new()));
        }
        if LETTERS.contains(&first.text) {
            return Err(first.fault(format!("{} wants one number", first.text)));
        }
        let wants = wanted(first.text).filter(|_| KEYWORDS.contains(&first.text));
        Err(first.fault(match wants {
            Some(wants) => wants.to_string(),
            None => no_line(first.text, meant, "drum", &mut self.lines),
        }))
    }

    fn number(&mut self, letter: Said, value: Said) -> Result<(), Fault> {
        let place = LETTERS.iter().position(|&known| known == letter.text);
        let slot = &mut self.numbers[place.unwrap_or(0)];
        if let Some((_, first)) = slot {
            self.is_unread = true;
            let message = format!("{} stands twice, first in line {}", letter.text, first.line);
            return Err(letter.fault(message));
        }
        let number = number(value.text);
        self.is_unread |= number.is_err();
        *slot = Some((*number.as_ref().unwrap_or(&0), value.place()));
        value.check(number).map(|_| ())
    }

    fn landings(&mut self, words: &[Said], faults: &mut Faults) -> Result<(), Fault> {
        let listed = &words[1..];
        let whole = |word: &Said| WHOLE_LANDINGS.into_iter().find(|&whole| whole == word.text);
        let found = listed.iter().find_map(|word| Some((whole(word)?, *word)));
        let is_alone = listed.len() == 1 && self.landings.is_none();
        let clash = match self.whole {
            Some(before) => Some((before, listed[0])),
            None => found.filter(|_| !is_alone),
        };
        self.whole = self.whole.or(found.map(|(whole, _)| whole));
        let landings = self.landings.get_or_insert(match self.whole {
            Some("routine") => Landings::Routine,
            _ => Landings::Listed(Vec::new()),
        });
        if let Some((whole, word)) = clash {
            let message = format!("'landings {whole}' stands alone, without other landings");
            return Err(word.fault(message));
        }
        if let Landings::Listed(known) = landings {
            for word in listed {
                let more = faults.keep(word.check(landings_of(word.text)));
                known.extend(more.flatten().map(|range| (range, word.place())));
            }
        }
        Ok(())
    }

    fn cell(
        &mut self,
        (address, value): (Said, Said),
        name: &str,
        faults: &mut Faults,
    ) -> Result<(), Fault> {
        let value = faults.keep(value.check(number(value.text)));
        let cell = address.check(number(address.text))?;
        if !self.addresses.insert(cell) {
            return Err(address.fault(format!("cell {cell} stands twice")));
        }
        self.cells.push(NamedCell {
            cell,
            place: address.place(),
            value: value.unwrap_or(0),
            name: name.to_string(),
        });
        Ok(())
    }

    fn scale(&mut self, event: Said, scale: Said, faults: &mut Faults) -> Result<(), Fault> {
        let known = KNOWN_SCALES
            .iter()
            .find(|known| known.to_string() == scale.text);
        if known.is_none() {
            faults.add(scale.fault("a scale is 1, 10, 100 or 1000"));
        }
        let number = event.event(self.names.known_event(event.text))? as usize;
        if self.scales[number] != 0 {
            return Err(event.fault(format!("the scale of {} stands twice", quoted(event.text))));
        }
        self.scales[number] = *known.unwrap_or(&1);
        Ok(())
    }

    /// The drum, if no part of its layout is missing.
    fn drum(self, faults: &mut Faults) -> Option<Drum> {
        let whole = |message: String| Fault::new(Place::default(), message);
        let missing = LETTERS.iter().zip(&self.numbers);
        let missing =
            missing.filter(|(letter, number)| number.is_none() && **letter != LETTERS[STATES]);
        let missing: Vec<&str> = missing.map(|(&letter, _)| letter).collect();
        match missing[..] {
            [] => (),
            [letter] => faults.miss(whole(format!("{letter} is missing"))),
            _ => faults.miss(whole(format!("{} are missing", missing.join(", ")))),
        }
        if self.landings.is_none() {
            let message = "landings are missing: all, none, routine or a list";
            faults.miss(whole(message.to_string()));
        }
        if self.is_unread || !missing.is_empty() {
            return None;
        }
        let given = |place: usize| self.numbers[place].map_or(1, |(number, _)| number);
        let layout = Layout {
            size: given(0),
            low: given(1),
            high: given(2),
            cell: given(3),
            table: given(4),
            states: given(STATES),
            base: given(6),
            landings: given(7),
            ceilings: self.ceilings,
        };
        Some(Drum {
            layout,
            takes_states: self.numbers[STATES].is_none(),
            places: self
                .numbers
                .map(|number| number.map_or(Place::default(), |(_, place)| place)),
            landings: self.landings?,
            names: self.names,
            scales: self.scales.map(|scale| scale.max(1)),
            cells: self.cells,
        })
    }
}

/// The drum of a drum file's text.
pub fn drum(text: &[u8]) -> Parsed<Drum> {
    match drum_in_part(text) {
        (Some(drum), faults) if faults.is_empty() => Ok(drum),
        (_, faults) => Err(faults),
    }
}

/// What is wrong with a drum file's text, and the drum if its whole layout could be
/// read.
pub fn drum_in_part(text: &[u8]) -> (Option<Drum>, Vec<Fault>) {
    let mut faults = Faults::default();
    let said: Vec<Vec<Said>> = lines(text, &mut faults).iter().map(Said::words).collect();
    let names = event_names(&said, &KEYWORDS, &Names::default(), &mut faults);
    let mut reader = Reader {
        numbers: [None; LETTERS.len()],
        landings: None,
        ceilings: UNLIMITED,
        scales: [0; EVENTS as usize],
        names,
        cells: Vec::new(),
        addresses: BTreeSet::new(),
        whole: None,
        is_unread: false,
        lines: LINES,
    };
    for words in &said {
        let taken = reader.line(words, &mut faults);
        faults.keep(taken);
    }
    let drum = reader.drum(&mut faults);
    (drum, faults.sorted())
}
