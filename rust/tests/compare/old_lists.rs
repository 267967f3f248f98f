//! Lists written before two requests. Request [6]: those that hide register 8 are
//! refused 'with 11, whenever they hold a LOAD, STORE, GOX or EVENT bundle'. Request
//! [12]: 'lists in the old order that contain an event are refused with 11'.

use crate::check::check;
use crate::common::inputs::{layout_and_routine, rewritten};
use crate::common::{cases, Rng, Tally};
use hemdroas::model::words::{fields, word, Fields};
use hemdroas::model::{Command, Instr};
use hemdroas::names::{BUNDLE_LENGTH, HIDDEN};
use hemdroas::{Answer, Layout, Refusal};

/// The register that was hidden before.
const HIDDEN_BEFORE: u32 = 8;

/// A word with each register renamed.
pub fn renamed(old: u64, name: fn(u32) -> u32) -> u64 {
    let old = fields(old);
    word(Fields {
        d: name(old.d),
        a: name(old.a),
        b: name(old.b),
        ..old
    })
}

/// A list with register 8 as the hidden register.
fn hide_register_8(list: &mut [u64]) {
    for command in list {
        *command = renamed(*command, |register| match register {
            HIDDEN => HIDDEN_BEFORE,
            guest => guest,
        });
    }
}

/// A list with KEEP before EVENT.
fn keep_before_event(list: &mut [u64]) {
    for bundle in list.chunks_exact_mut(BUNDLE_LENGTH) {
        if matches!(Command::of_word(bundle[2]), Some(Command::Event { .. })) {
            bundle.swap(2, 3);
        }
    }
}

/// The tally's name for a bundle that names the hidden register.
fn hides(instruction: u64) -> Option<&'static str> {
    match Instr::of_kind(fields(instruction))? {
        Instr::Load { .. } => Some("refused at a LOAD"),
        Instr::Store { .. } => Some("refused at a STORE"),
        Instr::GoX { .. } => Some("refused at a GOX"),
        Instr::Event { .. } => Some("refused at an EVENT"),
        _ => None,
    }
}

/// The tally's name for an event bundle.
fn is_ordered(instruction: u64) -> Option<&'static str> {
    match Instr::of_kind(fields(instruction))? {
        Instr::Event { .. } => hides(instruction),
        _ => None,
    }
}

/// A routine over the guest's old registers. A `bare` one has only bundles that did
/// not change.
fn old_routine(rng: &mut Rng, bare: bool) -> (Layout, Vec<u64>) {
    let (layout, mut words) = layout_and_routine(rng);
    for instruction in &mut words {
        *instruction = if bare && hides(*instruction).is_some() {
            Instr::Move { d: 7, a: 0 }.word()
        } else {
            renamed(*instruction, |register| register % HIDDEN_BEFORE)
        };
    }
    (layout, words)
}

/// Checks old lists. Those that contain a bundle `written` differently before are
/// refused at the first such bundle.
fn old_lists(
    part: &'static str,
    own: u64,
    make_old: &[fn(&mut [u64])],
    written: fn(u64) -> Option<&'static str>,
) {
    let (mut tally, mut rng) = Tally::new(part, own);
    for _ in 0..cases(5_000) {
        let bare = rng.chance(20);
        let (layout, words) = old_routine(&mut rng, bare);
        let mut list = rewritten(&layout, &words);
        assert_eq!(check(&mut tally, &layout, &list), Answer::Taken(0));
        for make_old in make_old {
            make_old(&mut list);
        }
        let mut others = words.iter().map(|&word| written(word)).enumerate();
        let expected = match others.find_map(|(place, what)| Some((place, what?))) {
            Some((place, what)) => {
                tally.note(what, 1);
                Answer::refused(Refusal::BadBundle, place)
            }
            None => {
                tally.note("passed", 1);
                Answer::Taken(0)
            }
        };
        let answer = check(&mut tally, &layout, &list);
        assert_eq!(answer, expected, "{list:x?}, rewritten {words:x?}");
    }
    tally.conclude(&[("check", &[0, 11])]);
}

#[test]
fn lists_that_hide_register_8() {
    let make_old: [fn(&mut [u64]); 1] = [hide_register_8];
    old_lists("lists that hide register 8", 27, &make_old, hides);
}

#[test]
fn lists_that_keep_before_the_event() {
    let make_old: [fn(&mut [u64]); 1] = [keep_before_event];
    old_lists("lists in the old order", 28, &make_old, is_ordered);
}

#[test]
fn lists_that_do_both() {
    let make_old: [fn(&mut [u64]); 2] = [keep_before_event, hide_register_8];
    old_lists("lists of before both", 29, &make_old, hides);
}
