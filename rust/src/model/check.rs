//! Checks command lists, whoever wrote them.

use super::bundles::{address, base_right, count_right, pch, pcl, Bundle, HALT};
use super::commands::Command::{self, *};
use super::layout::layout_right;
use super::outputs::{answer, refuse, Refused};
use crate::names::{BUNDLE_LENGTH, GUEST_REGISTERS, HIDDEN};
use crate::{Answer, Layout, Refusal};

/// The four commands, if all four words are commands.
fn commands_of(words: &[u64]) -> Option<Bundle> {
    let commands: Option<Vec<Command>> = words.iter().map(|&word| Command::of_word(word)).collect();
    commands?.try_into().ok()
}

/// 'Shapes, of words that are commands by the step rule below, with t = NOP and
/// guest registers 0 to 7.' Each arm is one shape. Request [6]: guest registers
/// are 0 to 14, and 'all shapes that named 8 now name 15'. Request [12]: 'the event
/// bundle becomes LOOK, STOPIF, EVENT, KEEP'.
#[rustfmt::skip]
fn has_shape(layout: &Layout, bundles: usize, bundle: Bundle) -> bool {
    let guests = |registers: &[u32]| registers.iter().all(|&r| r < GUEST_REGISTERS);
    match bundle {
        // HALT t t t; or one of kinds 2 to 8, then t t t.
        [Halt, Nop, Nop, Nop] => true,
        [Set { d, v: _ }, Nop, Nop, Nop] => guests(&[d]),
        [Move { d, a }, Nop, Nop, Nop] => guests(&[d, a]),
        [Add { d, a, b }, Nop, Nop, Nop] => guests(&[d, a, b]),
        [Sub { d, a, b }, Nop, Nop, Nop] => guests(&[d, a, b]),
        [And { d, a, b }, Nop, Nop, Nop] => guests(&[d, a, b]),
        [Or { d, a, b }, Nop, Nop, Nop] => guests(&[d, a, b]),
        [Sar { d, a, v: _ }, Nop, Nop, Nop] => guests(&[d, a]),
        // ANDI 15,a,SH; ORI 15,15,SL; LOAD d,15; t.
        [AndI { d: HIDDEN, a, v: and }, OrI { d: HIDDEN, a: HIDDEN, v: or }, Load { d, a: HIDDEN }, Nop] =>
            guests(&[a, d]) && and == layout.high && or == layout.low,
        // For STORE: the same two, STORE 15,b; t.
        [AndI { d: HIDDEN, a, v: and }, OrI { d: HIDDEN, a: HIDDEN, v: or }, Store { a: HIDDEN, b }, Nop] =>
            guests(&[a, b]) && and == layout.high && or == layout.low,
        // GOIF, t t t, its address B + 4g' with g' < N.
        [GoIf { a, b, c: _, v }, Nop, Nop, Nop] =>
            guests(&[a, b]) && (0..bundles).any(|g| u64::from(v) == address(layout, g)),
        // SHL 15,d,2; ANDI 15,15,PCH; ORI 15,15,PCL; GOXR through 15 with the guest's a, b, c.
        [Shl { d: HIDDEN, a: d, v: 2 }, AndI { d: HIDDEN, a: HIDDEN, v: and }, OrI { d: HIDDEN, a: HIDDEN, v: or }, GoReg { d: HIDDEN, a, b, c: _ }] =>
            guests(&[d, a, b]) && and == pch(layout, bundles) && or == pcl(layout),
        // LOOK 15,n; STOPIF 15; EVENT n; KEEP 15, one n throughout.
        [Look { d: HIDDEN, v: look }, StopIf { d: HIDDEN }, Event { v: event }, Keep { d: HIDDEN }] =>
            look == event,
        _ => false,
    }
}

/// 'The checker passes a list of 4N commands, N a power of two from 1 to 1,024,
/// whose bundles all have these shapes and whose last is HALT.' 'Checking: 7,
/// 12, 13, 11.' 'The lowest place comes first.'
fn checked(layout: &Layout, commands: &[u64]) -> Result<(), Refused> {
    if !layout_right(layout) {
        return refuse(Refusal::BadLayout);
    }
    let bundles = commands.len() / BUNDLE_LENGTH;
    if !commands.len().is_multiple_of(BUNDLE_LENGTH) || !count_right(bundles) {
        return refuse(Refusal::BadCount);
    }
    if !base_right(layout, commands.len()) {
        return refuse(Refusal::BadBase);
    }
    for (place, words) in commands.chunks(BUNDLE_LENGTH).enumerate() {
        let good = match commands_of(words) {
            None => false,
            Some(bundle) if place == bundles - 1 => bundle == HALT,
            Some(bundle) => has_shape(layout, bundles, bundle),
        };
        if !good {
            return Err((Refusal::BadBundle, place));
        }
    }
    Ok(())
}

/// Checks a command list, whoever wrote it.
pub fn check(layout: &Layout, commands: &[u64]) -> Answer {
    answer(checked(layout, commands).map(|()| 0))
}
