//! Rewrites instructions into bundles.

use super::bundles::{address, alone, base_right, bundles, pch, pcl, Bundle, HALT};
use super::commands::Command;
use super::instructions::{judge_routine, Instr};
use super::layout::layout_right;
use super::outputs::{deliver, refuse, room_for, Refused};
use crate::names::{BUNDLE_LENGTH, HIDDEN};
use crate::{Answer, Layout, Refusal};

/// 'ANDI 8,a,SH; ORI 8,8,SL; LOAD d,8; t. For STORE: the same two, STORE 8,b;
/// t'; request [6]: 'all shapes that named 8 now name 15'.
fn masked(layout: &Layout, a: u32, access: Command) -> Bundle {
    [
        Command::AndI {
            d: HIDDEN,
            a,
            v: layout.high,
        },
        Command::OrI {
            d: HIDDEN,
            a: HIDDEN,
            v: layout.low,
        },
        access,
        Command::Nop,
    ]
}

/// 'The rewriter gives each instruction the shape of its name, with its
/// fields.'
#[rustfmt::skip]
fn bundle(layout: &Layout, bundles: usize, instr: Instr) -> Bundle {
    match instr {
        Instr::Halt => HALT,
        Instr::Set { d, v } => alone(Command::Set { d, v }),
        Instr::Move { d, a } => alone(Command::Move { d, a }),
        Instr::Add { d, a, b } => alone(Command::Add { d, a, b }),
        Instr::Sub { d, a, b } => alone(Command::Sub { d, a, b }),
        Instr::And { d, a, b } => alone(Command::And { d, a, b }),
        Instr::Or { d, a, b } => alone(Command::Or { d, a, b }),
        Instr::Sar { d, a, v } => alone(Command::Sar { d, a, v }),
        Instr::Load { d, a } => masked(layout, a, Command::Load { d, a: HIDDEN }),
        Instr::Store { a, b } => masked(layout, a, Command::Store { a: HIDDEN, b }),
        // 'Its address B + 4g' (rewritten: g = v)'
        Instr::GoIf { a, b, c, v } => {
            let v = address(layout, v as usize) as u32;
            alone(Command::GoIf { a, b, c, v })
        }
        // SHL 15,d,2; ANDI 15,15,PCH; ORI 15,15,PCL; GOXR through 15 with the guest's a, b, c
        Instr::GoX { d, a, b, c } => [
            Command::Shl { d: HIDDEN, a: d, v: 2 },
            Command::AndI { d: HIDDEN, a: HIDDEN, v: pch(layout, bundles) },
            Command::OrI { d: HIDDEN, a: HIDDEN, v: pcl(layout) },
            Command::GoReg { d: HIDDEN, a, b, c },
        ],
        // Request [12]: 'the event bundle becomes LOOK, STOPIF, EVENT, KEEP'
        Instr::Event { v } => [
            Command::Look { d: HIDDEN, v },
            Command::StopIf { d: HIDDEN },
            Command::Event { v },
            Command::Keep { d: HIDDEN },
        ],
    }
}

/// 'Rewriting: 7; 5; per word 3, 2, 4, 8; 13; 9.' 'Instructions n to N − 1 are
/// HALT.'
fn rewritten(layout: &Layout, words: &[u64], room: usize) -> Result<Vec<u64>, Refused> {
    if !layout_right(layout) {
        return refuse(Refusal::BadLayout);
    }
    let mut instrs = judge_routine(words)?;
    let bundles = bundles(words.len());
    let size = BUNDLE_LENGTH * bundles;
    if !base_right(layout, size) {
        return refuse(Refusal::BadBase);
    }
    room_for(size, room)?;
    instrs.resize(bundles, Instr::Halt);
    Ok(instrs
        .into_iter()
        .flat_map(|instr| bundle(layout, bundles, instr))
        .map(Command::word)
        .collect())
}

/// Rewrites a routine's words into commands.
pub fn rewrite(layout: &Layout, words: &[u64], commands: &mut [u64]) -> Answer {
    deliver(rewritten(layout, words, commands.len()), commands)
}
