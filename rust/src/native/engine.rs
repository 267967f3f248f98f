//! Runs a routine's words without rewriting them.

use super::length;
use crate::{Ending, Engine, EngineAnswer, EngineRecord, Layout, LayoutArray, Refusal};

#[rustfmt::skip]
extern "C" {
    fn hemdroas_engine_run(layout: *const LayoutArray, words: *const u64, n: u64, engine: *mut [u32; EngineRecord::LENGTH],
                           memory: *mut u32, cells: u64, budget: u32, readings: *const u32, r: u64,
                           log: *mut u32, g: u64, answer: *mut [u32; 5]);
    fn hemdroas_engine_continue(layout: *const LayoutArray, words: *const u64, n: u64, engine: *mut [u32; EngineRecord::LENGTH],
                                memory: *mut u32, cells: u64, budget: u32, readings: *const u32, r: u64,
                                log: *mut u32, g: u64, answer: *mut [u32; 5]);
}

fn engine_answer([number, place, instructions, pairs, readings]: [u32; 5]) -> EngineAnswer {
    let came = match (Refusal::from_number(number), Ending::from_number(number)) {
        (Some(refusal), _) => Err((refusal, place)),
        (None, Some(ending)) if place == 0 => Ok(ending),
        _ => {
            panic!("the library answered {number} at {place}, which is neither refusal nor ending")
        }
    };
    EngineAnswer {
        came,
        instructions,
        pairs,
        readings,
    }
}

/// Which function of the library is called.
#[derive(Clone, Copy)]
enum Entry {
    /// `hemdroas_engine_run`
    Run,
    /// `hemdroas_engine_continue`
    Continue,
}

/// What a call is lent beside layout and words.
struct Lent<'a> {
    record: &'a mut EngineRecord,
    memory: &'a mut [u32],
    readings: &'a [u32],
    log: &'a mut [u32],
}

fn call(entry: Entry, layout: &Layout, words: &[u64], budget: u32, lent: Lent) -> EngineAnswer {
    let function = match entry {
        Entry::Run => hemdroas_engine_run,
        Entry::Continue => hemdroas_engine_continue,
    };
    let mut five = [0; 5];
    // SAFETY: every slice is live and has the length given; record, memory, log and `five` are borrowed for this call alone.
    unsafe {
        function(
            &layout.to_array(),
            words.as_ptr(),
            length(words),
            &mut lent.record.0,
            lent.memory.as_mut_ptr(),
            length(lent.memory),
            budget,
            lent.readings.as_ptr(),
            length(lent.readings),
            lent.log.as_mut_ptr(),
            length(lent.log),
            &mut five,
        );
    }
    engine_answer(five)
}

/// Calls the library with an engine's record.
fn call_on(
    engine: &mut Engine,
    call: impl FnOnce(&mut EngineRecord) -> EngineAnswer,
) -> EngineAnswer {
    let mut record = engine.to_record();
    let answer = call(&mut record);
    *engine = record.to_engine();
    answer
}

/// Runs a routine's words until it ends, pauses or has used up its budget of
/// instructions.
pub fn engine(
    layout: &Layout,
    words: &[u64],
    engine: &mut Engine,
    memory: &mut [u32],
    budget: u32,
    readings: &[u32],
    log: &mut [u32],
) -> EngineAnswer {
    call_on(engine, |record| {
        engine_record(layout, words, record, memory, budget, readings, log)
    })
}

/// [`engine`] on a record of the C interface. Its status may be any number: one
/// above 4 counts as faulted, and the record stays as it was.
pub fn engine_record(
    layout: &Layout,
    words: &[u64],
    record: &mut EngineRecord,
    memory: &mut [u32],
    budget: u32,
    readings: &[u32],
    log: &mut [u32],
) -> EngineAnswer {
    let lent = Lent {
        record,
        memory,
        readings,
        log,
    };
    call(Entry::Run, layout, words, budget, lent)
}

/// Does what [`engine`] does, but tests each word only when its turn comes. A word
/// that is no instruction faults.
pub fn engine_continue(
    layout: &Layout,
    words: &[u64],
    engine: &mut Engine,
    memory: &mut [u32],
    budget: u32,
    readings: &[u32],
    log: &mut [u32],
) -> EngineAnswer {
    call_on(engine, |record| {
        engine_continue_record(layout, words, record, memory, budget, readings, log)
    })
}

/// [`engine_continue`] on a record of the C interface, like [`engine_record`].
pub fn engine_continue_record(
    layout: &Layout,
    words: &[u64],
    record: &mut EngineRecord,
    memory: &mut [u32],
    budget: u32,
    readings: &[u32],
    log: &mut [u32],
) -> EngineAnswer {
    let lent = Lent {
        record,
        memory,
        readings,
        log,
    };
    call(Entry::Continue, layout, words, budget, lent)
}
