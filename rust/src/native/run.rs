//! Runs machines, and previews runs.

use super::{length, run_answer};
use crate::{Layout, LayoutArray, Machine, Record, RunAnswer};

#[rustfmt::skip]
extern "C" {
    fn hemdroas_run(layout: *const LayoutArray, commands: *const u64, n: u64, machine: *mut [u32; Record::LENGTH],
                    memory: *mut u32, cells: u64, budget: u32, readings: *const u32, r: u64,
                    log: *mut u32, g: u64, answer: *mut [u32; 4]);
    fn hemdroas_preview(layout: *const LayoutArray, commands: *const u64, n: u64, machine: *const [u32; Record::LENGTH],
                        memory: *const u32, cells: u64, work: *mut u32, spare: u64,
                        budget: u32, readings: *const u32, r: u64,
                        log: *mut u32, g: u64, after: *mut [u32; Record::LENGTH], answer: *mut [u32; 4]);
}

/// Runs a machine until it ends, pauses or has used up its budget of steps.
pub fn run(
    layout: &Layout,
    commands: &[u64],
    machine: &mut Machine,
    memory: &mut [u32],
    budget: u32,
    readings: &[u32],
    log: &mut [u32],
) -> RunAnswer {
    let mut record = machine.to_record();
    let answer = run_record(layout, commands, &mut record, memory, budget, readings, log);
    *machine = record.to_machine();
    answer
}

/// [`run`] on a record of the C interface. Its status may be any number: one above
/// 4 counts as faulted, and the record stays as it was.
pub fn run_record(
    layout: &Layout,
    commands: &[u64],
    record: &mut Record,
    memory: &mut [u32],
    budget: u32,
    readings: &[u32],
    log: &mut [u32],
) -> RunAnswer {
    let mut four = [0; 4];
    // SAFETY: every slice is live and has the length given; record, memory, log and `four` are borrowed for this call alone.
    unsafe {
        hemdroas_run(
            &layout.to_array(),
            commands.as_ptr(),
            length(commands),
            &mut record.0,
            memory.as_mut_ptr(),
            length(memory),
            budget,
            readings.as_ptr(),
            length(readings),
            log.as_mut_ptr(),
            length(log),
            &mut four,
        );
    }
    run_answer(four)
}

/// What [`run`] would answer and write to the log, and the machine and the memory
/// that it would leave. The given machine and memory do not change.
pub fn preview(
    layout: &Layout,
    commands: &[u64],
    machine: &Machine,
    memory: &[u32],
    budget: u32,
    readings: &[u32],
    log: &mut [u32],
) -> (RunAnswer, Machine, Vec<u32>) {
    let record = machine.to_record();
    let mut after = record;
    let mut work = vec![0; memory.len()];
    let answer = preview_record(
        layout, commands, &record, memory, &mut work, budget, readings, log, &mut after,
    );
    (answer, after.to_machine(), work)
}

/// [`preview`] with records of the C interface. It leaves in `after` what
/// [`run_record`] would leave in `record`, and in `work` what it would leave in
/// `memory`. It refuses a `work` of another length than the layout's size.
#[allow(clippy::too_many_arguments)]
pub fn preview_record(
    layout: &Layout,
    commands: &[u64],
    record: &Record,
    memory: &[u32],
    work: &mut [u32],
    budget: u32,
    readings: &[u32],
    log: &mut [u32],
    after: &mut Record,
) -> RunAnswer {
    let mut four = [0; 4];
    // SAFETY: every slice is live and has the length given; work, log, after and `four` are borrowed for this call alone.
    unsafe {
        hemdroas_preview(
            &layout.to_array(),
            commands.as_ptr(),
            length(commands),
            &record.0,
            memory.as_ptr(),
            length(memory),
            work.as_mut_ptr(),
            length(work),
            budget,
            readings.as_ptr(),
            length(readings),
            log.as_mut_ptr(),
            length(log),
            &mut after.0,
            &mut four,
        );
    }
    run_answer(four)
}
