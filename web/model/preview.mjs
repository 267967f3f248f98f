// Looking ahead: what the run would do with these readings, from the moment that is shown. hemdroas_preview works on a copy.
// Afterwards it is tested that what it was lent did not change.
import { same } from "./compare.mjs";
import { MOST_LOG, MOST_READINGS } from "./trace.mjs";

export class Preview {
  constructor(lib, facts) {
    Object.assign(this, { lib, facts });
    const cells = () => lib.lend(Uint32Array, facts.shape.cells);
    this.lent = { machine: lib.lendStruct("machine"), memory: cells(), work: cells(), after: lib.lendStruct("machine") };
    this.readings = lib.lend(Uint32Array, MOST_READINGS);
    this.log = lib.lend(Uint32Array, MOST_LOG);
  }

  /** now: where the session stands; given: its budget and log. */
  look(now, given, readings) {
    const { lib, facts, lent } = this;
    lent.machine.set(now.machine);
    lent.memory.set(now.memory);
    this.readings.set(readings);
    const stretch = { budget: given.budget, readings: this.readings.subarray(0, readings.length), log: this.log.subarray(0, given.log) };
    const answer = lib.preview(facts.layout, facts.commands, lent, stretch);
    const pairs = Array.from({ length: answer.pairs }, (_, i) => ({ event: this.log[2 * i], value: this.log[2 * i + 1] }));
    const { low, high } = facts.shape;
    const sandbox = Array.from({ length: high - low + 1 }, (_, i) => low + i);
    const changed = sandbox.filter((cell) => lent.work[cell] !== now.memory[cell]);
    return {
      ...answer,
      pairs,
      cells: changed.map((cell) => ({ cell, was: now.memory[cell], then: lent.work[cell] })),
      isUntouched: same(lent.machine, now.machine) && same(lent.memory, now.memory),
    };
  }
}
