// Readings as a person writes them. A routine may read probes of several scales. Then each reading has the scale of the event that
// takes it, as in `hemdroas run --readings`. The library is asked which event that is.
import { ENDING, offsetOf } from "../library/header.mjs";
import { countOf, kindName, wordAt } from "../library/words.mjs";
import { scaleOf } from "./names.mjs";
import { MOST_BUDGET } from "./trace.mjs";

const PC = offsetOf("machine", "pc");
const ROOM = 64; // cells of the log

/** The scales of the probes that a routine reads. */
function scalesRead(facts, page) {
  const words = Array.from({ length: countOf(facts.words) }, (_, place) => wordAt(facts.words, place));
  const read = words.filter((word) => kindName(word) === "EVENT" && facts.isReading[word.v]);
  return [...new Set(read.map((word) => scaleOf(page, word.v)))];
}

export class Readings {
  constructor(lib, facts, page) {
    Object.assign(this, { lib, facts, page, scales: scalesRead(facts, page) });
    this.machine = lib.lendStruct("machine");
    this.memory = lib.lend(Uint32Array, facts.shape.cells);
    this.log = lib.lend(Uint32Array, ROOM);
    this.one = lib.lend(Uint32Array, 1);
  }

  #run(budget, count) {
    const { lib, facts, machine, memory, log } = this;
    return lib.run(facts.layout, facts.commands, machine, memory, { budget, readings: this.one.subarray(0, count), log });
  }

  /** Runs on to the next event that waits for a reading; null if none does. */
  #wait() {
    for (;;) {
      const { ending, steps } = this.#run(this.left, 0);
      this.left -= steps;
      if (ending === ENDING.PROBE_SILENT) return wordAt(this.facts.commands, this.machine[PC] - this.facts.shape.base).v;
      if (ending !== ENDING.LOG_FULL) return null;
    }
  }

  #stand(from) {
    const { lib, facts, machine, memory } = this;
    memory.fill(0);
    lib.install(facts.layout, facts.policy, facts.landings, memory, machine);
    if (from) machine.set(from.machine);
    if (from) memory.set(from.memory);
    this.left = MOST_BUDGET;
  }

  /**
   * Returns a function that gives the scale of each reading in turn, from a machine's record on, or from the installation. It takes
   * the reading before; for the first one, nothing. A reading that no event takes has the largest scale of the probes.
   */
  scalesFrom(from = null) {
    const largest = Math.max(1, ...this.scales);
    if (this.scales.length <= 1) return () => largest;
    this.#stand(from);
    let event = this.#wait();
    return (before) => {
      if (before !== undefined && event !== null) {
        this.one[0] = before;
        this.left -= this.#run(1, 1).steps;
        event = this.#wait();
      }
      return event === null ? largest : scaleOf(this.page, event);
    };
  }
}
