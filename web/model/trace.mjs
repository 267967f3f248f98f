// A trace: what the viewer has given (readings, budget, log, cells written) becomes a list of frames, one after each command. The
// library runs the commands on this memory, the same commands on the other memory, and the routine's words by the engine.
import { ENDING, STATUS, offsetOf } from "../library/header.mjs";
import { agreement, allOk, instructionOf, movedCells, same, spoiltCells, twinRows } from "./compare.mjs";

const PC = offsetOf("machine", "pc");
const STATUS_AT = offsetOf("machine", "status");
const PAIR = 2; // cells of the log
export const MOST_BUDGET = 10000;
export const MOST_LOG = 4096;
export const MOST_READINGS = 4096;

const GOLDEN = 0x9e3779b1; // an odd number with well mixed bits
const EVERY_NUMBER = 2 ** 32;

/** The other memory's value for a cell in which this one has `value`. It always differs. */
const otherValue = (cell, value) => ((value + (Math.imul(cell + 1, GOLDEN) >>> 1) + 1) % EVERY_NUMBER) >>> 0;

/** The arrays that a trace and its replays are lent, once. */
export function lendBench(lib, facts) {
  const side = () => ({
    machine: lib.lendStruct("machine"),
    engine: lib.lendStruct("engine"),
    memory: lib.lend(Uint32Array, facts.shape.cells),
    log: lib.lend(Uint32Array, MOST_LOG),
  });
  return { here: side(), there: side(), engine: side(), readings: lib.lend(Uint32Array, MOST_READINGS) };
}

export class Trace {
  /** given: { readings, budget, log, emptied, writes: [{ at, cell, value }], free: [{ cell, value }] } */
  constructor(lib, facts, given, bench, { withEngine = true } = {}) {
    Object.assign(this, { lib, facts, given, bench, withEngine });
    this.frames = [];
    this.events = []; // { at, event, value, r0 }: r0 is null for a reading
    this.emptiedAt = []; // frames at which the log was emptied
    this.ending = null;
    bench.readings.set(given.readings);
    this.sides = { here: this.install("here"), there: this.install("there"), engine: this.install("engine") };
  }

  /** A side of the bench, installed anew: the free cells as their owner wrote them first. */
  install(name) {
    const { lib, facts, given, bench } = this;
    const { machine, engine, memory, log } = bench[name];
    const host = new Uint32Array(facts.shape.cells);
    for (const { cell, value } of given.free) host[cell] = value;
    if (name === "there") for (const cell of facts.freeCells) host[cell] = otherValue(cell, host[cell]);
    memory.set(host);
    engine.fill(0);
    lib.install(facts.layout, facts.policy, facts.landings, memory, machine);
    return { name, machine, engine, memory, log, host, installed: memory.slice(), record: [], used: 0, logFrom: 0, ending: null };
  }

  /** What a side is lent for its next so many steps. */
  #stretch(side, budget) {
    const log = side.log.subarray(side.record.length - side.logFrom, Math.max(0, this.given.log));
    return { budget, readings: this.bench.readings.subarray(side.used, this.given.readings.length), log };
  }

  #took(side, stretch, answer) {
    for (let cell = 0; cell < PAIR * answer.pairs; cell++) side.record.push(stretch.log[cell]);
    side.used += answer.readings;
    side.ending = answer.ending;
    return answer;
  }

  /** So many commands on a side, or instructions on the engine's. */
  advance(side, budget) {
    const { lib, facts } = this;
    const stretch = this.#stretch(side, budget);
    const { layout, commands, words } = facts;
    const isEngine = side.name === "engine";
    const answer = isEngine
      ? lib.engineRun(layout, words, side.engine, side.memory, stretch)
      : lib.run(layout, commands, side.machine, side.memory, stretch);
    if (answer.ending < ENDING.ENDED) throw new Error(`The library refused the run with ${answer.ending}.`);
    return this.#took(side, stretch, answer);
  }

  /** Writes what the viewer wrote at a frame. */
  writeAt(side, frame) {
    for (const { at, cell, value } of this.given.writes) {
      if (at !== frame || this.facts.region[cell] !== "free") continue;
      side.host[cell] = side.memory[cell] = side.name === "there" ? otherValue(cell, value) : value;
    }
  }

  get #sides() {
    return Object.values(this.sides);
  }

  #compare(ending) {
    const { here, engine } = this.sides;
    return this.withEngine ? agreement(this.facts, { ...here, ending }, { ...engine }) : null;
  }

  #note({ compared, event = null }) {
    const { facts } = this;
    const { here, there } = this.sides;
    const rows = twinRows(facts, here, there);
    const moved = movedCells(facts, here).length + movedCells(facts, there).length;
    const spoilt = spoiltCells(facts, here).length + spoiltCells(facts, there).length;
    const atFirst = (here.machine[PC] - facts.shape.base) % facts.bundle === 0;
    this.frames.push({
      machine: here.machine.slice(),
      index: instructionOf(facts, here.machine),
      isRunning: here.machine[STATUS_AT] === STATUS.RUNNING,
      isFirst: atFirst && here.machine[STATUS_AT] === STATUS.RUNNING,
      state: here.memory[facts.shape.state_cell],
      pairs: here.record.length / PAIR,
      used: here.used,
      event,
      agree: compared ? this.#compare() : null,
      twins: allOk(rows) ? null : rows,
      moved,
      spoilt,
    });
  }

  #step() {
    const { here, there, engine } = this.sides;
    const r0 = here.machine[0];
    const did = this.advance(here, 1);
    if (did.steps === 0) return did;
    this.advance(there, 1);
    const isRunning = here.machine[STATUS_AT] === STATUS.RUNNING;
    const compared = !isRunning || (here.machine[PC] - this.facts.shape.base) % this.facts.bundle === 0;
    if (compared && this.withEngine) this.advance(engine, 1);
    const [number, value] = here.record.slice(-PAIR);
    const at = this.frames.length;
    const event = did.pairs ? { at, event: number, value, r0: did.readings ? null : r0 } : null;
    if (event) this.events.push(event);
    this.#note({ compared, event });
    return did;
  }

  #mayEmpty(ending) {
    return ending === ENDING.LOG_FULL && this.emptiedAt.length < this.given.emptied && this.given.log >= PAIR;
  }

  /** After the last command engine and machine must wait for the same thing, or have come to the same end. */
  #finish(ending) {
    this.ending = ending;
    const last = this.frames.at(-1);
    const isPause = [ENDING.LOG_FULL, ENDING.PROBE_SILENT].includes(ending);
    if (isPause && this.withEngine) this.advance(this.sides.engine, 1);
    if (isPause || !last.isRunning) last.agree = this.#compare(ending);
  }

  /** Makes all frames. It stops after each, so that the caller can do other things between them. */
  *run() {
    this.#note({ compared: true });
    for (;;) {
      const at = this.frames.length - 1;
      for (const side of this.#sides) this.writeAt(side, at);
      if (at === this.given.budget) return this.#finish(ENDING.SPENT);
      const { steps, ending } = this.#step();
      if (steps === 0 && this.#mayEmpty(ending)) this.#empty();
      else if (steps === 0 || !this.frames.at(-1).isRunning) return this.#finish(ending);
      else yield this.frames.length - 1;
    }
  }

  #empty() {
    this.emptiedAt.push(this.frames.length - 1);
    for (const side of this.#sides) side.logFrom = side.record.length;
  }

  /**
   * What stands after so many commands: a run from the installation, in one go between the moments at which the viewer wrote
   * or emptied the log. `isExact`: it came out as the frame, which was reached command by command.
   */
  replay(count, name = "here") {
    const side = this.install(name);
    const moments = [...this.given.writes.map((write) => write.at), ...this.emptiedAt, count];
    let done = 0;
    for (const at of [...new Set(moments)].filter((m) => m <= count).sort((a, b) => a - b)) {
      if (at > done) done += this.advance(side, at - done).steps;
      this.writeAt(side, at);
      if (this.emptiedAt.includes(at)) side.logFrom = side.record.length;
    }
    const frame = this.frames[count];
    const isExact = done === count && same(side.machine, frame.machine) && side.record.length === PAIR * frame.pairs;
    return { memory: side.memory.slice(), machine: side.machine.slice(), host: side.host, record: side.record, isExact };
  }
}
