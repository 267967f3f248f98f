// The proved library as WebAssembly. A call takes arrays that `lend` made in the module's memory. It passes each as the header
// asks: its address, then its length as a 64-bit number. Nothing is decided here.
import { named, sizeOf } from "./header.mjs";

const PAGES = 48; // of 64 KiB each: room for all that the page lends
const ALIGNMENT = 8;
const NUMBERS_A_WORD = 2; // words of 64 bits are lent as two numbers each, the low one first

const place = (view) => view.byteOffset;
const many = (view) => [view.byteOffset, BigInt(view.length)];
const words = (view) => [view.byteOffset, BigInt(view.length / NUMBERS_A_WORD)];

export async function openLibrary(bytes) {
  const { instance } = await WebAssembly.instantiate(bytes);
  return new Library(instance.exports);
}

export class Library {
  #c;
  #top;
  #answers = {};

  constructor(exports) {
    this.#c = exports;
    exports.memory.grow(PAGES); // before the first array is lent: growing detaches all arrays
    this.#top = exports.__heap_base.value;
    for (const struct of ["answer", "run_answer", "engine_answer", "precedence_answer"]) {
      this.#answers[struct] = this.lendStruct(struct);
    }
  }

  /** An array in the module's memory: a copy of `from`, or `from` zeros if it is a number. */
  lend(Type, from) {
    const count = typeof from === "number" ? from : from.length;
    const at = Math.ceil(this.#top / ALIGNMENT) * ALIGNMENT;
    this.#top = at + count * Type.BYTES_PER_ELEMENT;
    const view = new Type(this.#c.memory.buffer, at, count);
    if (typeof from !== "number") view.set(from);
    return view;
  }

  lendStruct(struct) {
    return this.lend(Uint32Array, sizeOf(struct));
  }

  lendWords(count) {
    return this.lend(Uint32Array, count * NUMBERS_A_WORD);
  }

  #call(name, struct, ...args) {
    const answer = this.#answers[struct];
    answer.fill(0);
    this.#c[`hemdroas_${name}`](...args, place(answer));
    return named(struct, answer);
  }

  read(bytes, room) {
    return this.#call("read", "answer", ...many(bytes), ...words(room));
  }

  rewrite(layout, routine, room) {
    return this.#call("rewrite", "answer", place(layout), ...words(routine), ...words(room));
  }

  check(layout, commands) {
    return this.#call("check", "answer", place(layout), ...words(commands));
  }

  precedence(pairs, room) {
    return this.#call("precedence", "precedence_answer", ...many(pairs), ...many(room));
  }

  /** policy: { states, start, table }, the table lent. */
  install(layout, policy, landings, memory, machine) {
    const { states, start, table } = policy;
    const lent = [...many(table), ...many(landings), ...many(memory), place(machine)];
    return this.#call("install", "answer", place(layout), states, start, ...lent);
  }

  /** stretch: { budget, readings, log }, the two lists lent. */
  run(layout, commands, machine, memory, { budget, readings, log }) {
    const lent = [place(layout), ...words(commands), place(machine), ...many(memory)];
    return this.#call("run", "run_answer", ...lent, budget, ...many(readings), ...many(log));
  }

  /** As run, but machine and memory stay; `after` and `work` become what the run would leave. */
  preview(layout, commands, { machine, memory, work, after }, { budget, readings, log }) {
    const lent = [place(layout), ...words(commands), place(machine), ...many(memory), ...many(work)];
    const given = [budget, ...many(readings), ...many(log)];
    return this.#call("preview", "run_answer", ...lent, ...given, place(after));
  }

  engineRun(layout, routine, engine, memory, { budget, readings, log }) {
    const lent = [place(layout), ...words(routine), place(engine), ...many(memory)];
    return this.#call("engine_run", "engine_answer", ...lent, budget, ...many(readings), ...many(log));
  }
}
