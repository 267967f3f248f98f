// Sessions for the tests: the page's own modules in node, on the same wasm and the same data as in a browser.
import { readFileSync } from "node:fs";
import { Library, openLibrary } from "../../web/library/binding.mjs";
import { readPage } from "../../web/model/page.mjs";
import { Session } from "../../web/model/session.mjs";
import { offsetOf } from "../../web/library/header.mjs";
import { WASM, dataOf, makePage } from "./command.mjs";

export const GUEST_REGISTERS = offsetOf("engine", "index");

export const library = () => openLibrary(readFileSync(WASM));

/** The library with a fault of its own, to see that the page notices: `spoil(library)` changes its methods. */
export async function spoiltLibrary(spoil) {
  const { instance } = await WebAssembly.instantiate(readFileSync(WASM));
  const lib = new Library(instance.exports);
  spoil(lib);
  return lib;
}

export const pageOf = (example, more) => readPage(dataOf(makePage(example, more)));

/** A session on a page that has run once; `given` is what differs from the page's own. */
export async function open(page, given = {}, lib = undefined) {
  const session = new Session(lib ?? (await library()), page);
  Object.assign(session.given, given);
  await session.run();
  return session;
}

/** What the last step did, as `hemdroas step --json` has it. */
export function stepObject(session) {
  const { before, now, facts, event } = session;
  const isShared = (cell) => cell !== facts.shape.state_cell;
  const changed = [...now.memory.keys()].filter((cell) => isShared(cell) && before.memory[cell] !== now.memory[cell]);
  return {
    instruction: before.index,
    line: session.page.lines[before.index] ?? null,
    registers: [...now.machine.subarray(0, GUEST_REGISTERS)],
    cells: changed.map((cell) => ({ cell, from: before.memory[cell], to: now.memory[cell] })),
    pair: event ? { event: event.event, value: event.value } : null,
    state: now.state,
    ending: now.isRunning ? null : session.trace.ending,
  };
}

/** The same of an object that the command printed. */
export const commandObject = ({ instruction, line, registers, cells, pair, state, ending }) => ({
  instruction,
  line,
  registers,
  cells,
  pair: pair ? { event: pair.event, value: pair.value } : null,
  state,
  ending,
});
