// The small host of host.c in JavaScript: node examples/host.mjs target/portable/wasm32-unknown-unknown/hemdroas.wasm
//
// The module imports nothing. Buffers lie in its own memory, from __heap_base on. Pointers are numbers, lengths are BigInt.
import { readFileSync } from "node:fs";

const PAGES = 2; // of 64 KB, added to the module's own
const [EVENTS, STATES, CELLS, STATE_CELL, LOG] = [16, 2, 1024, 0, 64];
const [MOST_COMMANDS, MACHINE, ANSWER, RUN_ANSWER] = [4096, 18, 2, 4];
const [GAS, DOOR, NO_ARROW, NO_CEILING, BUDGET] = [0, 2, 255, 0xffffffff, 1000];

const { instance } = await WebAssembly.instantiate(readFileSync(process.argv[2]));
const library = instance.exports;
library.memory.grow(PAGES); // before the first view: growing the memory detaches all views
let top = library.__heap_base.value;

const lend = (Type, count) => {
  const start = (top + 7) & ~7;
  top = start + count * Type.BYTES_PER_ELEMENT;
  return new Type(library.memory.buffer, start, count);
};
const lendAll = (Type, elements) => {
  const buffer = lend(Type, elements.length);
  buffer.set(elements);
  return buffer;
};
const pointer = (buffer) => buffer.byteOffset;
const pointerAndLength = (buffer) => [buffer.byteOffset, BigInt(buffer.length)];

const layout = lendAll(Uint32Array, [CELLS, 256, 511, STATE_CELL, 16, STATES, 4096, 64, ...Array(8).fill(NO_CEILING)]);
const table = lend(Uint8Array, EVENTS * STATES);
table.fill(1, EVENTS);
table[DOOR] = 1;
table[EVENTS + GAS] = NO_ARROW;
const routine = lendAll(Uint8Array, [0x04, 0, 0x21, 0x01, 0x46, 0, 0, 0, 0x01, 0x0c, 0x21, 0x0c, 0x02, 0, 0, 0, 0x01, 0x0c]);
const landings = lendAll(Uint32Array, [0]);
const readings = lendAll(Uint32Array, [1800, 1950, 2100]);
const commands = lend(BigUint64Array, MOST_COMMANDS);
const memory = lend(Uint32Array, CELLS);
const log = lend(Uint32Array, LOG);
const machine = lend(Uint32Array, MACHINE);
const answer = lend(Uint32Array, ANSWER);
const ran = lend(Uint32Array, RUN_ANSWER);

library.hemdroas_load(
  pointer(layout), STATES, 0, ...pointerAndLength(table), ...pointerAndLength(landings), ...pointerAndLength(routine),
  ...pointerAndLength(commands), ...pointerAndLength(memory), pointer(machine), pointer(answer));
const [number, length] = answer;
console.log(`answer ${number}`);
if (number !== 0) process.exit(1);

library.hemdroas_run(
  pointer(layout), pointer(commands), BigInt(length), pointer(machine), ...pointerAndLength(memory), BUDGET,
  ...pointerAndLength(readings), ...pointerAndLength(log), pointer(ran));
const [ending, steps, pairs] = ran;
for (let pair = 0; pair < pairs; pair++) console.log(`event ${log[2 * pair]} ${log[2 * pair + 1]}`);
console.log(`end ${ending} steps ${steps} state ${memory[STATE_CELL]}`);
