// The numbers and structs of include/hemdroas.h that the page uses. A test compares each of them with the header.

export const COUNTS = {
  EVENTS: 16,
  ORDERS: 8,
  NO_ARROW: 255,
  MOST_TABLE: 256,
  MOST_WORDS: 1023,
  MOST_COMMANDS: 4096,
};

/** The ceiling of an order that has none: any number is allowed. */
export const NO_CEILING = 0xffffffff;

export const REFUSALS = {
  0: "taken",
  1: "short weight",
  2: "foreign matter",
  3: "unknown variety",
  4: "off grade",
  5: "oversize",
  6: "overweight",
  7: "bad layout",
  8: "bad landing",
  9: "small hopper",
  10: "bad policy",
  11: "bad bundle",
  12: "bad count",
  13: "bad base",
  14: "bad landing list",
};

export const ENDING = {
  ENDED: 20,
  NO_ARROW: 21,
  FAULT: 22,
  LOG_FULL: 23,
  PROBE_SILENT: 24,
  SPENT: 25,
  NO_LANDING: 26,
};

export const STATUS = { RUNNING: 0, ENDED: 1, STOPPED: 2, FAULTED: 3, STRAYED: 4 };

/** The fields of each struct, in their order, with how many numbers of 32 bits they have. */
export const STRUCTS = {
  layout: {
    cells: 1,
    low: 1,
    high: 1,
    state_cell: 1,
    table: 1,
    states: 1,
    base: 1,
    landings: 1,
    ceilings: COUNTS.ORDERS,
  },
  machine: { r: 16, pc: 1, status: 1 },
  engine: { r: 15, index: 1, status: 1 },
  answer: { number: 1, place: 1 },
  run_answer: { ending: 1, steps: 1, pairs: 1, readings: 1 },
  engine_answer: { ending: 1, place: 1, instructions: 1, pairs: 1, readings: 1 },
  precedence_answer: { number: 1, place: 1, states: 1, never: 1 },
};

const sum = (numbers) => numbers.reduce((total, number) => total + number, 0);

/** How many numbers a struct has. */
export const sizeOf = (struct) => sum(Object.values(STRUCTS[struct]));

/** Where a field begins in its struct, in numbers. */
export function offsetOf(struct, field) {
  const fields = Object.keys(STRUCTS[struct]);
  return sum(fields.slice(0, fields.indexOf(field)).map((name) => STRUCTS[struct][name]));
}

/** A struct's numbers by the names of their fields. */
export function named(struct, numbers) {
  const field = ([name, count]) => {
    const at = offsetOf(struct, name);
    return [name, count === 1 ? numbers[at] : numbers.slice(at, at + count)];
  };
  return Object.fromEntries(Object.entries(STRUCTS[struct]).map(field));
}

const wordOf = (key) => key.toLowerCase().replace("_", " ");
const endingWords = Object.entries(ENDING).map(([key, number]) => [number, wordOf(key)]);
const WORDS = { ...REFUSALS, ...Object.fromEntries(endingWords) };

/** A refusal or an ending as every message has it: its word, and its number in brackets. */
export const answerText = (number) => `${WORDS[number] ?? "no such number"} (${number})`;
