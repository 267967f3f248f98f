// What the page asks the library once: which cells installing writes, what each event does in each state, which events are
// readings, how many commands an instruction becomes. The page asks and does not compute, so no rule is written a second time.
import { COUNTS, ENDING, answerText, named, offsetOf } from "../library/header.mjs";
import { kindOf, wordOf } from "../library/words.mjs";

const EVENTS = Array.from({ length: COUNTS.EVENTS }, (_, event) => event);
const ALL_ONES = 0xffffffff;
const PAIR = 2; // cells of the log

function must(what, answer) {
  if (answer.number) throw new Error(`${what} was refused as ${answerText(answer.number)}, at ${answer.place}`);
  return answer;
}

/** The lent parts of a page's routine, drum and policy: words, commands, layout, table, landings. */
function lendCode(lib, page) {
  const layout = lib.lend(Uint32Array, page.layout);
  const room = lib.lendWords(COUNTS.MOST_WORDS);
  const read = must("Reading", lib.read(lib.lend(Uint8Array, page.routine), room));
  const words = room.subarray(0, 2 * read.place);
  const list = lib.lendWords(COUNTS.MOST_COMMANDS);
  const rewritten = must("Rewriting", lib.rewrite(layout, words, list));
  const commands = list.subarray(0, 2 * rewritten.place);
  must("Checking", lib.check(layout, commands));
  const { start } = page.policy;
  const policy = { states: page.policy.names.length, start, table: lib.lend(Uint8Array, page.policy.table) };
  return { layout, words, commands, policy, landings: lib.lend(Uint32Array, page.landings) };
}

/** The commands of an instruction: those that the empty routine, one HALT, becomes. */
function askBundle(lib, layout) {
  const room = lib.lendWords(COUNTS.MOST_COMMANDS);
  return must("Rewriting nothing", lib.rewrite(layout, room.subarray(0, 0), room)).place;
}

/** Installs the policy on a memory whose cells are all `value`, and gives a copy of it. */
function installedOn(lib, code, value, scratch) {
  scratch.memory.fill(value);
  const answer = lib.install(code.layout, code.policy, code.landings, scratch.memory, scratch.machine);
  must("Installing", answer);
  return scratch.memory.slice();
}

/** The region of each cell. Installing in two memories that differ everywhere makes exactly those cells equal that it writes. */
function askRegions(lib, code, shape, scratch) {
  const one = installedOn(lib, code, 0, scratch);
  const other = installedOn(lib, code, ALL_ONES, scratch);
  const starts = { table: shape.table, landings: shape.landings };
  return Array.from(one, (value, cell) => {
    if (value !== other[cell]) return shape.low <= cell && cell <= shape.high ? "sandbox" : "free";
    if (cell === shape.state_cell) return "state";
    const before = Object.keys(starts).filter((name) => starts[name] <= cell);
    return before.sort((a, b) => starts[b] - starts[a])[0];
  });
}

/** How the engine answers the one instruction EVENT in a memory. */
function tryEvent(lib, layout, event, scratch, readings) {
  const routine = scratch.word;
  routine.set(wordOf({ kind: kindOf("EVENT"), v: event }));
  scratch.engine.fill(0);
  const stretch = { budget: 1, readings: scratch.readings.subarray(0, readings), log: scratch.log };
  return lib.engineRun(layout, routine, scratch.engine, scratch.memory, stretch).ending;
}

/** The state after each event in each state, or null. The engine is asked in each state. */
function askArrows(lib, code, shape, scratch) {
  const installed = installedOn(lib, code, 0, scratch);
  const arrow = (state) => (event) => {
    scratch.memory.set(installed);
    scratch.memory[shape.state_cell] = state;
    const stopped = tryEvent(lib, code.layout, event, scratch, 1) === ENDING.NO_ARROW;
    return stopped ? null : scratch.memory[shape.state_cell];
  };
  return Array.from({ length: code.policy.states }, (_, state) => EVENTS.map(arrow(state)));
}

/** Which events are readings: under a policy that allows everything, with a silent probe, exactly these events wait. */
function askReadings(lib, code, scratch) {
  const table = lib.lend(Uint8Array, COUNTS.MOST_TABLE);
  const made = must("Making the policy of no pairs", lib.precedence(table.subarray(0, 0), table));
  const layout = lib.lend(Uint32Array, code.layout);
  layout[offsetOf("layout", "states")] = made.states;
  const policy = { states: made.states, start: 0, table: table.subarray(0, made.place) };
  installedOn(lib, { layout, policy, landings: code.landings }, 0, scratch);
  return EVENTS.map((event) => tryEvent(lib, layout, event, scratch, 0) === ENDING.PROBE_SILENT);
}

/** page: the data that `hemdroas page` wrote. */
export function askFacts(lib, page) {
  const code = lendCode(lib, page);
  const shape = named("layout", code.layout);
  const scratch = {
    memory: lib.lend(Uint32Array, shape.cells),
    machine: lib.lendStruct("machine"),
    engine: lib.lendStruct("engine"),
    word: lib.lendWords(1),
    readings: lib.lend(Uint32Array, 1),
    log: lib.lend(Uint32Array, PAIR),
  };
  const region = askRegions(lib, code, shape, scratch);
  return {
    ...code,
    shape,
    region,
    scratch,
    bundle: askBundle(lib, code.layout),
    freeCells: [...region.keys()].filter((cell) => region[cell] === "free"),
    fixedCells: [...region.keys()].filter((cell) => ["table", "landings"].includes(region[cell])),
    arrows: askArrows(lib, code, shape, scratch),
    isReading: askReadings(lib, code, scratch),
  };
}

/**
 * Whether a jump's condition holds for these registers. The engine runs the same jump as a GOIF from instruction 1 to instruction 0:
 * the condition holds if it is at 0 afterwards.
 */
export function conditionHolds(lib, facts, { a, b, c }, registers) {
  const { layout, scratch } = facts;
  const routine = facts.asked ?? (facts.asked = lib.lendWords(2));
  routine.set([...wordOf({ kind: kindOf("HALT") }), ...wordOf({ kind: kindOf("GOIF"), a, b, c })]);
  scratch.engine.set(registers.subarray(0, offsetOf("engine", "index")));
  scratch.engine[offsetOf("engine", "index")] = 1;
  scratch.engine[offsetOf("engine", "status")] = 0;
  const nothing = { budget: 1, readings: scratch.readings.subarray(0, 0), log: scratch.log };
  lib.engineRun(layout, routine, scratch.engine, scratch.memory, nothing);
  return scratch.engine[offsetOf("engine", "index")] === 0;
}
