// The two comparisons. Engine and machine are compared at each bundle's beginning and at every end or pause. The same commands on
// another memory are compared after every command. A row says what was compared, both values and whether they are equal.
import { offsetOf } from "../library/header.mjs";
import { plural } from "./numbers.mjs";

const GUEST_REGISTERS = offsetOf("engine", "index");
const ALL_REGISTERS = offsetOf("machine", "pc");
const PC = offsetOf("machine", "pc");
const STATUS = offsetOf("machine", "status");
const ENGINE_INDEX = offsetOf("engine", "index");
const ENGINE_STATUS = offsetOf("engine", "status");

export function same(one, other) {
  if (one.length !== other.length) return false;
  for (let i = 0; i < one.length; i++) if (one[i] !== other[i]) return false;
  return true;
}

const sandbox = (facts, memory) => memory.subarray(facts.shape.low, facts.shape.high + 1);
const pairsOf = (side) => plural(side.record.length / 2, "pair");

/** The instruction of a machine's pc. */
export const instructionOf = (facts, machine) => Math.floor((machine[PC] - facts.shape.base) / facts.bundle);

const row = (what, here, there, ok = here === there) => ({ what, here, there, ok });

/** A row for two lists: their lengths, or the first number that differs. */
function listRow(what, size, nameOf, [one, other]) {
  const at = one.findIndex((number, i) => number !== other[i]);
  if (at < 0) return row(what, size, size);
  return row(what, `${nameOf(at)} is ${one[at]}`, `${nameOf(at)} is ${other[at]}`, false);
}

/** A side: { machine or engine, memory, record, used, ending }. */
export function agreement(facts, machine, engine) {
  const cell = facts.shape.state_cell;
  const registers = (record) => record.subarray(0, GUEST_REGISTERS);
  const boxes = [machine, engine].map((side) => sandbox(facts, side.memory));
  const rows = [
    row("record", pairsOf(machine), pairsOf(engine), same(machine.record, engine.record)),
    row("readings used", machine.used, engine.used),
    listRow("r0 to r14", "15 numbers", (r) => `r${r}`, [registers(machine.machine), registers(engine.engine)]),
    listRow("sandbox", `${boxes[0].length} cells`, (i) => `cell ${facts.shape.low + i}`, boxes),
    row("state cell", machine.memory[cell], engine.memory[cell]),
    row("instruction", instructionOf(facts, machine.machine), engine.engine[ENGINE_INDEX]),
    row("status", machine.machine[STATUS], engine.engine[ENGINE_STATUS]),
  ];
  if (machine.ending) rows.push(row("answer", machine.ending, engine.ending));
  return rows;
}

const allRegisters = (side) => side.machine.subarray(0, ALL_REGISTERS);

/** What must be the same on two memories. */
const TWINS = {
  "all 16 registers": (facts, one, other) => same(allRegisters(one), allRegisters(other)),
  "next command": (facts, one, other) => one.machine[PC] === other.machine[PC],
  "running or not": (facts, one, other) => one.machine[STATUS] === other.machine[STATUS],
  sandbox: (facts, one, other) => same(sandbox(facts, one.memory), sandbox(facts, other.memory)),
  "state cell": ({ shape }, one, other) => one.memory[shape.state_cell] === other.memory[shape.state_cell],
  record: (facts, one, other) => same(one.record, other.record),
};

/** The same commands on two memories. */
export const twinRows = (...sides) => Object.entries(TWINS).map(([what, isSame]) => ({ what, ok: isSame(...sides) }));

/** The rows of memories that do not differ. */
export const equalTwins = () => Object.keys(TWINS).map((what) => ({ what, ok: true }));

/** The free cells that are not as their owner wrote them. */
export const movedCells = (facts, side) => facts.freeCells.filter((cell) => side.memory[cell] !== side.host[cell]);

/** The cells of table and landings that are not as they were installed. */
export const spoiltCells = (facts, side) => facts.fixedCells.filter((cell) => side.memory[cell] !== side.installed[cell]);

export const allOk = (rows) => rows.every((r) => r.ok);
