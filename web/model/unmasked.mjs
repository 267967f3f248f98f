// The same list with one mask removed, for teaching. The checker refuses it. The page runs it anyway; no drum would.
import { COUNTS, STATUS, answerText, offsetOf } from "../library/header.mjs";
import { commandKind, commandName, countOf, isAccess, kindName, wordAt, wordOf } from "../library/words.mjs";
import { movedCells } from "./compare.mjs";

export const AS_WRITTEN = null;

const USES = ["LOAD", "STORE", "GOXR"]; // the commands that follow a mask
const MASK = ["ANDI", "ORI"].map(commandKind);

export const isJumpMask = (word) => kindName(word) === "GOX";

const placesOf = (words) => Array.from({ length: countOf(words) }, (_, place) => place);

/** The instructions whose bundles have a mask: of a memory address, or of a jump's target. */
export function maskedInstructions({ words }) {
  const isMasked = (word) => isAccess(word) || isJumpMask(word);
  return placesOf(words).filter((place) => isMasked(wordAt(words, place)));
}

/** The bundle of an instruction: its first place and its commands. */
function bundleOf(facts, instruction) {
  const first = instruction * facts.bundle;
  return { first, commands: Array.from({ length: facts.bundle }, (_, at) => wordAt(facts.commands, first + at)) };
}

/**
 * The commands of a bundle with NOPs in place of its mask. An access uses the address that the routine has in its register, a jump
 * that number shifted. With `aim`, both use the address `aim`: the first command sets the register to it.
 */
function bareBundle(facts, instruction, aim) {
  const { first, commands } = bundleOf(facts, instruction);
  const use = commands.findIndex((command) => USES.includes(commandName(command)));
  const through = commandName(commands[use]) === "GOXR" ? "d" : "a"; // the field that names the masked register
  const hidden = commands[use][through];
  const nop = { kind: commandKind("NOP") };
  const bare = commands.map((command, at) => (MASK.includes(command.kind) || (aim !== AS_WRITTEN && at < use) ? nop : command));
  if (aim !== AS_WRITTEN) bare[0] = { kind: commandKind("SET"), d: hidden, v: aim };
  else if (through === "a") bare[use] = { ...commands[use], a: commands[0].a };
  return { first, use: first + use, words: bare.flatMap(wordOf) };
}

/** The list with the mask of one instruction removed, and the checker's answer. */
export function withoutMask(lib, facts, instruction, aim) {
  const room = facts.bareRoom ?? (facts.bareRoom = lib.lendWords(COUNTS.MOST_COMMANDS));
  const commands = room.subarray(0, facts.commands.length);
  commands.set(facts.commands);
  const { first, use, words } = bareBundle(facts, instruction, aim);
  commands.set(words, 2 * first);
  return { ...facts, commands, first, use, answer: lib.check(facts.layout, commands) };
}

/** Two addresses that a jump must never reach: that of the first EVENT, after its LOOK, and the one after all commands. */
export function forbiddenTargets({ commands, shape }) {
  const event = placesOf(commands).find((place) => commandName(wordAt(commands, place)) === "EVENT");
  return { event: event === undefined ? null : shape.base + event, behind: shape.base + countOf(commands) };
}

const PC = offsetOf("machine", "pc");
const STATUS_AT = offsetOf("machine", "status");

/** The regions of an address without a cell, of a target within a bundle, and of a target outside the list. */
const AWAY = "away";
const INSIDE = "inside";
const OUTSIDE = "outside";

/** The region of a jump's target; null for the first command of a bundle. */
function targetRegion({ commands, shape, bundle }, address) {
  const place = address - shape.base;
  if (place < 0 || place >= countOf(commands)) return OUTSIDE;
  return place % bundle === 0 ? null : INSIDE;
}

/** For each time that the unmasked command was executed: the frame, what it did, the address and its region if it strays. */
function usesOf({ facts, frames }) {
  const command = wordAt(facts.commands, facts.use);
  const name = commandName(command);
  const done = [...frames.keys()].filter((k) => k > 0 && frames[k - 1].machine[PC] === facts.shape.base + facts.use);
  return done.map((at) => {
    if (name !== "GOXR") {
      const address = frames[at - 1].machine[command.a];
      const region = facts.region[address] ?? AWAY;
      return { at, what: name === "STORE" ? "wrote" : "read", address, region: region === "sandbox" ? null : region };
    }
    const address = frames[at - 1].machine[command.d];
    const isMade = frames[at].machine[PC] === address || frames[at].machine[STATUS_AT] === STATUS.STRAYED;
    return { at, what: isMade ? "jumped" : null, address, region: isMade ? targetRegion(facts, address) : null };
  });
}

/** Whether two traces recorded the same and came to the same end. */
function endAlike(one, other) {
  const pairs = ({ events }) => JSON.stringify(events.map(({ event, value }) => [event, value]));
  return one.ending === other.ending && pairs(one) === pairs(other);
}

/**
 * How a finished trace of such a list differs from `masked`, the trace with the mask. `strays` are its accesses outside the sandbox
 * and its jumps to no bundle. `first` is the first frame that shows a difference, or null.
 */
export function differences(trace, masked) {
  const { frames } = trace;
  const all = usesOf(trace);
  const strays = all.filter(({ region }) => region !== null);
  const seen = frames.findIndex((frame) => frame.twins || frame.moved);
  const found = [seen, strays[0]?.at ?? -1].filter((at) => at >= 0);
  const first = found.length ? Math.min(...found) : null;
  const look = (k) => differencesAt(trace.facts, trace.replay(k, "here"), trace.replay(k, "there"));
  return {
    first,
    strays,
    isReached: all.length > 0,
    isMade: all.some(({ what }) => what !== null),
    ending: trace.ending,
    masked: first === null ? null : masked.frames[first] ?? masked.frames.at(-1),
    isSeen: frames.some((frame) => frame.twins),
    isMoved: frames.some((frame) => frame.moved),
    endsAlike: endAlike(trace, masked),
    then: first === null ? null : look(first),
    atEnd: first === null ? null : look(frames.length - 1),
  };
}

/** What it did wrong, the most telling first, in words that follow 'The routine'. Empty if it did nothing wrong. */
export function deedsOf({ strays, isSeen, isMoved, endsAlike, ending }) {
  const did = (region) => strays.find((stray) => stray.region === region);
  const deed = (region, words) => (did(region) ? [words(did(region))] : []);
  const deeds = [
    ...(isSeen ? ["sees what is not its own"] : []),
    ...(isMoved ? ["changes what is not its own"] : []),
    ...deed("state", ({ what }) => `${what} the policy’s state cell`),
    ...deed("table", ({ what }) => `${what} the policy’s table`),
    ...deed("landings", ({ what }) => `${what} a landing cell`),
    ...deed(AWAY, ({ address }) => `left the memory at address ${address}: ${answerText(ending)}`),
    ...deed(INSIDE, ({ address }) => `aimed into the middle of a bundle, at address ${address}: ${answerText(ending)}`),
    ...deed(OUTSIDE, ({ address }) => `aimed at address ${address}, where it has no command: ${answerText(ending)}`),
  ];
  return endsAlike ? deeds : [...deeds, "ended otherwise than with the mask"];
}

/** What differs between two sides (registers, shared cells, pairs), and the free cells that changed on this side. */
function differencesAt(facts, here, there) {
  const apart = (what, a, b) => [...a.keys()].filter((i) => a[i] !== b[i]).map((i) => ({ what: what(i), here: a[i], there: b[i] }));
  const isShared = (cell) => facts.region[cell] !== "free";
  const shared = (side) => side.memory.map((value, cell) => (isShared(cell) ? value : 0));
  const values = (side) => side.record.filter((_, i) => i % 2);
  const registers = (side) => side.machine.subarray(0, PC);
  return {
    moved: movedCells(facts, here).map((cell) => ({ cell, wrote: here.host[cell], now: here.memory[cell] })),
    apart: [
      ...apart((r) => `r${r}`, registers(here), registers(there)),
      ...apart((cell) => `cell ${cell}`, shared(here), shared(there)),
      ...apart((i) => `value of pair ${i + 1}`, values(here), values(there)),
    ],
  };
}
