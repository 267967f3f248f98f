// A sentence that says what the last step did. It is made from the library's records and memories before and after the step.
import { CONDITIONS, commandName, kindName, wordAt } from "../library/words.mjs";
import { offsetOf } from "../library/header.mjs";
import { FORMATS, valueText } from "./numbers.mjs";
import { eventName, labelOf, placeText, scaleOf, stateName, targetText } from "./names.mjs";

const PC = offsetOf("machine", "pc");
const HIDDEN = PC - 1;

/** What a sentence is made from: the session, how numbers are written, and the frames before and after. */
const scene = (session, format, before, after) => ({
  page: session.page,
  session,
  format,
  show: FORMATS[format],
  r: before.machine,
  now: after.machine,
  before,
  after,
});

const becomes = ({ r, now, show }, d) => `r${d} ${r[d] === now[d] ? "stays" : "becomes"} ${show(now[d])}`;

const with_ = ({ r, show }, ...registers) => [...new Set(registers)].map((x) => `r${x} is ${show(r[x])}`).join(", ");

function masked({ r, now, show }, a) {
  if (r[a] === now[HIDDEN]) return `Cell ${now[HIDDEN]} lies in the sandbox`;
  return `Address ${show(r[a])} is not in the sandbox: the mask makes it cell ${now[HIDDEN]}`;
}

const moved = ({ page, before, after }) =>
  before.state === after.state
    ? `The state stays ${stateName(page, after.state)}.`
    : `The state goes from ${stateName(page, before.state)} to ${stateName(page, after.state)}.`;

function recorded({ page, format, show }, { event, value, r0 }) {
  const said = valueText(value, scaleOf(page, event), format);
  const pair = `${eventName(page, event)} ${said}`;
  const taken = said === show(value) ? "r0 takes it" : `r0 becomes ${show(value)}`;
  if (r0 === null) return `The probe answers ${said}: ${taken}, and the record has ${pair}.`;
  if (r0 === value) return `Recorded: ${pair}.`;
  return `Recorded: ${pair}, because r0 is ${show(r0)} and the ceiling is lower.`;
}

/** What a jump asked, as numbers: '1500 below 1950: yes'. */
function asked(jump, format) {
  const { a, b, c } = jump.word;
  const condition = CONDITIONS[c];
  if (condition === "always") return "always";
  const show = { below: FORMATS.unsigned, less: FORMATS.signed }[condition] ?? FORMATS[format];
  return `${show(jump.began.machine[a])} ${condition} ${show(jump.began.machine[b])}: ${jump.holds ? "yes" : "no"}`;
}

/** A jump's reason, in full and short enough for its line. */
export function jumpReason(page, jump, format) {
  const { word, holds, to, began } = jump;
  const said = asked(jump, format);
  const isThrough = kindName(word) === "GOX" && holds;
  const through = isThrough ? `, r${word.d} is ${FORMATS[format](began.machine[word.d])}` : "";
  if (to === null) return { full: `${said}${through}, but there is no landing: stopped`, short: `${said}${through}: no landing` };
  if (!holds) return { full: `${said}, on to ${placeText(page, to)}`, short: `${said}, on` };
  const short = `${said}${through}, to ${labelOf(page, to) ?? placeText(page, to)}`;
  return { full: `${said}${through}, to ${targetText(page, to)}`, short };
}

const alike = (s, { d, a, b }) => `${with_(s, a, b)}: ${becomes(s, d)}.`;

/** By kind of instruction. */
const INSTRUCTIONS = {
  HALT: () => "The routine has come to its end.",
  SET: (s, { d }) => `${becomes(s, d)}.`,
  MOVE: (s, { d, a }) => `${with_(s, a)}: ${becomes(s, d)}.`,
  SAR: (s, { d, a, v }) => `${with_(s, a)}, divided by ${2 ** v} and rounded down: ${becomes(s, d)}.`,
  LOAD: (s, { d, a }) => `${masked(s, a)}; ${becomes(s, d)}.`,
  STORE: (s, { a }) => `${masked(s, a)}; it becomes ${s.show(s.after.memory[s.now[HIDDEN]])}.`,
  EVENT: (s, { v }) => {
    if (s.after.isRunning) return `${recorded(s, s.session.event)} ${moved(s)}`;
    const [state, event] = [stateName(s.page, s.before.state), eventName(s.page, v)];
    return `State ${state} has no arrow for ${event}. The routine is stopped; nothing is recorded.`;
  },
};

/** The step from one instruction's beginning to the next. */
export function tellInstruction(session, format) {
  const { before, now } = session;
  const word = session.wordOrHalt(before.index);
  const name = kindName(word);
  if (session.isInside) return `The budget was spent inside it: ${now.k - before.k} of its ${session.facts.bundle} commands are done.`;
  if (name === "GOIF" || name === "GOX") return `${jumpReason(session.page, session.jump(before, now), format).full}.`;
  return (INSTRUCTIONS[name] ?? alike)(scene(session, format, before, now), word);
}

function tellJump(s) {
  const { session, before, after } = s;
  const isOver = after.isFirst || !after.isRunning;
  const next = isOver ? after : { isRunning: true, index: before.index + 1 };
  return `${jumpReason(s.page, session.jump(before, next), s.format).full}.`;
}

const isJumpMask = (s) => kindName(s.session.wordOrHalt(s.before.index)) === "GOX";

function tellLook(s, { d, v }) {
  const to = s.session.facts.arrows[s.before.state][v];
  const found = to === null ? "which is no arrow" : `state ${stateName(s.page, to)}`;
  const where = `${eventName(s.page, v)} in state ${stateName(s.page, s.before.state)}`;
  return `Asks the policy's table for ${where}: ${becomes(s, d)}, ${found}.`;
}

/** By kind of command. */
const COMMAND_TALES = {
  NOP: () => "Nothing: it fills the bundle.",
  HALT: () => "The routine has come to its end.",
  ANDI: (s, { d, a }) =>
    isJumpMask(s)
      ? `Cuts the target to the code: ${becomes(s, d)}.`
      : `First half of the mask, cuts ${s.show(s.r[a])} down: ${becomes(s, d)}.`,
  ORI: (s, { d }) =>
    isJumpMask(s) ? `Moves it to the first command: ${becomes(s, d)}.` : `Second half of the mask, into the sandbox: ${becomes(s, d)}.`,
  SHL: (s, { d }) => `From the instruction to the first of its commands: ${becomes(s, d)}.`,
  LOAD: (s, { d, a }) => `Cell ${s.r[a]} is read: ${becomes(s, d)}.`,
  STORE: (s, { a }) => `Cell ${s.r[a]} becomes ${s.show(s.after.memory[s.r[a]])}.`,
  GOIF: tellJump,
  GOXR: tellJump,
  LOOK: tellLook,
  STOPIF: (s) => (s.after.isRunning ? "There is an arrow: it may go on." : "There is no arrow: the routine is stopped."),
  EVENT: (s) => recorded(s, s.session.event),
  KEEP: (s) => `The state cell takes it. ${moved(s)}`,
};

/** One command of a bundle. */
export function tellCommand(session, format) {
  const { before, now, facts } = session;
  const command = wordAt(facts.commands, session.lastCommand);
  const s = scene(session, format, before, now);
  const tale = COMMAND_TALES[commandName(command)] ?? ((_, { d }) => `${becomes(s, d)}.`);
  return tale(s, command);
}
