// 'Without the mask': removes the mask of one instruction. Shows that the checker refuses the list. Then runs it anyway, in this page only, and
// shows what the mask prevents: where the two memories differ, or where a jump would go.
import { answerText } from "../library/header.mjs";
import { FORMATS, plural } from "../model/numbers.mjs";
import { cellName, commandLine, instructionText, lineOf, placeText } from "../model/names.mjs";
import { inSlices } from "../model/slices.mjs";
import { lendBench, Trace } from "../model/trace.mjs";
import { AS_WRITTEN, deedsOf, differences, forbiddenTargets, isJumpMask, maskedInstructions, withoutMask } from "../model/unmasked.mjs";
import { behindFirst, byId, h, speakIfAsked, tableHead } from "./dom.mjs";

const MOST_ROWS = 8;
const WRITTEN = "written";

/** The chosen instruction, and whether it is a jump. */
function chosen({ session }) {
  const instruction = Number(byId("mask-of").value);
  return { instruction, isJump: isJumpMask(session.word(instruction)) };
}

function cellChoices({ page, session: { facts } }) {
  const named = page.free.map(({ cell, name }) => [cell, `${name} (cell ${cell})`]);
  const first = facts.freeCells.slice(0, 1).map((cell) => [cell, `free cell ${cell}`]);
  const state = facts.shape.state_cell;
  return [...(named.length ? named : first), [state, `the policy’s state cell (${state})`]];
}

function targetChoices({ session: { facts } }) {
  const { event, behind } = forbiddenTargets(facts);
  const ofEvent = event === null ? [] : [[event, `an EVENT, behind its look at the policy (${event})`]];
  return [...ofEvent, [behind, `behind the last command (${behind})`]];
}

const option = ([value, text]) => h("option", { value }, text);

/** The addresses to choose from: cells for a LOAD or STORE, places in the code for a GOX. The one that was chosen stays, if it can. */
function offerAddresses(app) {
  const field = byId("mask-address");
  const { value } = field;
  const choices = chosen(app).isJump ? targetChoices(app) : cellChoices(app);
  field.replaceChildren(...[[WRITTEN, "as the routine has it"], ...choices].map(option));
  if ([...field.options].some((one) => one.value === value)) field.value = value;
}

export function buildUnmasked(app) {
  const { page, session } = app;
  const masked = maskedInstructions(session.facts);
  if (!masked.length) {
    byId("unmasked-form").replaceChildren(h("p", { class: "hint" }, "This routine has no LOAD, no STORE and no GOX, so it has no mask to take out."));
    return;
  }
  app.bareBench = lendBench(session.lib, session.facts);
  byId("mask-of").append(...masked.map((i) => option([i, `line ${lineOf(page, i)}: ${instructionText(page, i)}`])));
  offerAddresses(app);
  byId("mask-of").addEventListener("change", () => {
    offerAddresses(app);
    runUnmasked(app);
  });
  byId("mask-address").addEventListener("change", () => runUnmasked(app));
}

/** Chooses a LOAD or STORE that uses an address outside the sandbox. If there is none, chooses the first, and a free cell for it to use. */
export function chooseAddress(app) {
  const { session } = app;
  if (!byId("mask-of")?.options.length) return;
  const { low, high } = session.facts.shape;
  const isOutside = (instruction) => {
    const { a } = session.word(instruction);
    const times = session.trace.frames.filter((frame) => frame.isFirst && frame.index === instruction);
    return times.some((frame) => frame.machine[a] < low || frame.machine[a] > high);
  };
  const accesses = maskedInstructions(session.facts).filter((i) => !isJumpMask(session.word(i)));
  if (!accesses.length) return;
  const outside = accesses.find(isOutside);
  byId("mask-of").value = outside ?? accesses[0];
  offerAddresses(app);
  const address = byId("mask-address");
  if (outside === undefined && address.options.length > 1) address.selectedIndex = 1;
}

function bundleTable({ page, session: { facts } }, bare) {
  const row = (_, i) => {
    const [old, now] = [facts, bare].map(({ commands }) => commandLine(page, commands, bare.first + i));
    const isNew = old !== now;
    return h("tr", { class: isNew ? "changed" : "" }, h("td", {}, String(facts.shape.base + bare.first + i)), h("td", {}, h("code", {}, old)),
      h("td", {}, h("code", {}, isNew ? now : "the same")));
  };
  const rows = Array.from({ length: facts.bundle }, row);
  return h("table", {}, tableHead(["address", "with the mask", "without"]), h("tbody", {}, rows));
}

function checkerText(app, { answer }) {
  const what = chosen(app).isJump ? "A GOX must have the shift and both commands of the mask" : "A LOAD or STORE must have both commands of the mask";
  const { number, place } = answer;
  if (number === 0) return h("p", { class: "wrong" }, "✕ The checker passed it. This should never happen.");
  return h("p", {}, h("b", { class: "wrong" }, `The checker refuses it as ${answerText(number)}`), ` at bundle ${place}, line ${lineOf(app.page, place)}. ${what} before it, and this one has not.`);
}

/** A table of a name and two values a row; nothing if there are no rows. */
function table(titles, rows) {
  if (!rows.length) return [];
  const row = ([what, ...values]) => h("tr", {}, h("th", { scope: "row" }, what), values.map((value) => h("td", { class: "num" }, value)));
  const more = rows.length > MOST_ROWS ? [h("p", { class: "hint" }, `and ${plural(rows.length - MOST_ROWS, "more row")}`)] : [];
  return [h("table", {}, tableHead(titles, behindFirst), h("tbody", {}, rows.slice(0, MOST_ROWS).map(row))), ...more];
}

/** The free cells that were changed, and what differs between the memories. */
function differenceTables({ page, format }, { moved, apart }) {
  const show = FORMATS[format];
  const own = moved.map(({ cell, wrote, now }) => [cellName(page, cell) ?? `cell ${cell}`, show(wrote), show(now)]);
  return [
    ...table(["the drum’s own cell", "its owner wrote", "now it holds"], own),
    ...table(["the routine’s", "this memory", "the other"], apart.map(({ what, here, there }) => [what, show(here), show(there)])),
  ];
}

/** The text for a run in which the mask would have prevented nothing, and why. */
function nothingDone({ isReached, isMade }, isJump, came) {
  const lay = isJump ? "Each time it led to the first command of an instruction." : "Each time the address lay in the sandbox.";
  const why = !isReached ? "The line was not reached." : isMade ? lay : "The condition never held, so the jump was not made.";
  return [h("p", { class: "verdict ok" }, "No difference"), h("p", {}, `${why} Choose another address above. ${came}`)];
}

/** How the run ended, compared with the run with the mask. */
function endText(app, trace) {
  const [bare, masked] = [trace, app.session.trace].map((one) => `${answerText(one.ending)} with ${plural(one.events.length, "pair")}`);
  return bare === masked ? `It came out as ${answerText(trace.ending)}.` : `It came out as ${bare}; with the mask, as ${masked}.`;
}

/** What happens with the mask. For a jump, also whether it was stopped before the memories could differ. */
function maskedText({ page }, { masked, isSeen, isMoved }, isJump) {
  if (!isJump) return "With the mask it does not.";
  const alike = isSeen || isMoved ? "" : " Here it was stopped at once, so the two memories do not differ.";
  return (masked.isRunning ? `With the mask it goes on at ${placeText(page, masked.index)}.` : "With the mask it is stopped too.") + alike;
}

function outcome(app, trace) {
  const { isJump } = chosen(app);
  const found = differences(trace, app.session.trace);
  const deeds = deedsOf(found);
  const came = endText(app, trace);
  if (!deeds.length) return nothingDone(found, isJump, came);
  const verdicts = deeds.map((deed) => h("p", { class: "verdict broken" }, `✕ The routine ${deed}`));
  if (found.first === null) return [...verdicts, h("p", {}, came)];
  const line = lineOf(app.page, trace.frames[found.first - 1].index);
  const where = found.strays.length ? `, at address ${found.strays[0].address}` : "";
  const atEnd = differenceTables(app, found.atEnd);
  return [
    ...verdicts,
    h("p", {}, `First after ${plural(found.first, "command")}, in line ${line}${where}. ${maskedText(app, found, isJump)}`),
    ...differenceTables(app, found.then),
    h("p", {}, atEnd.length ? `${came} At its end:` : came),
    ...atEnd,
  ];
}

/** Runs the list without the mask on both memories, in slices, and shows what came of it. */
export async function runUnmasked(app) {
  if (!byId("mask-of")?.options.length) return;
  const { session } = app;
  const turn = (app.bareTurn = (app.bareTurn ?? 0) + 1);
  const address = byId("mask-address").value;
  const bare = withoutMask(session.lib, session.facts, chosen(app).instruction, address === WRITTEN ? AS_WRITTEN : Number(address));
  const trace = new Trace(session.lib, bare, { ...session.given }, app.bareBench, { withEngine: false });
  const isLatest = () => turn === app.bareTurn;
  if (!(await inSlices(trace.run(), isLatest))) return;
  speakIfAsked(byId("unmasked"), byId("unmasked-form"));
  byId("unmasked").replaceChildren(bundleTable(app, bare), checkerText(app, bare), ...outcome(app, trace));
}
