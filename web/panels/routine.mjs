// The routine as it was written: present line, breakpoints, run to a line, landings, jumps and why they were taken.
// A switch shows each instruction's commands, as the library rewrote it.
import { offsetOf } from "../library/header.mjs";
import { countOf, isJump, kindName } from "../library/words.mjs";
import { commandLine } from "../model/names.mjs";
import { jumpReason } from "../model/story.mjs";
import { byId, h, reveal, sign, spoken } from "./dom.mjs";
import { drawJumps } from "./jumps.mjs";

const PC = offsetOf("machine", "pc");
const LINE = /^(\s*(?:landing\b\s*)?(?:[^\s:#]+:\s*)*)([^#]*)(#.*)?$/is; // marks and labels, instruction, comment
const INDENT = 2;
const REVEAL_MARGIN = 70;

/** Blanks that put text in columns take too much room here: two are enough. */
const narrowed = (text) => text.replace(/ {2,}/g, "  ");

/** A line with its label, name, operands and comment marked. */
function coloured(text) {
  const [, label, code, comment] = narrowed(text).match(LINE);
  const [, space, name, rest] = code.match(/^(\s*)(\S*)(.*?)\s*$/s);
  const isIndent = label.trim() === "";
  const start = isIndent ? " ".repeat(Math.min(INDENT, (label + space).length)) : [h("span", { class: "label" }, label.trim()), " "];
  const note = comment ? h("span", { class: name ? "comment beside" : "comment" }, comment) : null;
  return [start, h("span", { class: "op" }, name), rest, note];
}

function bundleOf({ page, facts }, instruction) {
  const item = (_, i) => {
    const place = instruction * facts.bundle + i;
    const address = h("span", { class: "address" }, String(facts.shape.base + place));
    return h("li", { "data-command": place }, address, h("code", {}, commandLine(page, facts.commands, place)));
  };
  return h("ol", { class: "bundle", "aria-label": "its commands" }, Array.from({ length: facts.bundle }, item));
}

const landingMark = () => h("span", { class: "landing", title: "A landing: a GOX may go on here" }, sign("⚑"), spoken("landing"));

function codeRow(app, instruction, number, text) {
  const { session, session: { facts } } = app;
  const stop = {
    type: "button",
    class: "stop",
    "aria-pressed": "false",
    "aria-label": `Breakpoint on line ${number}`,
    title: "Breakpoint",
    onclick: () => app.toggleBreakpoint(instruction),
  };
  const go = {
    type: "button",
    class: "text",
    title: "Run to this line",
    "aria-label": `Line ${number}: ${text.trim()}. Run to this line`,
    onclick: () => app.runTo(instruction),
  };
  const isMarked = app.marksLandings && facts.landings.includes(instruction);
  const row = h("li", { class: "line code", "data-index": instruction },
    h("button", stop),
    h("span", { class: "number" }, String(number)),
    h("button", go, h("code", {}, coloured(text))),
    isMarked ? landingMark() : null,
    isJump(session.word(instruction)) ? h("span", { class: "why" }) : null,
    bundleOf(session, instruction));
  app.rows.set(instruction, row);
  return row;
}

const textRow = (number, text) =>
  h("li", { class: "line" }, h("span"), h("span", { class: "number" }, String(number)), h("span", { class: "text" }, h("code", {}, coloured(text))));

/** The HALTs after the last line, in one row. */
function behindRow({ rows, session: { facts } }) {
  const count = countOf(facts.words);
  const all = countOf(facts.commands) / facts.bundle;
  const which = all - count > 1 ? `s ${count} to ${all - 1}` : ` ${count}`;
  const row = h("li", { class: "line behind", "data-index": count }, h("span"), h("span", { class: "number" }, "…"),
    h("span", { class: "text" }, `behind it, HALT: instruction${which}`));
  for (let i = count; i < all; i++) rows.set(i, row);
  return row;
}

/** Shows the commands of the present HALT after the last line, if the page shows commands. */
function showBehind({ session, rows }) {
  const { now, facts, byCommand } = session;
  const count = countOf(facts.words);
  const isThere = byCommand && now.index >= count;
  const row = rows.get(count);
  const shown = row?.querySelector(".bundle");
  if (isThere && shown?.dataset.of === String(now.index)) return;
  shown?.remove();
  if (!isThere || !row) return;
  const bundle = bundleOf(session, now.index);
  bundle.dataset.of = now.index;
  row.append(bundle);
}

/** Landings are marked line by line, unless all or none of the lines are landings: then a sentence says so. */
function sayLandings(app) {
  const { facts } = app.session;
  const count = countOf(facts.words);
  const lines = Array.from({ length: count }, (_, i) => i);
  const marked = lines.filter((i) => facts.landings.includes(i)).length;
  const jumps = lines.some((i) => kindName(app.session.word(i)) === "GOX");
  app.marksLandings = marked > 0 && marked < count;
  const all = marked === count ? "Every line is a landing: a GOX may go on anywhere." : "No line is a landing: a GOX would be stopped.";
  byId("landings").textContent = app.marksLandings ? "⚑ marks a landing, where a GOX may go on." : jumps || marked ? all : "";
}

export function buildRoutine(app) {
  const { page } = app;
  app.rows = new Map(); // instruction -> its row
  sayLandings(app);
  const list = byId("listing");
  list.style.setProperty("--digits", String(page.source.length).length);
  page.source.forEach((text, l) => {
    const instruction = page.lines.indexOf(l + 1);
    list.append(instruction >= 0 ? codeRow(app, instruction, l + 1, text) : textRow(l + 1, text));
  });
  list.append(behindRow(app));
  byId("to-breakpoint").addEventListener("click", () => app.runToBreakpoint());
  new ResizeObserver(() => drawJumps(app)).observe(list);
}

function markRow({ session, rows }, row) {
  const { now, before } = session;
  const isNow = rows.get(now.index) === row;
  row.classList.toggle("now", isNow);
  row.classList.toggle("did", before !== null && rows.get(before.index) === row && !isNow);
  row.classList.toggle("ended", isNow && !now.isRunning);
  if (isNow) row.setAttribute("aria-current", "step");
  else row.removeAttribute("aria-current");
  row.querySelector(".stop")?.setAttribute("aria-pressed", session.breakpoints.has(Number(row.dataset.index)));
}

/** Shows beside each jump why it was or was not taken the last time. */
function markJumps(app) {
  const { session, rows, format, page } = app;
  const jumps = session.lastJumps;
  app.lit = null;
  for (const [instruction, row] of rows) {
    const why = row.querySelector(".why");
    if (!why) continue;
    const last = jumps.get(instruction);
    const isFresh = Boolean(last) && session.before !== null && last.ended === session.command;
    why.classList.toggle("fresh", isFresh);
    why.classList.toggle("unasked", !last);
    if (!last) {
      why.textContent = "not yet reached";
      continue;
    }
    const jump = session.jump(session.trace.frames[last.began], session.trace.frames[last.ended]);
    why.textContent = jumpReason(page, jump, format).short;
    if (isFresh && jump.holds && jump.to !== null) app.lit = jump;
  }
}

export function updateRoutine(app) {
  const { session, rows } = app;
  byId("to-breakpoint").hidden = session.breakpoints.size === 0;
  const { now, facts, byCommand } = session;
  const list = byId("listing");
  list.classList.toggle("with-commands", byCommand);
  for (const row of new Set(rows.values())) markRow(app, row);
  markJumps(app);
  showBehind(app);
  const place = now.isRunning ? now.machine[PC] - facts.shape.base : null;
  list.querySelector(".now-command")?.classList.remove("now-command");
  const command = byCommand && place !== null ? list.querySelector(`[data-command="${place}"]`) : null;
  command?.classList.add("now-command");
  drawJumps(app);
  reveal(byId("listing-box"), command ?? rows.get(now.index), REVEAL_MARGIN);
}
