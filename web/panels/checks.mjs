// Two comparisons at every step: the same commands on another memory, and the engine beside the machine. If one ever fails, the
// page says so at its top.
import { STATUS, answerText } from "../library/header.mjs";
import { allOk, equalTwins } from "../model/compare.mjs";
import { FORMATS, plural } from "../model/numbers.mjs";
import { cellName } from "../model/names.mjs";
import { behindFirst, byId, h, spoken, tableHead, tick } from "./dom.mjs";

const MOST_NAMED = 6;

const verdict = (ok, yes, no, more) => h("p", { class: `verdict ${ok ? "ok" : "wrong"}` }, ok ? `✓ ${yes}` : `✕ ${no}`, more);

/** The free cells to show: those with names, those that the viewer wrote, the chosen one. */
function shownCells({ page, session, selected }) {
  const written = session.given.writes.filter((write) => write.at <= session.command);
  const chosen = session.facts.region[selected] === "free" ? [selected] : [];
  return [...new Set([...page.free, ...written].map((one) => one.cell).concat(chosen))].slice(0, MOST_NAMED);
}

function freeTable(app) {
  const { session, page, format } = app;
  const { now, facts } = session;
  const show = FORMATS[format];
  const number = (value) => h("td", { class: "num" }, show(value));
  const row = (cell) =>
    h("tr", {}, h("th", { scope: "row" }, cellName(page, cell) ?? `cell ${cell}`), number(now.memory[cell]), number(now.there.memory[cell]));
  const differ = facts.freeCells.filter((cell) => now.memory[cell] !== now.there.memory[cell]).length;
  const foot = `≠ ${differ} of ${facts.freeCells.length} free cells differ`;
  return h("table", {}, tableHead(["free cells", "this", "the other"], behindFirst), h("tbody", {}, shownCells(app).map(row)),
    h("tfoot", {}, h("tr", {}, h("td", { colspan: 3 }, foot))));
}

function updateTwin(app) {
  const { session } = app;
  const { now, facts } = session;
  const rows = now.twins ?? equalTwins();
  const item = ({ what, ok }) => h("li", { class: ok ? "ok" : "wrong" }, tick(ok), " ", what);
  const count = facts.freeCells.length;
  if (!count) {
    byId("twin").replaceChildren(h("p", {}, "This drum has no free cell, so there is no second memory with other free cells."));
    return;
  }
  const kept = now.moved === 0 ? `✓ All ${count} free cells of both memories are as their owner wrote them.` : `✕ ${plural(now.moved, "free cell")} changed!`;
  const fixed = now.spoilt ? `✕ ${plural(now.spoilt, "cell")} of table and landings changed!` : "✓ Table and landings are as they were installed.";
  byId("twin").replaceChildren(
    verdict(allOk(rows), "No difference", "A DIFFERENCE"),
    freeTable(app),
    h("ul", { class: "ticks" }, rows.map(item)),
    h("p", { class: now.moved ? "wrong" : "ok" }, kept),
    h("p", { class: now.spoilt ? "wrong" : "ok" }, fixed),
  );
}

const statusName = (number) => Object.keys(STATUS).find((name) => STATUS[name] === number)?.toLowerCase() ?? String(number);

function valueText(what, value) {
  if (what === "answer") return answerText(value);
  return what === "status" ? statusName(value) : String(value);
}

function updateAgreement({ session }) {
  const { at, rows } = session.agreement;
  const compared = session.trace.frames.filter((frame, k) => k <= at && frame.agree).length;
  const middle = session.frame.agree || session.at === session.last ? "" : "; now in the middle of a bundle";
  const row = ({ what, here, there, ok }) =>
    h("tr", { class: ok ? "" : "wrong" }, h("th", { scope: "row" }, what), h("td", {}, valueText(what, here)),
      h("td", {}, valueText(what, there)), h("td", { class: ok ? "ok" : "wrong" }, tick(ok)));
  byId("agree").replaceChildren(
    verdict(allOk(rows), "They agree", "THEY DO NOT AGREE", h("small", {}, `compared ${plural(compared, "time")}${middle}`)),
    h("table", {}, tableHead(["compared", "machine", "engine", spoken("same?")]), h("tbody", {}, rows.map(row))),
  );
}

/** The sentence at the top of the page, if a comparison fails. */
function updateLoud({ session }) {
  const { failures } = session;
  const loud = byId("loud");
  if (loud.dataset.stays) return;
  loud.hidden = failures.length === 0;
  const said = failures.map(({ what, at }) => `${what}, from command ${at} on.`);
  loud.textContent = failures.length ? `This should never happen. ${said.join(" ")} Keep this file and tell the maker.` : "";
}

export function updateChecks(app) {
  updateTwin(app);
  updateAgreement(app);
  updateLoud(app);
}
