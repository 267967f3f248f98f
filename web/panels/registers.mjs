// Registers and the sandbox's cells. Those that the last step changed are lit, and show their old values.
import { offsetOf } from "../library/header.mjs";
import { FORMATS, plural } from "../model/numbers.mjs";
import { byId, h, reveal, spoken } from "./dom.mjs";

const GUEST_REGISTERS = offsetOf("engine", "index");
const ALL_REGISTERS = offsetOf("machine", "pc");
const MOST_SHOWN = 60;
const REVEAL_MARGIN = 60;

export function buildRegisters(app) {
  const choose = (format) => {
    app.format = format;
    app.show();
  };
  const choice = (format) => {
    const box = { type: "radio", name: "format", value: format, checked: format === app.format, onchange: () => choose(format) };
    return h("label", {}, h("input", box), h("span", {}, format));
  };
  byId("formats").append(...Object.keys(FORMATS).map(choice));
}

function cell(name, value, was) {
  const isChanged = was !== null && was !== value;
  const old = isChanged ? h("small", {}, spoken(", changed, "), `was ${was}`) : null;
  const kind = `cell ${isChanged ? "changed" : ""} ${value === "0" || value === "0x0" ? "zero" : ""}`;
  return h("div", { class: kind }, h("dt", {}, name), h("dd", {}, value, old));
}

function sandboxSaid(shown, { low, high }) {
  const rest = high - low + 1 - shown;
  if (shown === 0) return `All ${rest} cells, ${low} to ${high}, are 0.`;
  const more = shown > MOST_SHOWN ? `${plural(shown - MOST_SHOWN, "more cell")} not shown. ` : "";
  if (rest === 0) return `${more}No cell of ${low} to ${high} is 0.`;
  return `${more}${plural(rest, "other cell")} of ${low} to ${high} ${rest === 1 ? "is" : "are"} 0.`;
}

/** The sandbox's cells to show: what the last step changed, then the first of those that are not 0. */
function shownCells(cells, isChanged) {
  const changed = cells.filter(isChanged);
  const others = cells.filter((c) => !isChanged(c)).slice(0, Math.max(0, MOST_SHOWN - changed.length));
  return [...changed, ...others].sort((a, b) => a - b);
}

export function updateRegisters({ session, format }) {
  const { now, before, facts } = session;
  const show = FORMATS[format];
  const was = (numbers, at) => (before ? show(numbers(before)[at]) : null);
  const registers = Array.from({ length: session.byCommand ? ALL_REGISTERS : GUEST_REGISTERS }, (_, r) => r);
  const nameOf = (r) => (r < GUEST_REGISTERS ? `r${r}` : `r${r} hidden`);
  byId("registers").replaceChildren(...registers.map((r) => cell(nameOf(r), show(now.machine[r]), was((f) => f.machine, r))));
  const { low, high } = facts.shape;
  const isShown = (c) => now.memory[c] !== 0 || (before && before.memory[c] !== 0);
  const cells = Array.from({ length: high - low + 1 }, (_, i) => low + i).filter(isShown);
  const isChanged = (c) => before !== null && before.memory[c] !== now.memory[c];
  const shown = shownCells(cells, isChanged).map((c) => cell(String(c), show(now.memory[c]), was((f) => f.memory, c)));
  const box = byId("sandbox");
  box.replaceChildren(...shown);
  const lit = box.querySelector(".changed");
  if (lit) reveal(box, lit, REVEAL_MARGIN);
  byId("sandbox-rest").textContent = sandboxSaid(cells.length, facts.shape);
}
