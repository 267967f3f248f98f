// The whole memory: the map, what the regions are, and the free cells, which the viewer may write at any moment.
import { FORMATS, readNumber } from "../model/numbers.mjs";
import { cellName, stateName } from "../model/names.mjs";
import { byId, complain, fill, h, spoken, svg } from "./dom.mjs";
import { cellAt, changedCells, drawMap } from "./map.mjs";
import { REGIONS, rangesOf, regionWord } from "./regions.mjs";

const SWATCH = 16;

function regionItem(facts, [name, { title, use }]) {
  const box = svg("rect", { class: `region ${name}`, x: 1, y: 1, width: SWATCH - 2, height: SWATCH - 2, rx: 2 });
  const swatch = svg("svg", { viewBox: `0 0 ${SWATCH} ${SWATCH}`, class: "swatch", "aria-hidden": "true" }, box);
  return h("li", {}, swatch, h("b", {}, title), " ", h("span", { class: "range" }, rangesOf(facts.region, name)), h("small", {}, use));
}

/** A form that writes a number to a free cell. `name` is what the cell is called. */
function writeForm(app, cell, { id, label, name }) {
  const field = h("input", { id, inputmode: "numeric", autocomplete: "off", placeholder: "new value", "data-cell": cell });
  const write = (submitted) => {
    submitted.preventDefault();
    const { value, problem } = readNumber(field.value);
    complain(field, problem);
    if (!problem) app.write(cell, value);
  };
  return h("form", { class: "write", onsubmit: write }, h("label", {}, label, field), h("button", { type: "submit" }, "Write", spoken(` ${name}`)));
}

function select(app, cell) {
  const { cells } = app.session.facts.shape;
  app.selected = Math.max(0, Math.min(cells - 1, cell));
  byId("pick").value = app.selected;
  complain(byId("pick"), null);
  app.show();
}

function buildPicker(app) {
  const { cells } = app.session.facts.shape;
  const choose = (e) => {
    const { value, problem } = readNumber(e.target.value, cells - 1);
    if (problem) complain(e.target, problem);
    else select(app, value);
  };
  const pick = h("input", { id: "pick", inputmode: "numeric", autocomplete: "off", value: app.selected, onchange: choose });
  byId("inspect").append(h("label", { class: "picker" }, "Cell ", pick), h("dl", { id: "inspected" }), h("div", { id: "writer" }));
  byId("map").addEventListener("click", (e) => select(app, cellAt(e, cells)));
}

export function buildMemory(app) {
  const { page, session: { facts } } = app;
  app.selected = page.free[0]?.cell ?? facts.freeCells[0] ?? 0;
  byId("regions").append(...Object.entries(REGIONS).map((entry) => regionItem(facts, entry)));
  const label = ({ name, cell }) => h("span", { class: "name" }, h("b", {}, name), " ", h("small", {}, `cell ${cell}`));
  byId("named").append(...page.free.map((named) => writeForm(app, named.cell, { id: `free-${named.cell}`, label: label(named), name: named.name })));
  buildPicker(app);
  new ResizeObserver(() => drawMap(app)).observe(byId("map").parentElement);
}

/** What the chosen cell holds, in both memories. */
function inspect({ page, session, format, selected }) {
  const { facts, now } = session;
  const region = facts.region[selected];
  const show = FORMATS[format];
  const name = region === "state" ? stateName(page, now.memory[selected]) : cellName(page, selected);
  const row = (title, value) => h("div", {}, h("dt", {}, title), h("dd", { class: "num" }, value));
  return [
    row("Region", `${REGIONS[region].title}${name ? `: ${name}` : ""}`),
    row("This memory", show(now.memory[selected])),
    row("The other", show(now.there.memory[selected])),
  ];
}

/** The form that writes the chosen cell, made anew only for another cell, so that it keeps the focus. */
function updateWriter(app) {
  const { session, selected } = app;
  const box = byId("writer");
  if (box.dataset.cell === String(selected)) return;
  box.dataset.cell = selected;
  const label = spoken(`New value of cell ${selected}`);
  const isFree = session.facts.region[selected] === "free";
  const reason = h("p", { class: "hint" }, "Only free cells are yours to write: the host must leave the others alone.");
  box.replaceChildren(isFree ? writeForm(app, selected, { id: "new-value", label, name: `cell ${selected}` }) : reason);
}

function touchedText({ session, format }) {
  const { facts, reach } = session;
  const where = (cell) => `cell ${cell} (${regionWord(facts.region[cell])})`;
  const named = reach && reach.named < facts.shape.cells ? where(reach.named) : `address ${FORMATS[format](reach?.named)}`;
  const reached = reach ? `The routine named ${named}; the mask led it to cell ${reach.hit}. ` : "";
  const changed = changedCells(session);
  return `${reached}The last step changed ${changed.length ? changed.map(where).join(", ") : "no cell"}.`;
}

/** What was said of a written cell goes when the cell no longer holds it. */
function forgetSaid({ session, written }) {
  if (written && session.now.memory[written.cell] !== written.value) byId("said").textContent = "";
}

export function updateMemory(app) {
  const { session, format } = app;
  drawMap(app);
  forgetSaid(app);
  for (const field of byId("named").querySelectorAll("input")) {
    fill(field, FORMATS[format](session.now.memory[Number(field.dataset.cell)]));
  }
  byId("inspected").replaceChildren(...inspect(app));
  updateWriter(app);
  const touched = touchedText(app);
  byId("touched").textContent = touched;
  const label = `Map of all ${session.facts.shape.cells} cells by region. ${touched} Cells can be chosen by number below.`;
  byId("map").setAttribute("aria-label", label);
}
