// The map of the whole memory: one square for each cell, coloured by region. Marks show cells that are not 0, that changed or that
// were chosen. Another mark leads from an address outside the sandbox to the cell that the mask gives.
import { byId, h, svg } from "./dom.mjs";

const SIDE = 10; // of a square
const GAP = 0.75;
const ROUND = 1.2;
const HOLDS = 2.1;
const HALO = 2;
const NARROW = 560;
const FEW_COLUMNS = 32;
const COLUMNS = 64;
const MANY_CELLS = 1024;
const LARGEST_SQUARE = 18;
const MANY_ROWS = 20;
const [FEW_LABELS, MANY_LABELS] = [4, 2]; // rows to a label

function shapeOf(cells, width) {
  const columns = Math.min(cells, width < NARROW && cells <= MANY_CELLS ? FEW_COLUMNS : COLUMNS);
  return { columns, rows: Math.ceil(cells / columns) };
}

const spot = (cell, columns) => ({ x: (cell % columns) * SIDE, y: Math.floor(cell / columns) * SIDE });

/** A square around a cell, larger by so much. */
function square(cell, columns, by, kind) {
  const { x, y } = spot(cell, columns);
  return svg("rect", { class: kind, x: x - by, y: y - by, width: SIDE + 2 * by, height: SIDE + 2 * by, rx: ROUND + Math.max(0, by) });
}

function drawSquares({ session: { facts } }, map, { columns, rows }) {
  if (map.dataset.columns === String(columns)) return;
  map.dataset.columns = columns;
  map.style.maxWidth = `${columns * LARGEST_SQUARE}px`;
  map.setAttribute("viewBox", `0 0 ${columns * SIDE} ${rows * SIDE}`);
  const squares = facts.region.map((region, cell) => square(cell, columns, -GAP, `region ${region}`));
  map.replaceChildren(svg("g", {}, squares), svg("g", { id: "marks" }));
  const every = rows > MANY_ROWS ? FEW_LABELS : MANY_LABELS;
  const label = (_, r) => h("span", {}, r % every ? "" : String(r * columns));
  byId("rows").replaceChildren(...Array.from({ length: rows }, label));
}

function holdsMark({ session: { facts } }, cell, columns) {
  const { x, y } = spot(cell, columns);
  return svg("circle", { class: `holds ${facts.region[cell]}`, cx: x + SIDE / 2, cy: y + SIDE / 2, r: HOLDS });
}

/** The cell that the routine named, crossed out, and the way to the cell that the mask gives. */
function reachMarks({ session }, columns) {
  const { reach, facts } = session;
  if (!reach) return [];
  const hit = square(reach.hit, columns, HALO, "touched");
  if (reach.named >= facts.shape.cells) return [hit];
  const [from, to] = [spot(reach.named, columns), spot(reach.hit, columns)];
  const way = `M${from.x + SIDE / 2} ${from.y + SIDE}L${to.x + SIDE / 2} ${to.y - HALO}`;
  const cross = `M${from.x} ${from.y}l${SIDE} ${SIDE}m0-${SIDE}l-${SIDE} ${SIDE}`;
  return [hit, svg("path", { class: "way", d: way }), svg("path", { class: "wanted", d: cross })];
}

export const changedCells = ({ before, now }) =>
  before ? [...now.memory.keys()].filter((cell) => before.memory[cell] !== now.memory[cell]) : [];

export function drawMap(app) {
  const { session, page } = app;
  const { facts, now } = session;
  const map = byId("map");
  const shape = shapeOf(facts.shape.cells, map.parentElement.clientWidth);
  drawSquares(app, map, shape);
  const { columns } = shape;
  const isFull = (cell) => now.memory[cell] !== 0 && ["sandbox", "state", "free"].includes(facts.region[cell]);
  const owned = new Set([...page.free.map((named) => named.cell), ...session.given.writes.map((write) => write.cell)]);
  byId("marks").replaceChildren(
    ...[...now.memory.keys()].filter(isFull).map((cell) => holdsMark(app, cell, columns)),
    ...[...owned].map((cell) => square(cell, columns, -1, "named")),
    ...changedCells(session).map((cell) => square(cell, columns, HALO, "touched")),
    ...reachMarks(app, columns),
    square(app.selected, columns, 1, "selected"),
  );
}

/** The cell under a click. */
export function cellAt(event, cells) {
  const map = byId("map");
  const box = map.getBoundingClientRect();
  const columns = Number(map.dataset.columns);
  const rows = Math.ceil(cells / columns);
  const x = Math.floor(((event.clientX - box.left) / box.width) * columns);
  const y = Math.floor(((event.clientY - box.top) / box.height) * rows);
  return x + columns * y;
}
