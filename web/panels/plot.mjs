// The plot: readings above, orders below, over the pairs of the whole run; those to come are left blank. Ceilings are lines.
import { NO_CEILING } from "../library/header.mjs";
import { eventName, scaleOf } from "../model/names.mjs";
import { axisText, shownNumber, valueText } from "../model/numbers.mjs";
import { clipped } from "../model/policy.mjs";
import { byId, h, svg } from "./dom.mjs";
import { kindClass, mark, swatch } from "./marks.mjs";
import { BASELINE } from "./shapes.mjs";

const NARROWEST = 280;
const LEAST_LEFT = 54;
const RIGHT = 16;
const INDENT = 14; // before the first and after the last pair
const TOP = 22;
const GAP = 34;
const READINGS_TALL = 120;
const ORDERS_TALL = 110;
const TICK_HEIGHT = 32;
const TICK_WIDTH = 28;
const DIGIT = 7.2; // how wide a digit of an axis is
const HEADROOM = 0.12;
const FAR_CEILING = 4; // times the largest order: such a ceiling is drawn at the panel's top edge
const STEPS = [1, 2, 5, 10];
const TINY = 1e-6;
const TICK_GAP = 7; // from an axis to its numbers
const TITLE_GAP = 8; // above a panel
const TITLE_WIDTH = 60;
const FOOT = 24; // under the lowest axis
const FOOT_TEXT = 16;
const CEILING_GAP = 5; // above a ceiling's line
const CEILING_LINE = 14; // from the words of a ceiling to those of the next
const CEILING_CHARACTER = 6.4;
const LOW = 0.1; // of the largest order: a ceiling lower than this has marks on it, and its words stand higher
const MARK_ROOM = 8; // marks stand only where they are so far apart

/** Round numbers between two others, at most so many, no closer than `least`. */
function ticks(low, high, most, least) {
  const raw = Math.max((high - low) / most, least);
  const unit = 10 ** Math.floor(Math.log10(raw) + TINY);
  const step = STEPS.find((m) => m * unit >= raw * (1 - TINY)) * unit;
  const count = Math.floor((high - low) / step) + 1;
  const first = Math.ceil(low / step - TINY);
  return Array.from({ length: count }, (_, i) => (first + i) * step).filter((t) => t <= high);
}

const eventsOf = (pairs) => [...new Set(pairs.map((pair) => pair.event))].sort((a, b) => a - b);

/** A number of an event as the table shows it. */
const heightOf = ({ page, format }) => (event, value) => shownNumber(value, scaleOf(page, event), format);

/** The ceilings of the orders, by their height: who has them. */
function ceilingsOf(app, orders) {
  const { page, session: { facts } } = app;
  const by = new Map();
  for (const event of eventsOf(orders)) {
    const ceiling = facts.shape.ceilings[event];
    const height = heightOf(app)(event, ceiling);
    if (ceiling !== NO_CEILING) by.set(height, [...(by.get(height) ?? []), eventName(page, event)]);
  }
  return by;
}

/** A panel's frame: title, grid, axes. */
function frame({ title, top, tall, lines, y, text }, { left, width }) {
  const grid = (t) => [
    svg("path", { class: "grid", d: `M${left} ${y(t)}H${width - RIGHT}` }),
    svg("text", { class: "tick", x: left - TICK_GAP, y: y(t) + BASELINE, "text-anchor": "end" }, text(t)),
  ];
  return [
    svg("text", { class: "title", x: left, y: top - TITLE_GAP }, title),
    lines.map(grid),
    svg("path", { class: "axis", d: `M${left} ${top}V${top + tall}H${width - RIGHT}` }),
  ];
}

/** The finest scale of the events of some pairs: an axis has numbers no finer than this. */
const finestScale = ({ page, format }, pairs) => (format === "hexadecimal" ? 1 : Math.max(...eventsOf(pairs).map((event) => scaleOf(page, event))));

/** A panel over these pairs: it shows `values`, and the numbers of its axis as `text` writes them. */
function panelOf(app, title, { top, tall, pairs, values }) {
  const [least, most] = [Math.min(...values), Math.max(...values)];
  const scale = finestScale(app, pairs);
  const room = (most - least || Math.abs(most) || 1) * HEADROOM;
  const lowest = title === "orders" ? Math.min(0, least) : least;
  const high = most + room;
  const under = lowest < 0 ? lowest - room : Math.max(0, title === "orders" ? 0 : least - room);
  const above = ticks(under, high, tall / TICK_HEIGHT, 1 / scale);
  const isBare = under < 0 && above[0] === 0 && above.length > 1; // no number would stand below 0
  const low = isBare ? -above[1] : under;
  const y = (value) => top + tall - ((value - low) / (high - low || 1)) * tall;
  const text = (t) => axisText(t, scale, app.format);
  return { title, top, tall, pairs, y, text, most, lines: isBare ? [low, ...above] : above };
}

/** Which points of a line have a mark: those with room on both sides, and the fresh ones. */
function hasMark(points, at, known) {
  const isApart = (other) => !other || Math.abs(other.x - points[at].x) >= MARK_ROOM;
  return points[at].i >= known || (isApart(points[at - 1]) && isApart(points[at + 1]));
}

/** One event's pairs: a line between readings, steps between orders, and marks. */
function series(app, event, pairs, x, y) {
  const { session, page, format } = app;
  const height = heightOf(app);
  const own = pairs.map((pair, i) => ({ ...pair, i })).filter((pair) => pair.event === event);
  const points = own.map(({ i, value }) => ({ i, value, x: x(i), y: y(height(event, value)) }));
  const kind = kindClass(session.facts, event);
  const isReading = kind === "reading";
  const [first, ...rest] = points;
  if (!first) return [];
  const start = `M${first.x} ${first.y}${rest.map((p) => (isReading ? `L${p.x} ${p.y}` : `H${p.x}V${p.y}`)).join("")}`;
  const d = isReading || !rest.length ? start : `${start}H${x(pairs.length - 1)}`;
  const known = session.before ? session.before.pairs : pairs.length;
  const point = ({ i, value, ...at }) =>
    svg("g", { class: i >= known ? "fresh" : "" }, mark(session.facts, event, at.x, at.y),
      svg("title", {}, `${i + 1}: ${eventName(page, event)} ${valueText(value, scaleOf(page, event), format)}`));
  return [svg("path", { class: `line ${kind}`, d }), ...points.filter((_, at) => hasMark(points, at, known)).map(point)];
}

/** The words of ceilings, each at its line, but none over another. */
function ceilingWords(items, { left, width }) {
  const longest = Math.floor((width - RIGHT - left - TITLE_WIDTH) / CEILING_CHARACTER);
  let lowest = -Infinity;
  return items.sort((a, b) => a.at - b.at).map(({ at, said }) => {
    lowest = Math.max(at, lowest + CEILING_LINE);
    const place = { class: "ceiling-text", x: width - RIGHT, y: lowest, "text-anchor": "end" };
    return svg("text", place, clipped(said, longest), svg("title", {}, said));
  });
}

/** Ceilings at their height; those far above the orders at the panel's top edge, in one line. */
function ceilingLines({ y, ceilings, largest, text, top }, size) {
  const line = (at) => svg("path", { class: "ceiling", d: `M${size.left} ${at}H${size.width - RIGHT}` });
  const isFar = ([ceiling]) => ceiling > FAR_CEILING * largest;
  const all = [...ceilings].sort(([a], [b]) => a - b);
  const [far, near] = [all.filter(isFar), all.filter((one) => !isFar(one))];
  const said = (some) => `ceiling ${some.map(([ceiling, who]) => `${text(ceiling)}: ${who.join(", ")}`).join("; ")}`;
  const items = near.map((one) => ({ at: y(one[0]) - (one[0] < LOW * largest ? 2 : 1) * CEILING_GAP, said: said([one]) }));
  if (far.length) items.push({ at: top - CEILING_GAP, said: said(far) });
  return [near.map(([ceiling]) => line(y(ceiling))), far.length ? line(top) : null, ceilingWords(items, size)];
}

function legend({ page, session: { facts } }, events, hasCeilings) {
  const item = (event) => h("li", {}, swatch(facts, event), eventName(page, event));
  const dash = svg("svg", { viewBox: "0 0 24 16", class: "swatch dash", "aria-hidden": "true" }, svg("path", { class: "ceiling", d: "M0 8H24" }));
  return h("ul", { class: "legend" }, events.map(item), hasCeilings ? h("li", {}, dash, "ceiling") : null);
}

/** The numbers of the pairs under the lowest axis. */
function footer(count, x, { left, width }, foot) {
  const wide = Math.max(TICK_WIDTH, (String(count).length + 2) * DIGIT);
  const every = Math.max(1, Math.ceil(count / Math.floor((width - left - RIGHT) / wide)));
  const numbers = Array.from({ length: count }, (_, i) => i).filter((i) => i % every === 0);
  const text = (at, said, anchor) => svg("text", { class: "tick", x: at, y: foot + FOOT_TEXT, "text-anchor": anchor }, said);
  return [text(left - TICK_GAP, "pair", "end"), ...numbers.map((i) => text(x(i), String(i + 1), "middle"))];
}

function panelsOf(app, all) {
  const { isReading } = app.session.facts;
  const heights = (pairs) => pairs.map(({ event, value }) => heightOf(app)(event, value));
  const readings = all.filter((pair) => isReading[pair.event]);
  const orders = all.filter((pair) => !isReading[pair.event]);
  const panels = [];
  if (readings.length) panels.push(panelOf(app, "readings", { top: TOP, tall: READINGS_TALL, pairs: readings, values: heights(readings) }));
  if (!orders.length) return panels;
  const top = panels.length ? TOP + READINGS_TALL + GAP : TOP;
  const ceilings = ceilingsOf(app, orders);
  const largest = Math.max(1, ...heights(orders));
  const near = [...ceilings.keys()].filter((ceiling) => ceiling <= FAR_CEILING * largest);
  const panel = panelOf(app, "orders", { top, tall: ORDERS_TALL, pairs: orders, values: [...heights(orders), ...near, 1] });
  return [...panels, { ...panel, ceilings, largest }];
}

/** Room at the left for the longest number of an axis. */
function leftOf(panels) {
  const longest = Math.max(...panels.flatMap(({ lines, text }) => lines.map((t) => text(t).length)));
  return Math.max(LEAST_LEFT, Math.ceil(longest * DIGIT) + 2 * TICK_GAP);
}

export function drawPlot(app) {
  const { session } = app;
  const box = byId("plot");
  const all = session.trace.events;
  if (!box.clientWidth) return;
  if (!all.length) {
    box.replaceChildren(h("p", { class: "hint" }, "This run records nothing."));
    return;
  }
  const panels = panelsOf(app, all);
  const size = { left: leftOf(panels), width: Math.max(NARROWEST, box.clientWidth) };
  const room = size.width - size.left - RIGHT - 2 * INDENT;
  const x = (i) => size.left + INDENT + (all.length > 1 ? (i * room) / (all.length - 1) : room / 2);
  const shown = all.slice(0, session.now.pairs);
  const foot = panels.at(-1).top + panels.at(-1).tall;
  const now = shown.length ? svg("path", { class: "now-line", d: `M${x(shown.length - 1)} 14V${foot}` }) : null;
  const drawn = panels.map((panel) => [
    frame(panel, size),
    eventsOf(panel.pairs).map((event) => series(app, event, shown, x, panel.y)),
    panel.ceilings ? ceilingLines(panel, size) : null,
  ]);
  const said = `Plot of the record: ${shown.length} of ${all.length} pairs. The same numbers stand in the table.`;
  const height = foot + FOOT;
  const picture = { viewBox: `0 0 ${size.width} ${height}`, width: size.width, height, role: "img", "aria-label": said };
  const hasCeilings = panels.some((panel) => panel.ceilings?.size);
  box.replaceChildren(svg("svg", picture, now, drawn, footer(all.length, x, size, foot)), legend(app, eventsOf(all), hasCeilings));
}
