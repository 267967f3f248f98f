// A small policy as a column of states, the start on top. An arrow to the next state goes down, one to the same state loops at
// the right, all others run at the left. Every arrow has its events beside it.
import { clipped, clippedMiddle, wrap } from "../model/policy.mjs";
import { svg } from "./dom.mjs";
import { BASELINE, headDown, headRight } from "./shapes.mjs";

const MOST_STATES = 5;
const MOST_FAR = 4;
const TOP = 36;
const TALL = 42; // a state's box
const LINE = 17;
const CHARACTER = 7.6; // of a bold word too
const STOPPED_CHARACTER = 8.4;
const NAME_CHARACTER = 8.9;
const LONGEST_NAME = 20;
const LONGEST_FAR = 20;
const LONGEST_WORD = 16;
const SMALLEST_BOX = 90;
const BOX_PADDING = 30;
const LEFT = 16;
const EDGE = 4; // left of everything
const FAR_STEP = 13;
const FARTHEST = 6;
const FAR_LINE = 15;
const LOOP = 42; // how far a loop reaches to the right
const SHORTEST_LABEL = 10; // characters
const WIDEST = 460;
const STOPPED = ": stopped";
const GAP = 44;
const FIRST_LINE = 14; // of the words beside a state, under its top
const BESIDE = 10; // from an arrow to its words
const HEAD_LENGTH = 8;
const FAR_START = 6; // of the first far arrow, under the state's top
const FAR_END = 7; // above the state's bottom
const START_LENGTH = 28;
const STOP_RADIUS = 7;
const STOP_LINES = 1; // room for the event that is stopped

const distance = ({ row }, from, to) => Math.abs(row.get(to) - row.get(from));
const isNext = ({ row }, from, to) => to !== null && row.get(to) === row.get(from) + 1;
const isFar = (model, from, { to }) => to !== null && to !== from && !isNext(model, from, to);
const farOf = (model) => model.order.flatMap((s) => model.groups.get(s).filter((g) => isFar(model, s, g)).map((g) => distance(model, s, g.to)));

const farText = ({ words }) => clipped(words.join(", "), LONGEST_FAR);
const stateName = (model, state) => clippedMiddle(model.name(state), LONGEST_NAME);
const CROSS = "✕ ";

/** The longest of some texts, in characters. */
const longest = (texts) => Math.max(0, ...texts.map((text) => text.length));

/** Left of the boxes: what the arrows there and their words need. */
function leftOf(model) {
  const texts = model.order.flatMap((s) => model.groups.get(s).filter((g) => isFar(model, s, g)).map(farText));
  if (!texts.length) return LEFT;
  const reach = FAR_STEP * Math.min(FARTHEST, Math.max(...farOf(model)));
  return EDGE + Math.max(LEFT + reach, HEAD_LENGTH + longest(texts) * CHARACTER);
}

/** Where things lie from left to right in the room that there is; `least` is what they need. */
function widths(model, room) {
  const box = Math.max(SMALLEST_BOX, longest(model.order.map((s) => stateName(model, s))) * NAME_CHARACTER + BOX_PADDING);
  const left = leftOf(model);
  const right = left + box;
  const words = model.order.flatMap((s) => model.groups.get(s).filter(({ to }) => to === s || to === null)).flatMap((g) => g.words);
  const label = Math.max(SHORTEST_LABEL, Math.min(LONGEST_WORD, longest(words) + CROSS.length));
  const least = right + LOOP + label * CHARACTER;
  const wide = Math.max(least, Math.min(room, WIDEST));
  const middle = left + box / 2;
  const fitting = (from) => Math.floor((wide - from) / CHARACTER);
  return { box, left, right, middle, least, wide, characters: fitting(right + LOOP), next: fitting(middle + BESIDE) };
}

/** Whether a policy is small enough for a column in which nothing meets. */
export const fitsColumn = (model, room) =>
  model.order.length <= MOST_STATES && farOf(model).length <= MOST_FAR && widths(model, room).least <= room;

/** The words beside a state: those of its loop, of events without an arrow, and of the arrow down. */
function wordsOf(model, state, { characters, next }) {
  const groups = model.groups.get(state);
  const wrapped = (words, most) => wrap(words.map((word) => clippedMiddle(word, most - 1)), most).filter(Boolean);
  const of = (isIt) => groups.find(isIt)?.words ?? [];
  const none = of((g) => g.to === null);
  return {
    loop: wrapped(of((g) => g.to === state), characters),
    none: wrapped(none.map((word, i) => (i ? word : CROSS + word)), characters),
    next: wrapped(of((g) => isNext(model, state, g.to)), next),
    far: groups.filter((g) => isFar(model, state, g)),
  };
}

/** The top of each state's box, and the drawing's height. */
function heights(model, wide) {
  const tops = new Map();
  let y = TOP;
  for (const state of model.order) {
    const { loop, none, next, far } = wordsOf(model, state, wide);
    tops.set(state, y);
    const below = Math.max(0, (loop.length + none.length + STOP_LINES) * LINE - TALL - GAP / 2, far.length * FAR_LINE - TALL);
    y += TALL + below + GAP + Math.max(0, next.length - 1) * LINE;
  }
  return { tops, height: y };
}

const label = (x, y, lines, more = {}) =>
  svg("text", { x, y, ...more }, lines.map((text, i) => svg("tspan", { x, dy: i ? LINE : 0 }, text)));

function loopArrow({ right }, top, lines) {
  const mid = top + TALL / 2;
  return [
    svg("path", { d: `M${right} ${mid - 9}c${LOOP} -17 ${LOOP} 35 7 18` }),
    svg("path", { class: "head", d: `M${right + 1} ${mid + 8}l10-2-3 9z` }),
    label(right + LOOP, top + FIRST_LINE, lines),
  ];
}

function nextArrow({ middle }, bottom, end, lines) {
  const y = (bottom + end) / 2 + BASELINE - ((lines.length - 1) * LINE) / 2;
  return [
    svg("path", { d: `M${middle} ${bottom}V${end - HEAD_LENGTH}` }),
    headDown(middle, end),
    label(middle + BESIDE, y, lines),
  ];
}

function farArrow({ left }, from, to, reach, text) {
  const out = left - LEFT - FAR_STEP * Math.min(FARTHEST, reach);
  return [
    svg("path", { d: `M${left + FAR_START} ${from}C${out} ${from} ${out} ${from} ${out} ${(from + to) / 2}S${out} ${to} ${left - HEAD_LENGTH} ${to}` }),
    headRight(left + 2, to),
    label(left - HEAD_LENGTH, from + BASELINE, [text], { class: "halo", "text-anchor": "end" }),
  ];
}

function arrowsOf(model, state, wide, tops, taken) {
  const words = wordsOf(model, state, wide);
  const top = tops.get(state);
  const shape = (group) => {
    if (group.to === null) return label(wide.right + LOOP, top + FIRST_LINE + words.loop.length * LINE, words.none, { class: "none" });
    if (group.to === state) return loopArrow(wide, top, words.loop);
    if (isNext(model, state, group.to)) return nextArrow(wide, top + TALL, tops.get(group.to), words.next);
    const from = top + FAR_START + words.far.indexOf(group) * FAR_LINE;
    return farArrow(wide, from, tops.get(group.to) + TALL - FAR_END, distance(model, state, group.to), farText(group));
  };
  const isLit = (group) => taken?.from === state && taken.to === group.to;
  return model.groups.get(state).map((group) => svg("g", { class: `arrow ${isLit(group) ? "lit" : ""}` }, shape(group)));
}

function stateBox({ left, middle, box }, top, name, isNow, state) {
  return svg("g", { class: `state ${isNow ? "now" : ""}`, "data-state": state },
    svg("rect", { x: left, y: top, width: box, height: TALL, rx: TALL / 2 }),
    svg("text", { x: middle, y: top + TALL / 2 + BASELINE, "text-anchor": "middle" }, name.short),
    svg("title", {}, name.full));
}

const startMark = ({ middle }) =>
  svg("g", { class: "start" },
    svg("text", { x: middle + BESIDE, y: TOP - START_LENGTH / 2 + BASELINE }, "start"),
    svg("path", { d: `M${middle} ${TOP - START_LENGTH}V${TOP - HEAD_LENGTH}` }),
    headDown(middle, TOP));

/** Under the words beside the present state. */
function stoppedMark(model, state, wide, top, event) {
  const { loop, none } = wordsOf(model, state, wide);
  const x = wide.right + LOOP + STOP_RADIUS;
  const y = top + FIRST_LINE + (loop.length + none.length) * LINE - BASELINE;
  const from = x + STOP_RADIUS + BASELINE;
  const most = Math.floor((wide.wide - from) / STOPPED_CHARACTER) - STOPPED.length;
  return svg("g", { class: "stopped" },
    svg("circle", { cx: x, cy: y, r: STOP_RADIUS }),
    svg("path", { d: `M${x - 3} ${y - 3}l6 6m0-6l-6 6` }),
    svg("text", { x: from, y: y + BASELINE }, clippedMiddle(event, Math.max(1, most)) + STOPPED));
}

/** Draws it in a room so many points wide. present: { state, taken: { from, to } or null, stopped: an event's name or null } */
export function drawColumn(model, present, room) {
  const wide = widths(model, room);
  const { tops, height } = heights(model, wide);
  const { state, taken, stopped } = present;
  return svg("svg", { id: "automaton", viewBox: `0 0 ${wide.wide} ${height}`, role: "img" },
    model.order.flatMap((s) => arrowsOf(model, s, wide, tops, taken)),
    model.order.map((s) => stateBox(wide, tops.get(s), { full: model.name(s), short: stateName(model, s) }, s === state, s)),
    startMark(wide),
    stopped && tops.has(state) ? stoppedMark(model, state, wide, tops.get(state), stopped) : null);
}
