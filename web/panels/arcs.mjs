// A large policy as a list of states with arcs at their left, one arc for each arrow. The arcs from the present state are thick,
// and beside each state that they lead to stand the events that lead there: so nothing meets, with 16 states too.
import { clipped, clippedMiddle } from "../model/policy.mjs";
import { svg } from "./dom.mjs";
import { BASELINE, headRight } from "./shapes.mjs";

const ROW = 34;
const TOP = 8;
const TALL = 26;
const GUTTERS = { wide: 92, narrow: 56 }; // for the arcs
const NARROW = 330;
const SMALLEST_BOX = 84;
const NAME_CHARACTER = 8;
const BOX_PADDING = 24;
const SMALLEST_WIDTH = 260;
const WIDEST = 460;
const LABEL_ROOM = 88;
const LABEL_LINE = 14;
const LABEL_CHARACTER = 7.6;
const BOLD_CHARACTER = 9;
const START = "▸ ";
const STOPPED = "✕ : stopped";
const LABEL_GAP = 10;
const LEAST_BOW = 14;
const EDGE = 8; // left of the widest arc
const HEAD_LENGTH = 8;

/** A state's name as its box has it; one that is too long loses its middle, so that names that end differently stay different. */
const boxName = (model, state, most) => (state === model.start ? START : "") + clippedMiddle(model.name(state), most);

/** How wide gutter, boxes and labels are in the room that there is: a box has what the longest name needs, if it can. */
function widths(model, room) {
  const wide = Math.max(SMALLEST_WIDTH, Math.min(WIDEST, room));
  const gutter = wide < NARROW ? GUTTERS.narrow : GUTTERS.wide;
  const longest = START.length + Math.max(...model.order.map((state) => model.name(state).length));
  const wanted = Math.max(SMALLEST_BOX, Math.ceil(longest * NAME_CHARACTER) + BOX_PADDING);
  const box = Math.min(wanted, wide - gutter - LABEL_GAP - LABEL_ROOM);
  const labels = gutter + box + LABEL_GAP;
  const name = Math.floor((box - BOX_PADDING) / NAME_CHARACTER) - START.length;
  return { wide, gutter, box, labels, name, characters: Math.floor((wide - labels) / LABEL_CHARACTER) };
}

const middle = (row) => TOP + row * ROW + ROW / 2;

/** An arc from one row to another, the farther the wider. */
function arc(gutter, from, to, rows) {
  const bow = LEAST_BOW + ((gutter - LEAST_BOW - EDGE) * Math.abs(to - from)) / rows;
  const [y, end] = [middle(from), middle(to)];
  const x = gutter - bow;
  return [svg("path", { d: `M${gutter} ${y}C${x} ${y} ${x} ${end} ${gutter - HEAD_LENGTH} ${end}` }), headRight(gutter - 1, end)];
}

function arcsFrom(model, state, present, { gutter }) {
  const isNow = state === present.state;
  const drawn = ({ to }) => {
    const isTaken = present.taken?.from === state && present.taken.to === to;
    const kind = `arrow ${isNow ? "from-here" : ""} ${isTaken ? "lit" : ""}`;
    return svg("g", { class: kind }, arc(gutter, model.row.get(state), model.row.get(to), model.order.length));
  };
  return model.groups.get(state).filter(({ to }) => to !== null && to !== state).map(drawn);
}

/** A text in at most two lines, broken at a blank; what is too long is clipped. */
function twoLines(text, most) {
  const cut = text.length <= most ? 0 : text.lastIndexOf(" ", most);
  return cut > 0 ? [text.slice(0, cut), clipped(text.slice(cut + 1), most)] : [clipped(text, most)];
}

/** Beside a state, which events lead there from the present one. */
function labelFor(model, state, present, { labels, characters }) {
  const group = model.groups.get(present.state)?.find(({ to }) => to === state);
  if (!group) return null;
  const text = `${state === present.state ? "stays: " : "by "}${group.words.join(", ")}`;
  const lines = twoLines(text, characters);
  const y = middle(model.row.get(state)) + BASELINE - ((lines.length - 1) * LABEL_LINE) / 2;
  const line = (said, i) => svg("tspan", { x: labels, dy: i * LABEL_LINE }, said);
  return svg("text", { class: "leads", x: labels, y }, lines.map(line), svg("title", {}, text));
}

function stateBox(model, state, present, { gutter, box, name }) {
  const y = middle(model.row.get(state));
  return svg("g", { class: `state ${state === present.state ? "now" : ""}`, "data-state": state },
    svg("rect", { x: gutter, y: y - TALL / 2, width: box, height: TALL, rx: TALL / 2 }),
    svg("text", { x: gutter + box / 2, y: y + BASELINE, "text-anchor": "middle" }, boxName(model, state, name)),
    svg("title", {}, model.name(state)));
}

function stoppedLine(model, event, { wide, gutter }) {
  const y = TOP + model.order.length * ROW + ROW / 2;
  const most = Math.floor((wide - gutter) / BOLD_CHARACTER) - STOPPED.length;
  return svg("g", { class: "stopped" }, svg("text", { x: gutter, y }, `✕ ${clippedMiddle(event, most)}: stopped`));
}

/** Draws it in a room so many points wide. */
export function drawArcs(model, present, room) {
  const states = model.order;
  const sizes = widths(model, room);
  const isOther = (state) => state !== present.state;
  const drawn = [...states.filter(isOther), present.state].filter((state) => model.row.has(state));
  const height = TOP * 2 + (states.length + (present.stopped ? 1 : 0)) * ROW;
  return svg("svg", { id: "automaton", class: "large", viewBox: `0 0 ${sizes.wide} ${height}`, role: "img" },
    drawn.flatMap((state) => arcsFrom(model, state, present, sizes)),
    states.map((state) => stateBox(model, state, present, sizes)),
    states.map((state) => labelFor(model, state, present, sizes)),
    present.stopped ? stoppedLine(model, present.stopped, sizes) : null);
}
