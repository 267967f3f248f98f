// The policy: its drawing with the present state lit, the events allowed from here, the ceilings, and all arrows as text. The
// arrows are what the engine answered for each event in each state.
import { NO_CEILING } from "../library/header.mjs";
import { eventName, scaleOf, stateName } from "../model/names.mjs";
import { valueText } from "../model/numbers.mjs";
import { policyModel } from "../model/policy.mjs";
import { drawArcs } from "./arcs.mjs";
import { drawColumn, fitsColumn } from "./column.mjs";
import { byId, h, reveal, sign, spoken } from "./dom.mjs";

const REVEAL_MARGIN = 110;

const eventsWhere = (page, isIt) => [...page.events.keys()].filter(isIt);

function arrowTexts(page, model) {
  const text = (state) => ({ to, events }) => {
    const names = events.map((event) => eventName(page, event)).join(", ");
    const where = to === null ? "— no arrow, stops the routine" : `→ ${model.name(to)}`;
    return h("li", {}, `${model.name(state)}: ${names} ${where}`);
  };
  return model.order.flatMap((state) => model.groups.get(state).map(text(state)));
}

function ceilingsText(page, { shape }) {
  const limited = [...shape.ceilings.entries()].filter(([, most]) => most !== NO_CEILING);
  const texts = limited.map(([event, most]) => `${eventName(page, event)} ${valueText(most, scaleOf(page, event))}`);
  return texts.length ? `Ceilings: ${texts.join(", ")}. A higher order is cut.` : "No order has a ceiling.";
}

export function buildPolicy(app) {
  const { page, session } = app;
  app.policy = policyModel(page, session.facts);
  const { leftOut, order } = app.policy;
  const states = leftOut + order.length;
  if (leftOut) byId("drawing").after(h("p", { class: "hint" }, `${leftOut} of ${states} states are left out: no events lead to them.`));
  byId("ceilings").textContent = ceilingsText(page, session.facts);
  new ResizeObserver(() => byId("drawing").clientWidth !== app.drawnIn && updatePolicy(app)).observe(byId("drawing"));
  byId("arrows").append(...arrowTexts(page, app.policy));
}

function chip(text, mark) {
  const [symbol, words] = { yes: ["✓ ", "allowed: "], no: ["✕ ", "not allowed: "], stopped: ["✕ ", "stopped: "] }[mark];
  return h("li", { class: mark }, sign(symbol), spoken(words), text, mark === "stopped" ? ": stopped" : null);
}

/** A chip for each named event, those allowed first, and one for all others. */
function chips(page, row, stopped) {
  const isNamed = (event) => page.events[event] !== null;
  const named = eventsWhere(page, isNamed);
  const nameless = eventsWhere(page, (event) => !isNamed(event));
  const open = nameless.filter((event) => row[event] !== null);
  const mark = (event) => (event === stopped ? "stopped" : row[event] === null ? "no" : "yes");
  const sorted = [...named].sort((a, b) => (row[a] === null) - (row[b] === null));
  const listed = sorted.map((event) => chip(eventName(page, event), mark(event)));
  if (!nameless.length) return listed;
  const others = open.length && open.length < nameless.length ? open.join(", ") : "all others";
  const unnamedStop = stopped !== null && !isNamed(stopped) ? chip(eventName(page, stopped), "stopped") : null;
  return [...listed, chip(others, open.length ? "yes" : "no"), unnamedStop].filter(Boolean);
}

export function updatePolicy(app) {
  const { page, session, policy } = app;
  const { now, facts, taken, stopped } = session;
  const box = byId("drawing");
  const stoppedName = stopped === null ? null : eventName(page, stopped);
  const room = (app.drawnIn = box.clientWidth);
  const draw = fitsColumn(policy, room) ? drawColumn : drawArcs;
  const drawing = draw(policy, { state: now.state, taken, stopped: stoppedName }, room);
  const stop = stoppedName ? ` Stopped: ${stoppedName} has no arrow.` : "";
  drawing.setAttribute("aria-label", `The policy. Present state: ${stateName(page, now.state)}.${stop} The arrows are listed below as text.`);
  const { scrollTop } = box;
  box.replaceChildren(drawing);
  box.scrollTop = scrollTop;
  const lit = drawing.querySelector(".state.now");
  if (lit) reveal(box, lit, REVEAL_MARGIN);
  byId("state-now").textContent = stateName(page, now.state);
  byId("allowed").replaceChildren(...chips(page, facts.arrows[now.state], stopped));
}
