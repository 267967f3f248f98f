// The record: the pairs so far as a table, and beside it as a plot.
import { valueText } from "../model/numbers.mjs";
import { eventName, scaleOf } from "../model/names.mjs";
import { byId, h } from "./dom.mjs";
import { swatch } from "./marks.mjs";
import { drawPlot } from "./plot.mjs";

export function buildRecord(app) {
  new ResizeObserver(() => drawPlot(app)).observe(byId("plot"));
}

function pairRow({ page, session, format }, pair, number) {
  const { event, value, r0 } = pair;
  const show = (number) => valueText(number, scaleOf(page, event), format);
  const kind = h("small", {}, r0 === null ? "reading" : "order");
  const cut = r0 !== null && r0 !== value ? h("small", { class: "cut" }, `cut, r0 is ${show(r0)}`) : null;
  const name = h("th", { scope: "row" }, swatch(session.facts, event), h("span", { class: "event" }, eventName(page, event)), kind, cut);
  return h("tr", { "data-event": event }, h("td", {}, String(number)), name, h("td", { class: "num" }, show(value)));
}

/** Rows are only appended or taken away, unless the run or the numbers' form is another: so a step in a long record is quick. */
function updateRows(app, body) {
  const { session: { trace, now }, format } = app;
  const isOther = app.listed?.trace !== trace || app.listed.format !== format;
  app.listed = { trace, format };
  if (isOther) body.replaceChildren();
  while (body.rows.length > now.pairs) body.lastElementChild.remove();
  const from = body.rows.length;
  body.append(...trace.events.slice(from, now.pairs).map((pair, i) => pairRow(app, pair, from + i + 1)));
}

/** Lights the pairs that the last step recorded. */
function lightFresh(body, known) {
  for (const row of body.querySelectorAll(".changed")) row.classList.remove("changed");
  for (let i = known; i < body.rows.length; i++) body.rows[i].classList.add("changed");
}

export function updateRecord(app) {
  const { session } = app;
  const { pairs } = session.now;
  const body = byId("pairs");
  updateRows(app, body);
  lightFresh(body, session.before ? session.before.pairs : pairs);
  byId("no-pairs").hidden = pairs > 0;
  const box = body.closest(".scroll");
  box.scrollTop = box.scrollHeight;
  drawPlot(app);
}
