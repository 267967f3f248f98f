// 'If the next readings were ..': shows what would be ordered from here. Nothing is touched.
import { answerText } from "../library/header.mjs";
import { FORMATS, numbersText, plural, readNumbers, valueText } from "../model/numbers.mjs";
import { eventName, scaleOf } from "../model/names.mjs";
import { Preview } from "../model/preview.mjs";
import { MOST_READINGS } from "../model/trace.mjs";
import { byId, complain, h, speakIfAsked } from "./dom.mjs";
import { kindClass, swatch } from "./marks.mjs";

const MOST_PAIRS = 40;
const MOST_CELLS = 12;
const WARMER = 15; // than the readings given, as a first question
const FIRST_READING = 1800; // tenths of a degree

export function buildPreview(app) {
  const { readings } = app.page;
  app.preview = new Preview(app.session.lib, app.session.facts);
  const first = readings.length ? readings.map((reading) => reading + WARMER) : [FIRST_READING];
  byId("if").value = numbersText(first, app.session.typed.scalesFrom());
  byId("if").addEventListener("input", () => updatePreview(app));
}

function sandboxText(cells, show) {
  if (!cells.length) return "The sandbox would stay as it is.";
  const text = ({ cell, was, then }) => `${cell}: ${show(was)} → ${show(then)}`;
  const more = cells.length > MOST_CELLS ? `, and ${cells.length - MOST_CELLS} more` : "";
  return `The sandbox would then hold ${cells.slice(0, MOST_CELLS).map(text).join(", ")}${more}.`;
}

function foreseen({ page, session, format }, ahead) {
  const show = FORMATS[format];
  const name = (event) => h("span", { class: kindClass(session.facts, event) }, swatch(session.facts, event), eventName(page, event));
  const item = ({ event, value }) => h("li", {}, name(event), h("b", {}, valueText(value, scaleOf(page, event), format)));
  const { pairs } = ahead;
  const { budget, log } = session.given;
  const own = `Looked at as a run of its own, with a budget of ${plural(budget, "command")} and an empty log of ${plural(log, "cell")}.`;
  const ended = [h("b", {}, answerText(ahead.ending)), ` after ${plural(ahead.steps, "command")}, with ${plural(ahead.readings, "reading")} used.`];
  const untouched = ahead.isUntouched ? "✓ Memory and registers are as they were." : "✕ Something was touched!";
  return [
    h("p", {}, pairs.length ? "From here it would record:" : "From here it would record nothing."),
    h("ol", { class: "foreseen" }, pairs.slice(0, MOST_PAIRS).map(item)),
    pairs.length > MOST_PAIRS ? h("p", { class: "hint" }, `and ${pairs.length - MOST_PAIRS} more.`) : "",
    h("p", {}, "It would come out as ", ended),
    h("p", { class: "hint" }, own),
    h("p", { class: "hint" }, sandboxText(ahead.cells, show)),
    h("p", { class: ahead.isUntouched ? "ok" : "wrong" }, untouched),
  ];
}

export function updatePreview(app) {
  const field = byId("if");
  speakIfAsked(byId("foreseen"), field);
  const { values, problem } = readNumbers(field.value, app.session.typed.scalesFrom(app.session.now));
  const tooMany = values?.length > MOST_READINGS ? `Write ${MOST_READINGS} readings at most.` : null;
  complain(field, problem ?? tooMany);
  if (problem ?? tooMany) byId("foreseen").replaceChildren();
  else byId("foreseen").replaceChildren(...foreseen(app, app.preview.look(app.session.now, app.session.given, values)));
}
