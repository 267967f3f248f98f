// What the last step did, and, where the run has come to an end or a pause, what can be done there.
import { ENDING, answerText } from "../library/header.mjs";
import { plural, readNumbers, valueText } from "../model/numbers.mjs";
import { commandLine, eventName, instructionText, lineOf } from "../model/names.mjs";
import { tellCommand, tellInstruction } from "../model/story.mjs";
import { MOST_BUDGET, MOST_READINGS } from "../model/trace.mjs";
import { byId, complain, h } from "./dom.mjs";

const PAIR = 2; // cells of the log
const SAMPLE_READING = 1960;
const PAUSES = [ENDING.LOG_FULL, ENDING.PROBE_SILENT, ENDING.SPENT];

const placeOf = (page, index) => (lineOf(page, index) === null ? "behind the last line" : `line ${lineOf(page, index)}`);

function whatWasDone({ session, format }) {
  const { page, before, now, facts } = session;
  const tag = (text) => h("span", { class: "step-of" }, text);
  if (!before) {
    const first = h("p", { class: "did" }, tag("Ready"), h("code", {}, instructionText(page, now.index)), ` comes first, ${placeOf(page, now.index)}.`);
    return [first, h("p", { class: "tell" }, "Step through the routine, or press Run. Nothing has happened yet.")];
  }
  const text = instructionText(page, before.index);
  const { byCommand } = session;
  const code = byCommand ? commandLine(page, facts.commands, session.lastCommand) : text;
  const of = byCommand ? h("span", { class: "of" }, ` of ${text}`) : null;
  const tale = byCommand ? tellCommand(session, format) : tellInstruction(session, format);
  return [h("p", { class: "did" }, tag(placeOf(page, before.index)), h("code", {}, code), of), h("p", { class: "tell" }, tale)];
}

const said = (strong, rest) => h("p", {}, h("b", {}, `${strong} `), rest);
const mainButton = (text, act) => h("button", { type: "button", class: "main", onclick: act }, text);

function askReading(app, event) {
  const { session } = app;
  const sample = valueText(SAMPLE_READING, session.typed.scalesFrom(session.now)());
  const field = h("input", { id: "next-reading", name: "reading", inputmode: "decimal", autocomplete: "off", placeholder: sample });
  const give = (then) => (pressed) => {
    pressed.preventDefault();
    const { values, problem } = readNumbers(field.value, session.typed.scalesFrom(session.now));
    const { readings } = session.given;
    const isTooMany = !problem && readings.length + values.length > MOST_READINGS;
    const tooMany = isTooMany ? `This page takes ${MOST_READINGS} readings at most.` : null;
    const none = !problem && !values.length ? `Write the probe’s next reading, such as ${sample}.` : null;
    complain(field, problem ?? none ?? tooMany);
    if (problem ?? none ?? tooMany) return;
    app.give({ readings: [...readings, ...values] }, then);
  };
  const stepButton = h("button", { type: "submit", class: "main" }, "Give it");
  const runButton = h("button", { type: "button", onclick: give("end") }, "and run on");
  const form = h("form", { class: "write", onsubmit: give("step") }, h("label", {}, "Next reading ", field), stepButton, runButton);
  return [said("The probe is silent.", `${event} waits for a reading.`), form];
}

function offerLog(app, event) {
  const { given } = app.session;
  const told = said("The log is full.", `${event} waits for two free cells.`);
  if (given.log < PAIR) return [told, h("p", {}, "A log of fewer than two cells holds no pair: make it longer below.")];
  return [told, mainButton("Empty the log and go on", () => app.give({ emptied: given.emptied + 1 }, "step"))];
}

function offerBudget(app) {
  const { given, trace } = app.session;
  const told = said("The budget is spent.", `${plural(trace.frames.length - 1, "command")} done.`);
  if (given.budget >= MOST_BUDGET) return [told, h("p", {}, `This page stops at ${MOST_BUDGET} commands.`)];
  const more = Math.min(MOST_BUDGET - given.budget, Math.max(1, app.page.budget));
  return [told, mainButton(`Give ${more} more`, () => app.give({ budget: given.budget + more }, "step"))];
}

const OFFERS = {
  [ENDING.ENDED]: () => [said("The end.", "Go back, or change what the run is given.")],
  [ENDING.NO_ARROW]: (_, event) => [said("Stopped by the policy.", `${event} was not sent, and the routine cannot go on.`)],
  [ENDING.FAULT]: () => [said("Fault.", "This never happens to commands that the checker passed.")],
  [ENDING.LOG_FULL]: offerLog,
  [ENDING.PROBE_SILENT]: askReading,
  [ENDING.SPENT]: offerBudget,
  [ENDING.NO_LANDING]: () => [said("Stopped: no landing.", "The jump was not made, and the routine cannot go on.")],
};

function summary({ trace }) {
  const frame = trace.frames.at(-1);
  const instructions = trace.frames.filter((f, k) => k > 0 && (f.isFirst || !f.isRunning)).length;
  const counts = [
    plural(trace.frames.length - 1, "command"),
    plural(instructions, "instruction"),
    plural(frame.pairs, "pair"),
    `${plural(frame.used, "reading")} used`,
  ];
  return h("p", { class: "sum" }, `${answerText(trace.ending)}: ${counts.join(", ")}`);
}

function toneOf(ending) {
  if (ending === ENDING.ENDED) return "good";
  return PAUSES.includes(ending) ? "wait" : "bad";
}

export function updateNow(app) {
  const { session } = app;
  const { ending, frames } = session.trace;
  const live = app.isPlaying ? "off" : "polite"; // a run by itself is too quick to be spoken
  for (const id of ["now", "where"]) byId(id).setAttribute("aria-live", live);
  byId("now").replaceChildren(...whatWasDone(app));
  const pause = byId("pause");
  pause.hidden = session.at !== session.last;
  const isSame = app.pausedIn === session.trace;
  if (pause.hidden || (isSame && pause.contains(document.activeElement))) return;
  app.pausedIn = session.trace;
  pause.className = toneOf(ending);
  const event = eventName(app.page, session.wordOrHalt(frames.at(-1).index).v);
  pause.replaceChildren(h("div", {}, OFFERS[ending](app, event)), summary(session));
}
