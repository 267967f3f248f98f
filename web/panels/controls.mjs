// The bar: reset, back, step, next event, run, end; the slider over all steps; the switch to commands; and the keys.
import { byId, h, ifUsable, setUsable, svg } from "./dom.mjs";

const ICONS = {
  reset: "M4 3v10M14 3 6 8l8 5z",
  back: "M11 3 4 8l7 5z",
  step: "M5 3l7 5-7 5z",
  event: "M3 3l6 5-6 5zM12 3v10",
  play: "M3 3l5 5-5 5zM8 3l5 5-5 5z",
  pause: "M5 3v10M11 3v10",
  end: "M2 3l8 5-8 5zM12 3v10",
};

const BUTTONS = [
  ["reset", "Reset", "Home"],
  ["back", "Back", "left arrow"],
  ["step", "Step", "right arrow"],
  ["event", "Next event", "shift and right arrow"],
  ["play", "Run", "space"],
  ["end", "End", "End"],
];

/** No letters: people who control the computer by voice would press them by chance. */
const KEYS = { ArrowRight: "step", ArrowLeft: "back", Home: "reset", End: "end", " ": "play" };
const SHIFT_KEYS = { ArrowRight: "event" };

const icon = (name) => svg("svg", { viewBox: "0 0 16 16", class: "icon", "aria-hidden": "true" }, svg("path", { d: ICONS[name] }));

/** Whether a key belongs to what has the focus: text in a field, the slider's arrows, a button's space. */
function isTaken(key, target) {
  if (target.matches("input:not([type=checkbox], [type=radio], [type=range]), select")) return true;
  if (target.matches("[type=range]")) return key !== " ";
  if (target.matches("[type=radio]") && key.startsWith("Arrow")) return true;
  return key === " " && target.closest("button, summary, input, a") !== null;
}

function listen(acts) {
  document.addEventListener("keydown", (event) => {
    const act = (event.shiftKey ? SHIFT_KEYS : KEYS)[event.key];
    if (!act || event.altKey || event.ctrlKey || event.metaKey || isTaken(event.key, event.target)) return;
    event.preventDefault();
    acts[act]();
  });
}

function commandSwitch(app) {
  const box = h("input", { id: "by-command", type: "checkbox", role: "switch", onchange: (e) => app.setByCommand(e.target.checked) });
  const track = h("span", { class: "track", "aria-hidden": "true" });
  return h("label", { class: "switch" }, box, track, h("span", {}, h("span", { class: "wide" }, "Show the "), "commands"));
}

export function buildControls(app) {
  const button = ([id, text, key]) =>
    h("button", { id: `do-${id}`, type: "button", class: "do", title: `${text} (${key})`, onclick: ifUsable(app.acts[id]) }, icon(id), h("span", {}, text));
  const slide = (e) => app.move(() => app.session.go(Number(e.target.value)));
  const slider = h("input", { id: "slider", type: "range", min: 0, value: 0, "aria-label": "Place in the run", oninput: slide });
  byId("controls").append(
    h("div", { class: "buttons" }, BUTTONS.map(button)),
    h("div", { class: "slide" }, slider, h("output", { id: "where", for: "slider" })),
    commandSwitch(app),
  );
  listen(app.acts);
}

export function updateControls({ session, isPlaying }) {
  const { at, last } = session;
  const what = session.byCommand ? "command" : "instruction";
  const slider = byId("slider");
  slider.max = last;
  slider.value = at;
  slider.setAttribute("aria-valuetext", `${what} ${at} of ${last}`);
  byId("where").replaceChildren(h("b", {}, String(at)), ` of ${last}`, h("span", { class: "wide" }, ` ${what}s`));
  for (const id of ["back", "reset"]) setUsable(byId(`do-${id}`), at !== 0);
  for (const id of ["step", "event", "end"]) setUsable(byId(`do-${id}`), at !== last);
  const play = byId("do-play");
  setUsable(play, at !== last || isPlaying);
  play.replaceChildren(icon(isPlaying ? "pause" : "play"), h("span", {}, isPlaying ? "Pause" : "Run"));
  byId("by-command").checked = session.byCommand;
}
