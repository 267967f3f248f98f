// What the run is given: readings, budget, log; and the colours.
import { numbersText, readNumber, readNumbers } from "../model/numbers.mjs";
import { MOST_BUDGET, MOST_LOG, MOST_READINGS } from "../model/trace.mjs";
import { byId, complain, fill, ifUsable, setUsable } from "./dom.mjs";

function readReadings(text, { typed }) {
  const { values, problem } = readNumbers(text, typed.scalesFrom());
  const isTooMany = values?.length > MOST_READINGS;
  return { value: values, problem: isTooMany ? `Write ${MOST_READINGS} readings at most.` : problem };
}

const FIELDS = {
  readings: { read: readReadings, given: (value) => ({ readings: value }) },
  budget: { read: (text) => readNumber(text, MOST_BUDGET), given: (value) => ({ budget: value }) },
  log: { read: (text) => readNumber(text, MOST_LOG), given: (value) => ({ log: value, emptied: 0 }) },
};

export function buildSetup(app) {
  for (const [id, { read, given }] of Object.entries(FIELDS)) {
    byId(id).addEventListener("change", (e) => {
      const { value, problem } = read(e.target.value, app.session);
      complain(e.target, problem ?? null);
      if (!problem) app.give(given(value));
    });
  }
  byId("forget").addEventListener("click", ifUsable(() => app.give({ writes: [] })));
  buildTheme();
}

/** The fields as the run is given them, but for one in which the viewer writes or which is not right. */
export function updateSetup({ session: { given, typed } }) {
  const texts = { readings: numbersText(given.readings, typed.scalesFrom()), budget: given.budget, log: given.log };
  for (const [id, text] of Object.entries(texts)) fill(byId(id), text);
  setUsable(byId("forget"), given.writes.length > 0);
}

function buildTheme() {
  const button = byId("theme");
  const root = document.documentElement;
  const system = () => (matchMedia("(prefers-color-scheme: dark)").matches ? "dark" : "light");
  const isDark = () => (root.dataset.theme ?? system()) === "dark";
  const name = () => {
    button.textContent = isDark() ? "Light" : "Dark";
    button.setAttribute("aria-label", `Switch to ${isDark() ? "light" : "dark"} colours`);
  };
  button.addEventListener("click", () => {
    root.dataset.theme = isDark() ? "light" : "dark";
    name();
  });
  name();
}
