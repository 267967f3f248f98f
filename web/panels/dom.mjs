// Elements of the page, and sentences at fields.

const SVG = "http://www.w3.org/2000/svg";

function make(element, attributes, children) {
  for (const [key, value] of Object.entries(attributes)) {
    if (value === null || value === undefined || value === false) continue;
    if (key.startsWith("on")) element.addEventListener(key.slice(2), value);
    else element.setAttribute(key, value === true ? "" : value);
  }
  element.append(...children.flat(Infinity).filter((child) => child !== null && child !== undefined && child !== false));
  return element;
}

export const h = (name, attributes = {}, ...children) => make(document.createElement(name), attributes, children);
export const svg = (name, attributes = {}, ...children) => make(document.createElementNS(SVG, name), attributes, children);
export const byId = (id) => document.getElementById(id);

/** Text that only a screen reader says. */
export const spoken = (text) => h("span", { class: "spoken" }, text);

/** A sign that a screen reader does not say. */
export const sign = (text) => h("span", { "aria-hidden": "true" }, text);

/** The head of a table. `isNumbers` is asked for each column, by its place. */
export function tableHead(titles, isNumbers = () => false) {
  const head = (title, i) => h("th", { scope: "col", class: isNumbers(i) ? "num" : null }, title);
  return h("thead", {}, h("tr", {}, titles.map(head)));
}

/** For a table whose first column names the numbers of the others. */
export const behindFirst = (i) => i > 0;

export const tick = (ok) => [sign(ok ? "✓" : "✕"), spoken(ok ? "the same" : "different")];

/** Says at a field what is wrong with it, or, with null, that nothing is. */
export function complain(input, problem) {
  const id = `${input.id}-problem`;
  const said = byId(id) ?? h("p", { id, class: "problem", role: "alert" });
  input.setAttribute("aria-invalid", problem ? "true" : "false");
  if (!problem) {
    input.removeAttribute("aria-describedby");
    said.remove();
    return;
  }
  input.setAttribute("aria-describedby", id);
  said.textContent = problem;
  input.closest("label, .field").after(said);
}

/** Shows in a field what holds, unless the viewer writes in it or what was written is not right. */
export function fill(field, text) {
  if (field !== document.activeElement && field.getAttribute("aria-invalid") !== "true") field.value = text;
}

/** Whether a screen reader says what changes in a region: only what the viewer just asked for, in these controls. */
export function speakIfAsked(region, controls) {
  region.setAttribute("aria-live", controls.contains(document.activeElement) ? "polite" : "off");
}

/** A button that is of no use now keeps the focus, so it is not disabled: it says so, and does nothing. */
export const setUsable = (button, isUsable) => button.setAttribute("aria-disabled", String(!isUsable));
export const ifUsable = (act) => (pressed) => pressed.currentTarget.getAttribute("aria-disabled") !== "true" && act(pressed);

const THIRD = 1 / 3; // of a box: where what is shown comes to stand

/** Scrolls a box so that what is shown in it can be seen; the page itself stays. */
export function reveal(box, shown, margin) {
  const top = shown.getBoundingClientRect().top - box.getBoundingClientRect().top;
  const bottom = top + Math.min(shown.clientHeight || margin, margin);
  if (top < 0 || bottom > box.clientHeight) box.scrollTop += top - box.clientHeight * THIRD;
}
