// What a viewer sees on the page, read from its elements. Each function is run in the browser, so it stands alone.

/** The last step: line, changed registers and cells, the recorded pair, the state. */
export function lastStep() {
  const number = (text) => parseInt(text.replace("−", "-"), 10);
  const was = (cell) => number(cell.querySelector("small").textContent.match(/was (\S+)/)[1]);
  const now = (cell) => number(cell.querySelector("dd").firstChild.data);
  const changed = (box) => [...document.querySelectorAll(`#${box} .cell.changed`)];
  const title = (cell) => number(cell.querySelector("dt").textContent.replace("r", ""));
  const row = (cell) => [title(cell), was(cell), now(cell)];
  const pair = document.querySelector("#pairs tr.changed");
  return {
    line: number(document.querySelector("#now .step-of").textContent.match(/\d+/)?.[0] ?? "0"),
    registers: changed("registers").map(row),
    cells: changed("sandbox").map(row),
    pair: pair ? [number(pair.dataset.event), pair.querySelector("td.num").textContent] : null,
    state: number(document.querySelector("#automaton .state.now").dataset.state),
  };
}

/** All pairs in the table: event and value. */
export const record = () =>
  [...document.querySelectorAll("#pairs tr")].map((row) => [Number(row.dataset.event), row.querySelector("td.num").textContent]);

/** The commands of the listing: address and text. */
export const commands = () =>
  [...document.querySelectorAll(".bundle li")].map((item) => `${item.querySelector(".address").textContent} ${item.querySelector("code").textContent}`);

export const text = (css) => document.querySelector(css).textContent;

/** Calls such a function in a page. */
export const see = (page, look, ...args) => page.run(`(${look})(${args.map((arg) => JSON.stringify(arg)).join()})`);
