// The arcs of jumps beside the listing: where each GOIF leads, and the jump that was just taken, lit.
import { countOf, kindName } from "../library/words.mjs";
import { byId, svg } from "./dom.mjs";

const WIDTH = 20;
const MIDDLE = 13; // of a row's first line
const OUTER = 13;
const LANE = 3.5;
const LANES = 3;
const START = 16;
const END = 14;
const CURVE = 4;

function path(from, to, x) {
  if (from === to) return `M${START} ${from - CURVE}H${x}V${from + CURVE}H${END}`;
  const bend = to > from ? CURVE : -CURVE;
  return `M${START} ${from}H${x + CURVE}Q${x} ${from} ${x} ${from + bend}V${to - bend}Q${x} ${to} ${x + CURVE} ${to}H${END}`;
}

const arrowHead = (at) => `M${END - 1} ${at - CURVE}l6 ${CURVE}-6 ${CURVE}z`;

/** From which row to which; a GOX has an arc only when it is taken. */
function arcs({ session, rows, lit }) {
  const { facts } = session;
  const instructions = Array.from({ length: countOf(facts.words) }, (_, i) => i);
  const arc = (from) => {
    const word = session.word(from);
    const isLit = lit?.from === from;
    if (kindName(word) !== "GOIF" && !isLit) return null;
    return { from: rows.get(from), to: rows.get(isLit ? lit.to : word.v), isLit };
  };
  return instructions.map(arc).filter((a) => a?.to);
}

export function drawJumps(app) {
  const middle = (row) => row.offsetTop + MIDDLE;
  const drawn = arcs(app).map(({ from, to, isLit }, lane) => {
    const x = OUTER - LANE * (lane % LANES);
    const lit = isLit ? "lit" : "";
    const d = path(middle(from), middle(to), x);
    return svg("g", { class: `jump ${lit}` }, svg("path", { d }), svg("path", { class: "head", d: arrowHead(middle(to)) }));
  });
  const box = byId("jumps");
  box.replaceChildren(...drawn.sort((a, b) => a.classList.contains("lit") - b.classList.contains("lit")));
  box.setAttribute("width", WIDTH);
  box.setAttribute("height", byId("listing").scrollHeight);
}
