// The mark of each event in table, plot and legend. Orders are filled shapes; the first reading is a filled circle, the others
// are hollow: so no event is told from another by its colour alone.
import { COUNTS } from "../library/header.mjs";
import { svg } from "./dom.mjs";

const BOX = 8;

/** Around the point 0 0. */
const SHAPES = [
  "M-4.5 0a4.5 4.5 0 1 0 9 0a4.5 4.5 0 1 0 -9 0z",
  "M-4.5 -4.5h9v9h-9z",
  "M0 -5.5l5.5 9.5h-11z",
  "M0 -6l6 6-6 6-6-6z",
  "M0 5.5l5.5-9.5h-11z",
  "M-2 -6h4v4h4v4h-4v4h-4v-4h-4v-4h4z",
  "M-6 -3h12v6h-12z",
  "M-3 -6h6v12h-6z",
  "M-5.5 -5.5h11l-11 11h11z",
];
const FIRST_ORDER_SHAPE = 1; // the circle is a reading's

export const kindClass = (facts, event) => (facts.isReading[event] ? "reading" : "order");

export function mark(facts, event, x = 0, y = 0) {
  const isReading = facts.isReading[event];
  const nth = event % COUNTS.ORDERS;
  const d = SHAPES[isReading ? nth : FIRST_ORDER_SHAPE + nth];
  const hollow = isReading && nth > 0 ? "hollow" : "";
  return svg("path", { class: `mark ${kindClass(facts, event)} ${hollow}`, d, transform: `translate(${x} ${y})` });
}

export const swatch = (facts, event) =>
  svg("svg", { viewBox: `${-BOX} ${-BOX} ${2 * BOX} ${2 * BOX}`, class: "swatch", "aria-hidden": "true" }, mark(facts, event));
