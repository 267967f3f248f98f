// What drawings share: arrowheads, and where text stands.
import { svg } from "./dom.mjs";

/** From the middle of a line of text down to its baseline. */
export const BASELINE = 4;

export const headDown = (x, y) => svg("path", { class: "head", d: `M${x} ${y - 1}l-5-9h10z` });
export const headRight = (x, y) => svg("path", { class: "head", d: `M${x} ${y}l-9-5v10z` });
