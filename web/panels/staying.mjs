// What stays in the window while the page scrolls. It must not cover an element that gets the focus, and the routine stays below
// it.
import { byId } from "./dom.mjs";

const STAYING = ["controls", "panel-now"];
const SIDES = { sticky: "top", fixed: "bottom" }; // by an element's position
const GAP = 8;

function keepClear() {
  const covered = { top: GAP, bottom: GAP };
  for (const element of STAYING.map(byId)) {
    const side = SIDES[getComputedStyle(element).position];
    if (side) covered[side] += element.offsetHeight;
  }
  const { style } = document.documentElement;
  style.scrollPaddingTop = `${covered.top}px`;
  style.setProperty("--covered", `${covered.top}px`);
  style.scrollPaddingBottom = `${covered.bottom}px`;
}

export function buildStaying() {
  const watch = new ResizeObserver(keepClear);
  for (const id of STAYING) watch.observe(byId(id));
  addEventListener("resize", keepClear);
}
