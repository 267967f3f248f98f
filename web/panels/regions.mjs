// The regions of a memory: their names, what they are for, and which cells they have.

export const REGIONS = {
  sandbox: { title: "Sandbox", use: "the routine’s own" },
  state: { title: "State cell", use: "the policy’s present state" },
  table: { title: "Table", use: "the policy’s arrows" },
  landings: { title: "Landings", use: "where a jump through a register may go" },
  free: { title: "Free", use: "the drum’s own, such as a purge timer" },
};

export const regionWord = (region) => REGIONS[region].title.toLowerCase();

/** The cells of a region as text: ranges, with commas between them. */
export function rangesOf(regions, name) {
  const ranges = [];
  regions.forEach((region, cell) => {
    if (region !== name) return;
    const last = ranges.at(-1);
    if (last?.[1] === cell - 1) last[1] = cell;
    else ranges.push([cell, cell]);
  });
  return ranges.map(([first, last]) => (first === last ? String(first) : `${first}–${last}`)).join(", ") || "none";
}
