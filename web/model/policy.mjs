// A policy as it is drawn: the states that can be reached, and for each state its events, grouped by the state they lead to.
import { stateName } from "./names.mjs";

/** The states that events lead to from the start, as first met. */
function reached(start, arrows) {
  const met = [start];
  for (const state of met) for (const to of arrows[state]) if (to !== null && !met.includes(to)) met.push(to);
  return met;
}

/** The events of a state, grouped by the state they lead to; null means no arrow. */
function byTarget(row) {
  const groups = new Map();
  row.forEach((to, event) => groups.set(to, [...(groups.get(to) ?? []), event]));
  return groups;
}

/** A state's groups with their words: the largest group that has a nameless event is 'all others'. */
function groupsOf(page, row) {
  const groups = byTarget(row);
  const isNameless = ([, events]) => events.some((event) => !page.events[event]);
  const nameless = [...groups].filter(isNameless).sort((a, b) => b[1].length - a[1].length)[0];
  const others = groups.size === 1 ? "every event" : "all others";
  const words = (to, events) => (nameless && nameless[0] === to ? [others] : events.map((event) => page.events[event] ?? String(event)));
  return [...groups].map(([to, events]) => ({ to, events, words: words(to, events) }));
}

export function policyModel(page, facts) {
  const order = reached(page.policy.start, facts.arrows);
  return {
    order,
    row: new Map(order.map((state, row) => [state, row])),
    groups: new Map(order.map((state) => [state, groupsOf(page, facts.arrows[state])])),
    name: (state) => stateName(page, state),
    start: page.policy.start,
    leftOut: facts.arrows.length - order.length,
  };
}

/** Words joined by commas into lines of at most so many characters. */
export function wrap(words, width) {
  const lines = [""];
  words.forEach((word, i) => {
    const text = word + (i < words.length - 1 ? "," : "");
    const last = lines.at(-1);
    if (last && `${last} ${text}`.length > width) lines.push(text);
    else lines[lines.length - 1] = last ? `${last} ${text}` : text;
  });
  return lines;
}

export const clipped = (text, most) => (text.length > most ? `${text.slice(0, most - 1)}…` : text);

/** The same, but what is left out is the middle. */
export function clippedMiddle(text, most) {
  if (text.length <= most) return text;
  const head = Math.ceil((most - 1) / 2);
  return `${text.slice(0, head)}…${text.slice(text.length - (most - 1 - head))}`;
}
