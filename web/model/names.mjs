// How the page calls things: events, states, lines and labels, as the drum's, the policy's and the routine's files name them.
import { commandText, wordAt } from "../library/words.mjs";

export const eventName = (page, event) => page.events[event] ?? `event ${event}`;
const eventWord = (page, event) => page.events[event] ?? String(event);
export const stateName = (page, state) => page.policy.names[state] ?? `state ${state}`;
export const scaleOf = (page, event) => page.scales[event];
export const cellName = (page, cell) => page.free.find((named) => named.cell === cell)?.name ?? null;

export const labelOf = (page, instruction) => Object.keys(page.labels).find((label) => page.labels[label] === instruction);

/** The line of an instruction, from 1; null after the last. */
export const lineOf = (page, instruction) => page.lines[instruction] ?? null;

/** An instruction as its line has it, without label and comment; after the last it is HALT. */
export const instructionText = (page, instruction) => page.texts[instruction] ?? "HALT";

export function placeText(page, instruction) {
  const line = lineOf(page, instruction);
  return line === null ? "the HALT behind the last line" : `line ${line}`;
}

/** Where a jump leads: its label if it has one, and its line. */
export function targetText(page, instruction) {
  const label = labelOf(page, instruction);
  return label ? `${label} (${placeText(page, instruction)})` : placeText(page, instruction);
}

export const commandLine = (page, commands, place) => commandText(wordAt(commands, place), (event) => eventWord(page, event));
