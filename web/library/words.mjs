// Words as text, for show: where the fields of a word lie, and the names of kinds and conditions. What a word does is the
// library's business alone. A word is two numbers of 32 bits, the low one first.

const BITS = { kind: [0, 8], d: [8, 4], a: [12, 4], b: [16, 4], c: [20, 4] };

const KINDS = ["HALT", "SET", "MOVE", "ADD", "SUB", "AND", "OR", "SAR", "LOAD", "STORE", "GOIF", "GOX", "EVENT"];

/** Commands' names with the fields that their text has; e is an event. */
const COMMANDS = [
  "NOP", "HALT", "SET d v", "MOVE d a", "ADD d a b", "SUB d a b", "AND d a b", "OR d a b", "SAR d a v", "ANDI d a v",
  "ORI d a v", "SHL d a v", "LOAD d a", "STORE a b", "GOIF a b c v", "GOXR d a b c", "LOOK d e", "STOPIF d", "KEEP d",
  "EVENT e",
].map((row) => row.split(" "));

export const CONDITIONS = ["always", "equal", "below", "less"];

const mask = (count) => 2 ** count - 1;

/** The fields of the word at a place of a list. */
export function wordAt(words, place) {
  const [low, high] = words.subarray(2 * place, 2 * place + 2);
  const field = ([name, [from, count]]) => [name, (low >>> from) & mask(count)];
  return { ...Object.fromEntries(Object.entries(BITS).map(field)), v: high };
}

export const countOf = (words) => words.length / 2;

/** Two numbers of a word with these fields. */
export function wordOf({ v = 0, ...fields }) {
  const low = Object.entries(fields).reduce((sum, [name, value]) => sum + value * 2 ** BITS[name][0], 0);
  return [low, v];
}

export const kindOf = (name) => KINDS.indexOf(name);
export const kindName = (word) => KINDS[word.kind];
export const commandKind = (name) => COMMANDS.findIndex(([known]) => known === name);
export const commandName = (command) => COMMANDS[command.kind][0];
export const isJump = (word) => ["GOIF", "GOX"].includes(kindName(word));
export const isAccess = (word) => ["LOAD", "STORE"].includes(kindName(word));

/** A command as `hemdroas list --bundles` writes it. */
export function commandText(command, nameOf) {
  const [name, ...row] = COMMANDS[command.kind];
  const part = (field) => {
    if (field === "c") return CONDITIONS[command.c];
    if (field === "v") return String(command.v);
    return field === "e" ? nameOf(command.v) : `r${command[field]}`;
  };
  return row.length ? `${name} ${row.map(part).join(", ")}` : name;
}
