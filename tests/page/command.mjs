// The command `hemdroas` for the tests, its examples, and what it says of them.
import { execFileSync } from "node:child_process";
import { mkdtempSync, readFileSync, rmSync, writeFileSync } from "node:fs";
import { tmpdir } from "node:os";
import { join, resolve } from "node:path";

export const ROOT = resolve(import.meta.dirname, "../..");
export const WASM = join(ROOT, "target/portable/wasm32-unknown-unknown/hemdroas.wasm");
const COMMAND = process.env.HEMDROAS ?? join(ROOT, "target/rust/release/hemdroas");

/** Runs the command: its status and what it said. */
export function hemdroas(...args) {
  try {
    return { status: 0, out: execFileSync(COMMAND, args, { encoding: "utf8", stdio: "pipe" }), said: "" };
  } catch (error) {
    if (error.status === undefined || error.status === null) throw error;
    return { status: error.status, out: error.stdout, said: error.stderr };
  }
}

/** The objects that --json prints, one a line. */
export const objects = (...args) => hemdroas(...args, "--json").out.split("\n").filter(Boolean).map((line) => JSON.parse(line));

const example = (name, { drum = name, policy = drum } = {}) => ({
  name,
  files: [join(ROOT, "examples", `${name}.routine`), "--drum", join(ROOT, "examples", `${drum}.drum`), "--policy", join(ROOT, "examples", `${policy}.policy`)],
});

const PROFILE = [1900, 1900, 1900, 1900, 1100, 1100, 1100, 1105, 1700, 1700, 1700, 1700, 2100, 2100, 2100, 2100];

/** The three examples and the stranger's routine: readings as the drum has them, and their scale for a person. */
export const ROAST = { ...example("roast"), readings: [1500, 1960, 2100], scale: 1 };
export const SAMPLE = { ...example("sample"), readings: [1800, 1950, 2100], scale: 1 };
export const PROFILES = { ...example("profile"), readings: PROFILE, scale: 10 };
export const CURIOUS = { ...example("curious", { drum: "roast" }), readings: [1500, 4100], scale: 1 };
export const EXAMPLES = [ROAST, SAMPLE, PROFILES, CURIOUS];

/** The option --readings, as a person writes it. */
export const readingsOption = ({ scale }, readings) => ["--readings", readings.map((reading) => reading / scale).join()];

export const folder = mkdtempSync(join(tmpdir(), "hemdroas-page-"));
process.on("exit", () => rmSync(folder, { recursive: true, force: true }));

export function write(name, text) {
  writeFileSync(join(folder, name), text);
  return join(folder, name);
}

/** Writes a page and gives its file. */
export function makePage({ name, files, readings = [], scale = 1 }, more = []) {
  const file = join(folder, `${name}.html`);
  const made = hemdroas("page", ...files, ...readingsOption({ scale }, readings), ...more, "-o", file);
  if (made.status !== 0) throw new Error(`hemdroas page: ${made.said}`);
  return file;
}

/** What a page was handed in. */
export function dataOf(file) {
  const [, text] = readFileSync(file, "utf8").match(/<script id="data"[^>]*>(.*?)<\/script>/s);
  return text;
}
