// The binding against include/hemdroas.h: every number and every struct of web/library/header.mjs, asked of a C compiler.
import assert from "node:assert/strict";
import { execFileSync } from "node:child_process";
import { readFileSync, readdirSync } from "node:fs";
import { join } from "node:path";
import { test } from "node:test";
import { COUNTS, ENDING, NO_CEILING, REFUSALS, STATUS, STRUCTS, answerText, offsetOf, sizeOf } from "../../web/library/header.mjs";
import { ROOT, WASM, folder, write } from "./command.mjs";

const NUMBER_BYTES = 4;

/** The values of C expressions under the header: numbers, or texts with %s. */
function askHeader(expressions, form = "%ld") {
  const cast = form === "%s" ? "" : "(long)";
  const lines = expressions.map((expression) => `printf("${form}\\n", ${cast}(${expression}));`);
  const source = write("ask.c", `#include "hemdroas.h"\n#include <stdio.h>\n#include <stddef.h>\nint main(void) {${lines.join("\n")} return 0; }\n`);
  const program = join(folder, "ask");
  execFileSync("gcc", ["-I", join(ROOT, "include"), source, "-o", program]);
  const answers = execFileSync(program, { encoding: "utf8" }).trimEnd().split("\n");
  return form === "%s" ? answers : answers.map(Number);
}

function asInHeader(prefix, constants) {
  const names = Object.keys(constants).map((name) => `HEMDROAS_${prefix}${name}`);
  assert.deepEqual(Object.values(constants), askHeader(names));
}

test("counts, endings and statuses are the header's", () => {
  asInHeader("", COUNTS);
  asInHeader("ENDING_", ENDING);
  asInHeader("STATUS_", STATUS);
  assert.deepEqual([NO_CEILING], askHeader(["((uint32_t[])HEMDROAS_NO_CEILINGS)[0]"]));
});

test("refusals and endings have the header's words", () => {
  const numbers = [...Object.keys(REFUSALS), ...Object.values(ENDING)];
  const words = askHeader(numbers.map((number) => `hemdroas_ending_text(${number})`), "%s");
  assert.deepEqual(numbers.map((number) => answerText(number)), words.map((word, i) => `${word} (${numbers[i]})`));
});

for (const [struct, fields] of Object.entries(STRUCTS)) {
  test(`struct hemdroas_${struct} has the header's size and offsets`, () => {
    const type = `struct hemdroas_${struct}`;
    const names = Object.keys(fields);
    const [size, ...offsets] = askHeader([`sizeof(${type})`, ...names.map((name) => `offsetof(${type}, ${name})`)]);
    assert.equal(sizeOf(struct) * NUMBER_BYTES, size);
    assert.deepEqual(names.map((name) => offsetOf(struct, name) * NUMBER_BYTES), offsets);
  });
}

test("the module has every function that the binding calls, and imports none", async () => {
  const module = await WebAssembly.compile(readFileSync(WASM));
  const names = WebAssembly.Module.exports(module).map(({ name }) => name);
  const binding = readFileSync(join(ROOT, "web/library/binding.mjs"), "utf8");
  const called = [...binding.matchAll(/#call\("(\w+)"/g)].map(([, name]) => `hemdroas_${name}`);
  assert.ok(called.length > 0);
  assert.deepEqual(called.filter((name) => !names.includes(name)), []);
  assert.deepEqual(WebAssembly.Module.imports(module), []);
});

test("64-bit numbers are in the binding and nowhere else", () => {
  const isOther = (file) => file.endsWith(".mjs") && file !== join("library", "binding.mjs");
  const files = readdirSync(join(ROOT, "web"), { recursive: true }).filter(isOther);
  assert.ok(files.length > 0);
  const isBig = (file) => /BigInt|BigUint|\b\d+n\b/.test(readFileSync(join(ROOT, "web", file), "utf8"));
  assert.deepEqual(files.filter(isBig), []);
});
