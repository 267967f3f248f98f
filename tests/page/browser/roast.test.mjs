// Opens the page of each example from a disk and drives it by keys and clicks through a whole roast. What it shows is compared
// with what the command prints.
import assert from "node:assert/strict";
import { readFileSync } from "node:fs";
import { after, before, test } from "node:test";
import { join } from "node:path";
import { EXAMPLES, dataOf, folder, hemdroas, makePage, objects, readingsOption } from "../command.mjs";
import { browserName, openBrowser } from "./chromium.mjs";
import { commands, lastStep, record, see, text } from "./seen.mjs";

const DESKTOP = { width: 1280, height: 900 };
const MOST_BYTES = 120_000; // of a page without its data

let browser;
before(async () => (browser = await openBrowser(browserName())));
after(() => browser.close());

/** What hemdroas step says of each step: only what changed. */
function changesOf(steps) {
  let old = Array(15).fill(0);
  return steps.map(({ line, registers, cells, pair, state }) => {
    const changed = registers.flatMap((value, r) => (value === old[r] ? [] : [[r, old[r], value]]));
    old = registers;
    return { line, registers: changed, cells: cells.map(({ cell, from, to }) => [cell, from, to]), pair: pair && [pair.event, pair.shown], state };
  });
}

for (const example of EXAMPLES) {
  test(`${example.name}: a whole roast by clicks and keys, forwards and back, as hemdroas step has it`, async () => {
    const page = await browser.page(makePage(example), DESKTOP);
    const steps = objects("step", ...example.files, ...readingsOption(example, example.readings), "--all").filter(({ type }) => type === "step");
    const seen = [];
    const move = (i, key, button) => (i % 2 ? page.key(key) : page.click(button));
    for (let i = 0; i < steps.length; i++) {
      await move(i, "ArrowRight", "#do-step");
      seen.push(await see(page, lastStep));
    }
    assert.deepEqual(seen, changesOf(steps).map((step) => ({ ...step, line: step.line ?? 0 })));
    assert.ok(await page.run("document.getElementById('do-step').getAttribute('aria-disabled') === 'true'"));
    for (let i = steps.length - 2; i >= 0; i--) {
      await move(i, "ArrowLeft", "#do-back");
      assert.deepEqual(await see(page, lastStep), seen[i]);
    }
    await page.close();
  });

  test(`${example.name}: record, ending and counts as hemdroas run has them`, async () => {
    const page = await browser.page(makePage(example), DESKTOP);
    await page.click("#do-end");
    const all = objects("run", ...example.files, ...readingsOption(example, example.readings));
    const end = all.at(-1);
    assert.deepEqual(await see(page, record), all.filter(({ type }) => type === "pair").map(({ event, shown }) => [event, shown]));
    const sum = await see(page, text, "#pause .sum");
    assert.ok(sum.startsWith(`${end.word} (${end.ending}): ${end.steps} command`), sum);
    assert.match(sum, new RegExp(`${end.pairs} pairs?, ${end.readings} readings? used`));
    await page.close();
  });

  test(`${example.name}: the commands as hemdroas list has them`, async () => {
    const page = await browser.page(makePage(example), DESKTOP);
    await page.click(".switch .track");
    const bytes = join(folder, "routine.bytes");
    const [routine, , drum] = example.files;
    hemdroas("assemble", routine, "--drum", drum, "-o", bytes);
    const listed = [...hemdroas("list", bytes, "--drum", drum, "--bundles").out.matchAll(/^ *# +(\d+) {2}(.*)$/gm)].map(([, at, said]) => `${at} ${said}`);
    const shown = await see(page, commands);
    assert.ok(shown.length > 0);
    assert.deepEqual(shown, listed.slice(0, shown.length));
    await page.close();
  });

  test(`${example.name}: the page is under 120 KB without its data`, () => {
    const file = makePage(example);
    assert.ok(readFileSync(file).length - Buffer.byteLength(dataOf(file)) < MOST_BYTES);
  });
}

test("no error in the console, no request to anything", () => assert.deepEqual(browser.complaints(), []));
