// The record's table and plot: long records, far ceilings, numbers below 0, eight orders, long names.
import assert from "node:assert/strict";
import { after, before, test } from "node:test";
import { PROFILES, ROAST, makePage, write } from "../command.mjs";
import { browserName, openBrowser } from "./chromium.mjs";
import { lookAtForm } from "./form.mjs";
import { see } from "./seen.mjs";

const DESKTOP = { width: 1280, height: 900 };
const PHONE = { width: 390, height: 844, isPhone: true };
const FREE_POLICY = write("any.policy", "state any\n  others -> any\nstart any\n");
const [, , ROAST_DRUM] = ROAST.files;

let browser;
before(async () => (browser = await openBrowser(browserName())));
after(async () => {
  const complaints = browser.complaints();
  await browser.close();
  assert.deepEqual(complaints, []);
});

/** The page of a routine under a policy that allows all, at its end. */
async function atEnd(name, routine, { drum = ROAST_DRUM, more = [], readings = [], size = DESKTOP } = {}) {
  const files = [write(`${name}.routine`, routine), "--drum", drum, "--policy", FREE_POLICY];
  const page = await browser.page(makePage({ name, files, readings }, more), size);
  await page.key("End");
  await page.settle();
  return page;
}

const texts = (page) => page.run("[...document.querySelectorAll('#plot text')].map((t) => t.firstChild.data)");
const GOOD_FORM = { low: [], cut: [], small: [], isWide: false, hasTexts: true };

const MANY = "again: ADD r0, r0, r1\nEVENT gas\nEVENT bean\nGOIF r0, r0, always, again\nSET r1, 1\n";

test("a long record: a line without marks but the fresh one, ceilings on top, no number over another", async () => {
  for (const size of [DESKTOP, PHONE]) {
    const page = await atEnd("many", MANY, { more: ["--budget", "10000", "--log", "4096"], readings: Array(1000).fill(1500), size });
    assert.ok((await page.run("document.querySelectorAll('#pairs tr').length")) > 1000);
    assert.ok((await page.run("document.querySelectorAll('#plot g .mark').length")) <= 1);
    assert.equal(await page.run("(() => { const all = [...document.querySelectorAll('#plot .line, #plot .ceiling-text')]; return all.at(-1).matches('.ceiling-text'); })()"), true);
    assert.deepEqual(await see(page, lookAtForm, page.size.width), GOOD_FORM, String(size.width));
    await page.close();
  }
});

test("the head of the table stays while its rows scroll; the heads of other tables cover nothing", async () => {
  for (const size of [DESKTOP, PHONE]) {
    const page = await atEnd("many", MANY, { more: ["--budget", "1000", "--log", "4096"], readings: Array(100).fill(1500), size });
    const seen = await page.run(`(() => { const box = document.querySelector("#panel-record .scroll"); box.scrollIntoView({ block: "center" });
      const head = box.querySelector("th").getBoundingClientRect(); const { top } = box.getBoundingClientRect();
      return { isScrolled: box.scrollTop > 200, isThere: Math.abs(head.top - top) <= 1 }; })()`);
    assert.deepEqual(seen, { isScrolled: true, isThere: true }, String(size.width));
    const staying = "[...document.querySelectorAll('th')].filter((head) => getComputedStyle(head).position === 'sticky' && !head.closest('.scroll')).length";
    assert.equal(await page.run(staying), 0);
    await page.close();
  }
});

test("a short record has a mark for each pair", async () => {
  const page = await atEnd("few", "SET r0, 60\nEVENT gas\nEVENT bean\nEVENT gas\n", { readings: [55] });
  assert.equal(await page.run("document.querySelectorAll('#plot g .mark').length"), 3);
  await page.close();
});

test("a ceiling far above the orders is drawn at the top edge, with its number", async () => {
  const page = await atEnd("low", "SET r0, 20\nEVENT gas\nEVENT gas\n");
  assert.ok((await texts(page)).includes("ceiling 100: gas"));
  assert.equal(await page.run("document.querySelectorAll('#plot > svg .ceiling').length"), 1);
  assert.deepEqual(await see(page, lookAtForm, page.size.width), GOOD_FORM);
  await page.close();
});

test("readings below 0 are drawn below 0, as the table shows them", async () => {
  const page = await browser.page(makePage({ ...PROFILES, readings: PROFILES.readings.map((reading, i) => (i < 2 ? -500 : reading)) }), DESKTOP);
  await page.key("End");
  assert.match(await page.run("document.getElementById('pairs').textContent"), /−50\.0/);
  const numbers = (await texts(page)).filter((text) => /^−?\d+$/.test(text)).map((text) => Number(text.replace("−", "-")));
  assert.ok(numbers.some((number) => number < 0) && numbers.every((number) => number < 1000), `${numbers}`);
  await page.close();
});

test("signed numbers are drawn as signed ones, and the longest numbers of an axis are not cut", async () => {
  const page = await atEnd("minus", "EVENT bean\nEVENT bean\n", { readings: [4294967295, 5] });
  const isIn = "(() => { const edge = document.querySelector('#plot > svg').getBoundingClientRect(); return [...document.querySelectorAll('#plot text')].every((t) => t.getBoundingClientRect().left >= edge.left); })()";
  assert.ok((await texts(page)).includes("4000000000"));
  assert.equal(await page.run(isIn), true);
  await page.run("document.querySelector('[value=signed]').click()");
  const signed = await texts(page);
  assert.ok(signed.includes("−2") && signed.includes("4") && !signed.some((text) => text.length > 4 && /^\d+$/.test(text)), `${signed}`);
  await page.close();
});

const LONG_NAME = "afterburner-temperature-setpoint";
const orders = Array.from({ length: 8 }, (_, event) => `EVENT ${event}\n`).join("");

test("all eight orders have shapes of their own", async () => {
  const page = await atEnd("eight", orders);
  const shapes = await page.run("[...document.querySelectorAll('.legend li .mark')].map((mark) => mark.getAttribute('d'))");
  assert.equal(shapes.length, 8);
  assert.equal(new Set(shapes).size, 8);
  await page.close();
});

test("the values of the record are never cut, however long an event's name is", async () => {
  const drum = write("long.drum", `U 1024\nSL 256\nSH 511\nM 0\nP 512\nB 4096\nQ 32\nlandings routine\nevent 5 ${LONG_NAME}\nevent 8 bean\n`);
  for (const size of [DESKTOP, { ...DESKTOP, width: 1024 }, PHONE]) {
    const page = await atEnd("long", `SET r0, 4000000000\nEVENT ${LONG_NAME}\n`, { drum, size });
    const seen = await page.run(`(() => { const box = document.querySelector("#panel-record .scroll").getBoundingClientRect();
      const value = document.querySelector("#pairs td.num"); const range = document.createRange(); range.selectNodeContents(value);
      const text = range.getBoundingClientRect(); return { isIn: text.right <= box.right && text.left >= box.left, lines: range.getClientRects().length, said: value.textContent }; })()`);
    assert.deepEqual(seen, { isIn: true, lines: 1, said: "4000000000" }, String(size.width));
    await page.close();
  }
});
