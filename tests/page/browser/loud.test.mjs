// Were the library ever wrong, the page says so above all else: it is opened with a library that was spoilt on its way in.
import assert from "node:assert/strict";
import { readFileSync, writeFileSync } from "node:fs";
import { after, before, test } from "node:test";
import { ROAST, makePage } from "../command.mjs";
import { browserName, openBrowser } from "./chromium.mjs";
import { see, text } from "./seen.mjs";

const DESKTOP = { width: 1280, height: 900 };

let browser;
before(async () => (browser = await openBrowser(browserName())));
after(() => browser.close());

/** A page whose library does something more after a call: `code` sees the call's arguments and the memory's numbers. */
function spoiltPage(name, call, code) {
  const hook = `<script>{ const real = WebAssembly.instantiate; WebAssembly.instantiate = async (...given) => {
    const { instance } = await real(...given); const exports = { ...instance.exports };
    exports.${call} = (...args) => { instance.exports.${call}(...args); const numbers = new Uint32Array(exports.memory.buffer); ${code} };
    return { instance: { exports } }; }; }</script>`;
  const file = makePage({ ...ROAST, name });
  writeFileSync(file, readFileSync(file, "utf8").replace("<header>", `${hook}<header>`));
  return file;
}

/** Where a call's pointers stand among its arguments, as in the header. */
const ENGINE_RECORD = 3;
const MACHINE_RECORD = 3;
const MEMORY = 4;

for (const [what, call, code, sentence] of [
  ["an engine that adds one", "hemdroas_engine_run", `numbers[args[${ENGINE_RECORD}] / 4 + 3] += 1;`, /Engine and machine do not agree, from command \d+ on/],
  ["a machine that sees the purge timer", "hemdroas_run", `numbers[args[${MACHINE_RECORD}] / 4 + 9] = numbers[args[${MEMORY}] / 4 + 8];`, /The routine saw the free cells, from command \d+ on/],
  ["a machine that writes a free cell", "hemdroas_run", `numbers[args[${MEMORY}] / 4 + 600] = 1;`, /A free cell was changed, from command \d+ on/],
  ["a machine that writes the policy's table", "hemdroas_run", `numbers[args[${MEMORY}] / 4 + 519] = 1;`, /The policy’s table or a landing was changed, from command \d+ on/],
]) {
  test(`${what} is told loudly`, async () => {
    const page = await browser.page(spoiltPage(call, call, code), DESKTOP);
    assert.equal(await page.run("document.getElementById('loud').hidden"), false);
    assert.match(await see(page, text, "#loud"), sentence);
    assert.match(await see(page, text, "#loud"), /^This should never happen\./);
    await page.close();
  });
}

test("a cell is written, and what the run sees of it later is told at once", async () => {
  const late = `if (numbers[args[${MACHINE_RECORD}] / 4 + 16] > 4150) numbers[args[${MACHINE_RECORD}] / 4 + 9] = numbers[args[${MEMORY}] / 4 + 8];`;
  const page = await browser.page(spoiltPage("late", "hemdroas_run", late), DESKTOP);
  await page.type("#free-8", "77");
  await page.until("document.getElementById('said').textContent !== ''");
  assert.equal(await see(page, text, "#said"), "Cell 8 is now 77. The run was done again from here: a difference.");
  await page.close();
});

test("a library that breaks off in the midst is told of, and stays told", async () => {
  const file = spoiltPage("broken", "hemdroas_run", "if (globalThis.isBroken) throw new Error('unreachable');");
  for (const act of ["document.getElementById('do-step').click()", "document.querySelector('#named form').requestSubmit()"]) {
    const page = await browser.page(file, DESKTOP);
    await page.run(`globalThis.isBroken = true; ${act}`);
    await page.until("!document.getElementById('loud').hidden");
    assert.match(await see(page, text, "#loud"), /^The page cannot go on\. unreachable$/);
    await page.run("globalThis.isBroken = false; document.getElementById('do-step').click()");
    assert.equal(await page.run("document.getElementById('loud').hidden"), false);
    await page.close();
  }
});

test("a request to a file beside the page would be noticed", async () => {
  const file = makePage({ ...ROAST, name: "asking" });
  const asking = readFileSync(file, "utf8").replace(/<meta http-equiv="Content-Security-Policy"[^>]*>/, '<link rel="stylesheet" href="beside.css">');
  writeFileSync(file, asking);
  const page = await browser.page(file, DESKTOP);
  assert.ok(browser.complaints().some((said) => said.endsWith("/beside.css")), `${browser.complaints()}`);
  await page.close();
});

test("a browser in which WebAssembly is switched off is told of, and the library is not blamed", async () => {
  const page = await browser.page(makePage(ROAST), DESKTOP);
  await page.call("Page.addScriptToEvaluateOnNewDocument", { source: "delete globalThis.WebAssembly" });
  await page.call("Page.reload");
  await page.until("document.getElementById('loud')?.hidden === false");
  assert.match(await see(page, text, "#loud"), /This browser has no WebAssembly, or it is switched off\./);
  await page.close();
});

test("a damaged library is told of", async () => {
  const file = makePage({ ...ROAST, name: "damaged" });
  const spoil = (_, head, packed) => `${head}${packed.slice(0, 400)}AAAA${packed.slice(404)}`;
  writeFileSync(file, readFileSync(file, "utf8").replace(/(<script id="wasm"[^>]*>)([^<]*)/, spoil));
  const page = await browser.page(file, DESKTOP);
  assert.match(await see(page, text, "#loud"), /The library in this file is damaged\./);
  await page.close();
});
