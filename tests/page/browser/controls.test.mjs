// Every control of the page, by mouse and by key, on the roast.
import assert from "node:assert/strict";
import { after, before, beforeEach, afterEach, test } from "node:test";
import { CURIOUS, ROAST, SAMPLE, makePage, write } from "../command.mjs";
import { browserName, openBrowser } from "./chromium.mjs";
import { record, see, text } from "./seen.mjs";

const DESKTOP = { width: 1280, height: 900 };
const LAST = 28; // steps of the roast

let browser, page;
before(async () => (browser = await openBrowser(browserName())));
beforeEach(async () => (page = await browser.page(makePage(ROAST), DESKTOP)));
afterEach(() => page.close());
after(async () => {
  const complaints = browser.complaints();
  await browser.close();
  assert.deepEqual(complaints, []);
});

const at = () => page.run("Number(document.getElementById('slider').value)");
const said = (css) => see(page, text, css);
const nowLine = () => said(".line.now .number");
const isIdle = () => page.until("document.getElementById('bar').hidden");

test("keys: right, left, space, home, end, and right with shift", async () => {
  for (const [key, where] of [["End", LAST], ["ArrowLeft", LAST - 1], ["Home", 0], ["ArrowRight", 1]]) {
    await page.key(key);
    assert.equal(await at(), where, key);
  }
  await page.withShift("ArrowRight");
  assert.equal(await at(), 6);
  await page.key(" ");
  await page.until("document.getElementById('do-play').textContent === 'Pause'");
  await page.until("Number(document.getElementById('slider').value) > 7");
  await page.key(" ");
  assert.equal(await said("#do-play"), "Run");
});

test("buttons: step, back, next event, end, reset", async () => {
  for (const [id, where] of [["step", 1], ["step", 2], ["back", 1], ["event", 6], ["end", LAST], ["reset", 0]]) {
    await page.click(`#do-${id}`);
    assert.equal(await at(), where, id);
  }
});

test("the slider moves over all steps, by key too", async () => {
  await page.run("document.getElementById('slider').focus()");
  await page.key("ArrowRight");
  await page.key("ArrowRight");
  assert.equal(await at(), 2);
  await page.key("End");
  assert.equal(await at(), LAST);
});

test("a line is run to by a click, and one that is not reached says so", async () => {
  await page.click("[data-index='11'] button.text");
  assert.equal(await nowLine(), "15");
  await page.click("[data-index='0'] button.text");
  assert.match(await said("#now"), /From here on, line 3 is not reached\./);
});

test("the present line is in the window at every step, from the page's top and beside the policy, and covers no other panel", async () => {
  const isSeen = `(() => { const { top, bottom } = document.querySelector(".line.now").getBoundingClientRect();
    return top >= document.getElementById("controls").getBoundingClientRect().bottom - 1 && bottom <= innerHeight; })()`;
  for (const size of [{ width: 1280, height: 720 }, { width: 900, height: 720 }]) {
    await page.close();
    page = await browser.page(makePage(ROAST), size);
    for (let i = 0; i < LAST; i++) {
      await page.key("ArrowRight");
      assert.equal(await page.run(isSeen), true, `${size.width}, step ${i + 1}`);
    }
  }
  await page.close();
  page = await browser.page(makePage(ROAST), { width: 1280, height: 720 });
  await page.key("End");
  await page.run("document.getElementById('panel-policy').scrollIntoView()");
  assert.equal(await page.run(isSeen), true);
  await page.run("document.getElementById('panel-memory').scrollIntoView()");
  assert.equal(await page.run("document.querySelector('.stays').getBoundingClientRect().bottom <= document.getElementById('panel-memory').getBoundingClientRect().top"), true);
});

test("a run stops at a breakpoint", async () => {
  await page.click("[data-index='5'] .stop");
  await page.click("#do-play");
  await page.until("document.getElementById('do-play').textContent === 'Run'");
  assert.equal(await nowLine(), "8");
});

test("a jump that is taken is drawn, with its reason", async () => {
  await page.click("[data-index='11'] button.text");
  await page.key("ArrowRight");
  assert.equal(await said("[data-index='11'] .why"), "1500 below 1950: yes, to heat");
  assert.equal(await page.run("document.querySelectorAll('#jumps .lit').length"), 1);
});

test("the switch shows the four commands of each instruction, and steps by command", async () => {
  await page.click(".switch .track");
  await page.key("ArrowRight");
  assert.equal(await said("#where"), "1 of 106 commands");
  assert.equal(await page.run("document.querySelectorAll('#registers .cell').length"), 16);
  assert.match(await said("#now .tell"), /r1 becomes 1950/);
});

test("numbers are signed, unsigned or hexadecimal", async () => {
  await page.key("ArrowRight");
  const r1 = () => page.run("document.querySelectorAll('#registers dd')[1].firstChild.data");
  assert.equal(await r1(), "1950");
  await page.click("#formats label:nth-of-type(3)");
  assert.equal(await r1(), "0x79E");
});

test("a silent probe asks for a reading, and goes on with it", async () => {
  await page.type("#readings", "1500");
  await isIdle();
  await page.click("#do-end");
  assert.match(await said("#pause"), /The probe is silent\. bean waits for a reading\./);
  await page.type("#next-reading", "hot");
  assert.match(await said("#next-reading-problem"), /“hot” is no number/);
  await page.type("#next-reading", "1960, 2100");
  await isIdle();
  await page.click("#do-end");
  assert.match(await said("#pause .sum"), /^ended \(20\): 106 commands/);
});

test("probes of several scales: readings are shown and typed in the unit of the probe that takes them", async () => {
  const drum = write("mixed.drum", "U 1024\nSL 256\nSH 511\nM 0\nP 512\nB 4096\nQ 32\nlandings routine\nevent 8 bean\nevent 9 exhaust\nscale bean 10\n");
  const policy = write("any.policy", "state any\n  others -> any\nstart any\n");
  const values = () => page.run("[...document.querySelectorAll('#pairs td.num')].map((value) => value.textContent)");
  await openRoutine("mixed", "again: EVENT bean\nEVENT exhaust\nGOIF always, again\n", { files: ["--drum", drum, "--policy", policy], readings: [196.5, 300] });
  assert.equal(await page.run("document.getElementById('readings').value"), "196.5, 300");
  await page.key("End");
  assert.equal(await page.run("document.getElementById('next-reading').placeholder"), "196.0");
  await page.type("#next-reading", "200.1 310");
  await isIdle();
  await page.run("document.activeElement.blur()");
  await page.key("End");
  assert.deepEqual(await values(), ["196.5", "300", "200.1", "310"]);
  await page.type("#readings", "150.5 250");
  await isIdle();
  await page.run("document.activeElement.blur()");
  await page.key("End");
  assert.deepEqual(await values(), ["150.5", "250"]);
});

test("readings are typed one after another, and the field keeps the focus", async () => {
  await page.type("#readings", "");
  await isIdle();
  await page.click("#do-end");
  for (const reading of ["1500", "1960", "2100"]) {
    await page.run("(() => { const e = document.querySelector('#next-reading'); e.focus(); e.select(); })()");
    await page.call("Input.insertText", { text: reading });
    await page.click("#pause button[type=button]");
    await isIdle();
  }
  assert.match(await said("#pause .sum"), /^ended \(20\): 106 commands/);
  assert.equal(await at(), LAST);
});

test("a full log is emptied, and a spent budget raised", async () => {
  await page.type("#log", "4");
  await isIdle();
  for (let pairs = 2; pairs < 9; pairs += 2) {
    await page.click("#do-end");
    assert.match(await said("#pause"), /The log is full/);
    assert.equal((await see(page, record)).length, pairs);
    await page.click("#pause button.main");
    await isIdle();
  }
  await page.click("#do-end");
  assert.match(await said("#pause .sum"), /^ended \(20\)/);
  await page.type("#log", "64");
  await page.type("#budget", "50");
  await isIdle();
  await page.click("#do-end");
  assert.match(await said("#pause"), /The budget is spent\. 50 commands done\./);
  await page.click("#pause button.main");
  await isIdle();
  await page.click("#do-end");
  assert.match(await said("#pause .sum"), /^ended \(20\)/);
});

test("a budget that was spent where the probe is silent: once it is raised, a reading is asked for", async () => {
  await openRoutine("silent", "EVENT bean\nHALT\n", { more: ["--budget", "2"] });
  await page.key("End");
  assert.match(await said("#pause"), /The budget is spent\. 2 commands done\./);
  await page.click("#pause button.main");
  await isIdle();
  await page.settle();
  assert.match(await said("#pause"), /The probe is silent\. bean waits for a reading\./);
  assert.equal(await page.run("document.activeElement.id"), "next-reading");
});

test("what is done at a pause by key keeps the focus on the page", async () => {
  const focus = () => page.run("document.activeElement.id");
  const press = async () => {
    await page.run("document.activeElement.blur()");
    await page.key("End");
    await page.run("document.querySelector('#pause button').focus()");
    await page.key("Enter", "\r");
    await isIdle();
    await page.settle();
    return focus();
  };
  await page.type("#log", "4");
  await isIdle();
  assert.equal(await press(), "do-step");
  await page.type("#log", "64");
  await page.type("#budget", "50");
  await isIdle();
  assert.equal(await press(), "do-step");
  await page.type("#readings", "1500");
  await isIdle();
  await page.run("document.activeElement.blur()");
  await page.key("End");
  await page.type("#next-reading", "1960");
  await isIdle();
  await page.settle();
  assert.equal(await focus(), "do-step");
});

test("a link leads past the routine's lines", async () => {
  await page.run("document.querySelector('#panel-routine .skip').focus()");
  await page.key("Enter", "\r");
  await page.key("Tab");
  assert.equal(await page.run("document.activeElement.closest('section').id"), "panel-registers");
});

test("bad input gets a sentence at its field", async () => {
  for (const [field, bad, sentence] of [
    ["readings", "warm", /“warm” is no number/],
    ["budget", "10001", /Write a number up to 10000/],
    ["log", "x", /“x” is no number/],
    ["pick", "5000", /up to 1023/],
    ["if", "4294967296", /more than 32 bits/],
  ]) {
    await page.type(`#${field}`, bad);
    assert.match(await said(`#${field}-problem`), sentence);
    const described = await page.run(`document.getElementById('${field}').getAttribute('aria-describedby')`);
    assert.equal(described, `${field}-problem`);
  }
});

test("a sentence at a field stays as long as what is wrong, and no longer", async () => {
  const state = (id) => page.run(`[document.getElementById("${id}").value, document.getElementById("${id}").getAttribute("aria-invalid"), document.getElementById("${id}-problem") !== null]`);
  await page.type("#free-8", "hot");
  await page.click("#do-step");
  assert.deepEqual(await state("free-8"), ["hot", "true", true]);
  await page.type("#free-8", "7");
  await isIdle();
  await page.click("#do-step");
  assert.deepEqual(await state("free-8"), ["7", "false", false]);
  await page.type("#pick", "5000");
  await page.run("document.activeElement.blur()");
  await page.click("#map");
  const [cell, ...said] = await state("pick");
  assert.ok(Number(cell) < 1024, cell);
  assert.deepEqual(said, ["false", false]);
});

test("a free cell is written in the middle of a run, and nothing differs", async () => {
  for (let i = 0; i < 10; i++) await page.key("ArrowRight");
  await page.type("#free-8", "123456");
  await page.until("document.getElementById('said').textContent !== ''");
  assert.equal(await said("#said"), "Cell 8 is now 123456. The run was done again from here: no difference.");
  assert.equal(await page.run("document.getElementById('free-8').blur(), document.getElementById('free-8').value"), "123456");
  assert.equal(await said("#twin .verdict"), "✓ No difference");
  await page.key("Home");
  assert.equal(await page.run("document.getElementById('free-8').value"), "600");
  await page.click("#forget");
  await isIdle();
});

test("what is said of a written cell has its number as all others are written", async () => {
  await page.run("document.querySelector('[value=signed]').click()");
  await page.type("#free-8", "-5");
  await page.until("document.getElementById('said').textContent !== ''");
  assert.match(await said("#said"), /^Cell 8 is now −5\. /);
});

test("a named cell's name stands on one line", async () => {
  const lines = "[...document.querySelectorAll('#named .name')].map((name) => Math.round(name.getBoundingClientRect().height / parseFloat(getComputedStyle(name).lineHeight)))";
  assert.deepEqual(await page.run(lines), [1, 1, 1]);
});

test("a cell is chosen on the map; only free ones can be written", async () => {
  await page.type("#pick", "300");
  assert.equal(await page.run("document.querySelectorAll('#writer form').length"), 0);
  assert.match(await said("#inspected"), /Sandbox/);
  await page.type("#pick", "700");
  await page.type("#new-value", "0x10");
  await isIdle();
  await page.until("document.querySelector('#inspected').textContent.includes('16')");
  assert.equal(await said("#twin .verdict"), "✓ No difference");
});

test("a look ahead says what would be ordered, and touches nothing", async () => {
  await page.type("#if", "1500 1960");
  const shown = await page.run("[...document.querySelectorAll('ol.foreseen li')].map((item) => item.textContent)");
  assert.deepEqual(shown, ["gas80", "charge1", "bean1500", "bean1960", "gas45"]);
  assert.match(await said("#foreseen"), /probe silent \(24\)/);
  assert.match(await said("#foreseen"), /The sandbox would then hold 256: 0 → 1500, 257: 0 → 1960\./);
  assert.match(await said("#foreseen"), /✓ Memory and registers are as they were\./);
  assert.match(await said("#foreseen"), /as a run of its own, with a budget of 1000 commands and an empty log of 64 cells\./);
  const shapes = await page.run("[...document.querySelectorAll('ol.foreseen li .mark')].map((mark) => mark.getAttribute('d'))");
  assert.deepEqual(shapes.map((shape) => shapes.indexOf(shape)), [0, 1, 2, 2, 0], "each event has its mark");
  assert.equal(await at(), 0);
});

test("without the mask: the checker refuses the list, and the purge timer is overwritten", async () => {
  const shown = await said("#unmasked");
  assert.match(shown, /The checker refuses it as bad bundle \(11\) at bundle 9, line 13\./);
  assert.match(shown, /The routine changes what is not its own/);
  assert.match(shown, /purge timer6001500/);
  await page.run("(() => { const s = document.getElementById('mask-address'); s.selectedIndex = 0; s.dispatchEvent(new Event('change')); })()");
  await page.until("document.getElementById('unmasked').textContent.includes('No difference')");
  assert.match(await said("#unmasked"), /Each time the address lay in the sandbox\./);
});

test("curious: an address outside the sandbox is drawn, and without its mask the routine sees the purge timer", async () => {
  await page.close();
  page = await browser.page(makePage(CURIOUS), DESKTOP);
  for (let i = 0; i < 5; i++) await page.key("ArrowRight");
  assert.match(await said("#now .tell"), /Address 8 is not in the sandbox: the mask makes it cell 264; it becomes 4000\./);
  assert.equal(await page.run("document.querySelectorAll('#map .wanted').length"), 1);
  const shown = await said("#unmasked");
  assert.match(shown, /The routine sees what is not its own/);
  assert.match(shown, /r3600/);
});

/** Opens the page of a routine on the roast's drum and policy, or others. */
async function openRoutine(name, routine, { more = [], files = ROAST.files.slice(1), size = DESKTOP, readings = [] } = {}) {
  await page.close();
  page = await browser.page(makePage({ name, files: [write(`${name}.routine`, routine), ...files], readings }, more), size);
}

test("without the mask: a routine that writes the policy's state cell is told of, and so is its other end", async () => {
  await openRoutine("state", "SET r1, 0\nSET r2, 2\nSTORE r1, r2\nSET r0, 1\nEVENT cool\n");
  const shown = await said("#unmasked");
  assert.match(shown, /The routine wrote the policy’s state cell/);
  assert.match(shown, /in line 3, at address 0\./);
  assert.match(shown, /The routine ended otherwise than with the mask/);
  assert.match(shown, /It came out as ended \(20\) with 1 pair; with the mask, as no arrow \(21\) with 0 pairs\./);
});

const choose = (id, value) => page.run(`(() => { const s = document.getElementById("${id}"); s.value = ${JSON.stringify(value)}; s.dispatchEvent(new Event("change")); })()`);

test("without the mask of a GOX: the jump aims outside the routine's commands, or behind a check", async () => {
  await openRoutine("jumps", "SET r5, next\nGOX r5, always\nEVENT gas\nlanding next:\nHALT\n");
  const shown = await said("#unmasked");
  assert.match(shown, /4101ANDI r15, r15, 4127NOP4102ORI r15, r15, 4096NOP4103GOXR r15, r0, r0, alwaysthe same/);
  assert.match(shown, /The checker refuses it as bad bundle \(11\) at bundle 1, line 2\. A GOX must have the shift and both commands of the mask/);
  assert.match(shown, /✕ The routine aimed at address 12, where it has no command: no landing \(26\)/);
  assert.match(shown, /in line 2, at address 12\. With the mask it goes on at line 5\. Here it was stopped at once, so the two memories do not differ\./);
  const targets = await page.run("[...document.getElementById('mask-address').options].map((one) => one.textContent)");
  assert.deepEqual(targets, ["as the routine has it", "an EVENT, behind its look at the policy (4106)", "behind the last command (4128)"]);
  await choose("mask-address", "4106");
  await page.until("document.getElementById('unmasked').textContent.includes('the middle of a bundle')");
});

test("without the mask: what can be chosen follows the instruction, and what was chosen stays where it can", async () => {
  await page.close();
  page = await browser.page(makePage(CURIOUS), DESKTOP);
  await choose("mask-address", "8");
  await choose("mask-of", "4");
  assert.equal(await page.run("document.getElementById('mask-address').value"), "8");
  await choose("mask-of", "10");
  assert.equal(await page.run("document.getElementById('mask-address').value"), "written");
  await page.until("document.getElementById('unmasked').textContent.includes('aimed at address 52, where it has no command')");
});

test("without the mask: a routine without LOAD, STORE and GOX has none", async () => {
  await openRoutine("plain", "SET r5, 1\nHALT\n");
  assert.match(await said("#unmasked-form"), /no LOAD, no STORE and no GOX, so it has no mask to take out/);
});

test("sample: the stopped event is shown as such", async () => {
  await page.close();
  page = await browser.page(makePage(SAMPLE), DESKTOP);
  await page.key("End");
  assert.match(await said("#automaton .stopped"), /gas: stopped/);
  assert.match(await said("#allowed .stopped"), /gas: stopped/);
  assert.match(await said("#pause"), /Stopped by the policy\. gas was not sent/);
});

test("a button that becomes unusable keeps the focus, and does nothing", async () => {
  await page.click("#do-end");
  assert.equal(await page.run("document.activeElement.id + ' ' + document.activeElement.getAttribute('aria-disabled')"), "do-end true");
  await page.click("#do-step");
  assert.equal(await at(), LAST);
  await page.key("ArrowLeft");
  assert.equal(await page.run("document.getElementById('do-end').getAttribute('aria-disabled')"), "false");
});

test("no letter is a key of the page: who speaks to the computer would press it by chance", async () => {
  for (const letter of "abcdefghijklmnopqrstuvwxyz") await page.key(letter);
  assert.equal(await at(), 0);
});

test("to the breakpoint, and a sentence where none is reached", async () => {
  assert.equal(await page.run("document.getElementById('to-breakpoint').getBoundingClientRect().height"), 0);
  await page.click("[data-index='11'] .stop");
  await page.click("#to-breakpoint");
  assert.equal(await nowLine(), "15");
  await page.key("End");
  await page.click("#to-breakpoint");
  assert.match(await said("#now"), /From here on, no breakpoint is reached\./);
});

test("what was said of a written cell goes when the cell no longer holds it", async () => {
  await page.key("ArrowRight");
  await page.type("#free-8", "77");
  await page.until("document.getElementById('said').textContent.startsWith('Cell 8 is now 77.')");
  await page.run("document.activeElement.blur()");
  await page.key("Home");
  assert.equal(await said("#said"), "");
});

test("the HALTs behind the last line show their commands when the present one is there", async () => {
  await openRoutine("short", "SET r1, 1\n");
  await page.click(".switch .track");
  assert.equal(await page.run("document.querySelectorAll('.behind .bundle').length"), 0);
  for (let i = 0; i < 4; i++) await page.key("ArrowRight");
  assert.match(await said(".behind .now-command code"), /HALT/);
  await page.key("Home");
  assert.equal(await page.run("document.querySelectorAll('.behind .bundle').length"), 0);
});

const FILL = "SET r2, 1\nagain: STORE r1, r2\nADD r1, r1, r2\nGOIF r0, r0, always, again\n";

test("a full sandbox: the changed cell is shown and lit, in a box that scrolls", async () => {
  await openRoutine("fill", FILL, { more: ["--budget", "2000"] });
  const steps = 2 + 3 * 150; // behind the STORE to the 151st cell
  await page.run(`(() => { const s = document.getElementById("slider"); s.value = ${steps}; s.dispatchEvent(new Event("input")); })()`);
  assert.deepEqual(await page.run("[...document.querySelectorAll('#sandbox .changed dt')].map((t) => t.textContent)"), ["406"]);
  const isSeen = `(() => { const box = document.getElementById("sandbox").getBoundingClientRect(); const lit = document.querySelector("#sandbox .changed").getBoundingClientRect();
    return lit.top >= box.top && lit.bottom <= box.bottom && box.height <= 400; })()`;
  assert.equal(await page.run(isSeen), true);
  assert.match(await said("#sandbox-rest"), /91 more cells not shown\. 105 other cells of 256 to 511 are 0\./);
});

test("a drum without named cells has no empty place for them; drum and policy are named on a phone", async () => {
  const drum = write("bare.drum", "U 1024\nSL 256\nSH 511\nM 0\nP 512\nB 4096\nQ 32\nlandings routine\nevent 0 gas\nevent 8 bean\n");
  const policy = write("bare.policy", "state any\n  others -> any\nstart any\n");
  const size = { width: 390, height: 844, isPhone: true };
  await openRoutine("bare", "EVENT gas\n", { files: ["--drum", drum, "--policy", policy], size });
  assert.equal(await page.run("document.getElementById('named').getBoundingClientRect().height"), 0);
  assert.ok((await page.run("document.getElementById('files').getBoundingClientRect().width")) > 0);
  assert.match(await said("#files"), /bare\.drum, bare\.policy/);
});

test("a drum without free cells has no second memory to compare, and says so", async () => {
  const drum = write("full.drum", "U 65\nSL 48\nSH 63\nM 64\nP 0\nB 4096\nQ 16\nlandings all\nevent 0 gas\n");
  const policy = write("any.policy", "state any\n  others -> any\nstart any\n");
  await openRoutine("full", "EVENT gas\n", { files: ["--drum", drum, "--policy", policy] });
  assert.equal(await said("#twin"), "This drum has no free cell, so there is no second memory with other free cells.");
});

test("a comment may have every character that the assembler takes", async () => {
  await openRoutine("odd", "SET r1, 2 # one line\u2028for it, two for a browser\nHALT\n");
  assert.equal(await page.run("document.getElementById('loud').hidden"), true);
  assert.match(await said(".line .comment"), /two for a browser/);
});

test("without the mask: a drum without free cells leaves another address to choose, the state cell", async () => {
  const drum = write("full.drum", "U 65\nSL 0\nSH 15\nM 64\nP 16\nS 1\nB 4096\nQ 32\nlandings all\nevent 0 gas\n");
  const any = write("any.policy", "state any\n  others -> any\nstart any\n");
  await openRoutine("full", "SET r0, 7\nSTORE r0, r0\n", { files: ["--drum", drum, "--policy", any] });
  await choose("mask-address", "64");
  await page.until("document.getElementById('unmasked').textContent.includes('The routine wrote the policy’s state cell')");
});

test("four digits of a line's number fit", async () => {
  await openRoutine("lines", `${"# a line\n".repeat(1200)}HALT\n`);
  const fits = "[...document.querySelectorAll('.line .number')].every((n) => n.scrollWidth <= n.clientWidth)";
  assert.equal(await page.run(fits), true);
});

test("colours are switched", async () => {
  const back = () => page.run("getComputedStyle(document.body).backgroundColor");
  const light = await back();
  await page.click("#theme");
  assert.notEqual(await back(), light);
  await page.click("#theme");
  assert.equal(await back(), light);
});
