// The page's form, at five widths, light and dark, in five situations. Also: all controls have names for a screen reader, a policy
// of 16 states is drawn, and a run of 10,000 commands does not freeze the page.
import assert from "node:assert/strict";
import { after, before, test } from "node:test";
import { EXAMPLES, ROAST, makePage, write } from "../command.mjs";
import { browserName, openBrowser } from "./chromium.mjs";
import { LEAST_DRAWN, contrast, drawnOver } from "./contrast.mjs";
import { lookAtForm } from "./form.mjs";
import { see, text } from "./seen.mjs";

const DESKTOP = { width: 1280, height: 900 };
const SIZES = [
  { width: 320, height: 640, isPhone: true },
  { width: 390, height: 844, isPhone: true },
  { width: 820, height: 1100 },
  DESKTOP,
  { width: 1920, height: 1080 },
];
const GOOD = { low: [], cut: [], small: [], isWide: false, hasTexts: true };

/** What is done on the page before it is looked at. */
const SITUATIONS = {
  "at first": "",
  "at the end": "document.getElementById('do-end').click()",
  "by command": "document.getElementById('do-reset').click(); document.getElementById('by-command').click(); document.getElementById('do-step').click()",
  "in hexadecimal, arrows as text": "document.querySelector('input[value=hexadecimal]').click(); document.querySelector('details').open = true",
  "at a silent probe, with a bad field": `const set = (id, value) => { const field = document.getElementById(id); field.value = value; field.dispatchEvent(new Event("change")); };
    set("readings", ""); await new Promise((done) => setTimeout(done, 200)); set("budget", "hot"); document.getElementById("do-end").click()`,
};

let browser;
before(async () => (browser = await openBrowser(browserName())));
after(() => browser.close());

for (const example of EXAMPLES) {
  for (const isDark of [false, true]) {
    test(`${example.name}, ${isDark ? "dark" : "light"}: contrast, nothing cut, nothing over another, no sideways scrolling`, async () => {
      const file = makePage(example);
      for (const size of SIZES) {
        const page = await browser.page(file, { ...size, isDark });
        for (const [situation, code] of Object.entries(SITUATIONS)) {
          await page.run(`(async () => { ${code} })()`);
          await page.settle();
          assert.deepEqual(await see(page, lookAtForm, page.size.width), GOOD, `${size.width} ${situation}`);
        }
        await page.close();
      }
    });
  }
}

const ROLES = ["button", "textbox", "slider", "switch", "radio", "spinbutton", "checkbox", "combobox", "link", "image", "img", "region", "group", "progressbar"];

test("every control has a name for a screen reader", async () => {
  const page = await browser.page(makePage(ROAST), DESKTOP);
  await page.call("Accessibility.enable");
  const { nodes } = await page.call("Accessibility.getFullAXTree");
  const controls = nodes.filter(({ ignored, role }) => !ignored && ROLES.includes(role?.value));
  assert.ok(controls.length > 60);
  assert.deepEqual(controls.filter(({ name }) => !name?.value).map(({ role }) => role.value), []);
  await page.close();
});

test("all controls are reached by Tab, and show that they have the focus", async () => {
  const page = await browser.page(makePage(ROAST), DESKTOP);
  const wanted = await page.run("[...document.querySelectorAll('button, input, select, summary')].length");
  const seen = new Set();
  for (let i = 0; i < 4 * wanted; i++) {
    await page.key("Tab");
    const focus = await page.run(`(() => { const e = document.activeElement; const shown = e.matches("[type=checkbox], [type=radio]") ? e.nextElementSibling : e;
      const s = getComputedStyle(shown); return { key: e.id || e.outerHTML.slice(0, 120), isShown: s.outlineStyle !== "none" && parseFloat(s.outlineWidth) >= 2, isBody: e === document.body }; })()`);
    if (focus.isBody) break;
    assert.ok(focus.isShown, focus.key);
    seen.add(focus.key);
  }
  for (const id of ["do-step", "do-event", "do-play", "do-end", "slider", "by-command", "if", "readings", "budget", "log", "pick", "mask-of", "mask-address", "free-8", "theme"]) {
    assert.ok(seen.has(id), id);
  }
  await page.close();
});

/** Whether what has the focus is covered by something else; its name. It is run in the page, so it stands alone. */
function coveredFocus() {
  const focus = document.activeElement;
  const shown = focus.matches("[type=checkbox], [type=radio]") ? focus.closest("label") : focus;
  const { left, top, width, height } = shown.getBoundingClientRect();
  const isSeen = (x, y) => shown.contains(document.elementFromPoint(left + width * x, top + height * y));
  const isBox = shown.matches("body, [tabindex]"); // a box that scrolls may be larger than the window
  return isBox || isSeen(0.5, 0.25) || isSeen(0.5, 0.75) ? null : focus.id || focus.getAttribute("aria-label") || focus.textContent;
}

test("what has the focus is not covered by what stays in the window, forwards and back", async () => {
  for (const size of [SIZES[1], { width: 390, height: 640, isPhone: true }, { width: 844, height: 390, isPhone: true }]) {
    const page = await browser.page(makePage(ROAST), size);
    const count = await page.run("document.querySelectorAll('a, button, input, select, summary, [tabindex]').length");
    const covered = new Set();
    for (let i = 0; i < 2 * count; i++) {
      await (i < count ? page.key("Tab") : page.withShift("Tab"));
      await page.settle();
      covered.add(await see(page, coveredFocus));
    }
    covered.delete(null);
    assert.deepEqual([...covered], [], `${size.width} ${size.height}`);
    await page.close();
  }
});

test("a policy of 16 states is drawn legibly, at a phone's width too", async () => {
  const all = Array.from({ length: 16 }, (_, s) => `state stage-${s}\n  gas -> stage-${(s + 1) % 16}\n  air -> stage-${(s * 5) % 16}\n  door -> stage-0\n  others -> stage-${s}\n`);
  const policy = write("stages.policy", `${all.join("")}start stage-0\n`);
  const [routine, , drum] = ROAST.files;
  const file = makePage({ name: "stages", files: [routine, "--drum", drum, "--policy", policy], readings: ROAST.readings });
  for (const size of SIZES) {
    const page = await browser.page(file, size);
    for (let i = 0; i < 8; i++) await page.key("ArrowRight");
    await page.settle();
    assert.equal(await page.run("document.querySelectorAll('#automaton .state').length"), 16);
    assert.equal(await page.run("document.querySelectorAll('#automaton .state.now').length"), 1);
    assert.deepEqual(await see(page, lookAtForm, page.size.width), GOOD, String(size.width));
    await page.close();
  }
});

/** The card's colour and those of the arrows on it, with their opacity. It is run in the page, so it stands alone. */
function arrowColours() {
  const colours = (path) => [getComputedStyle(path).stroke, Number(getComputedStyle(path).opacity)];
  const card = getComputedStyle(document.getElementById("panel-policy")).backgroundColor;
  return { card, arrows: [...document.querySelectorAll("#automaton .arrow path:not(.head)")].map(colours) };
}

test("16 states with long names: each name fits its box and differs from the others, idle arrows can be seen in light and dark", async () => {
  const name = (s) => `the_phase_of_roasting_number_${s % 16}`;
  const all = Array.from({ length: 16 }, (_, s) => `state ${name(s)}\n  gas -> ${name(s + 1)}\n  air -> ${name(s * 5)}\n  others -> ${name(s)}\n`);
  const policy = write("phases.policy", `${all.join("")}start ${name(0)}\n`);
  const [routine, , drum] = ROAST.files;
  const file = makePage({ name: "phases", files: [routine, "--drum", drum, "--policy", policy], readings: ROAST.readings });
  for (const size of [DESKTOP, { ...DESKTOP, isDark: true }, SIZES[0]]) {
    const page = await browser.page(file, size);
    const { card, arrows } = await see(page, arrowColours);
    assert.ok(Math.min(...arrows.map(([arrow, opacity]) => contrast(drawnOver(arrow, card, opacity), card))) >= LEAST_DRAWN);
    const boxes = await page.run(`[...document.querySelectorAll("#automaton .state")].map((s) => { const [box, name] = [s.querySelector("rect"), s.querySelector("text")];
      return { said: name.textContent, fits: name.getBBox().width <= box.getBBox().width - 8 }; })`);
    assert.deepEqual(boxes.filter(({ fits }) => !fits), []);
    assert.equal(new Set(boxes.map(({ said }) => said)).size, 16);
    assert.deepEqual(await see(page, lookAtForm, page.size.width), GOOD);
    await page.close();
  }
});

/** A policy of three states with arrows back and over, each for several events. */
const BACK = `state cold
  charge -> roasting
  door -> dropped
  cool -> dropped
  exhaust -> dropped
  others -> cold
state roasting
  gas -> cold
  air -> cold
  bean -> cold
  door -> dropped
  others -> roasting
state dropped
  charge -> cold
  gas -> cold
  exhaust -> cold
  others -> dropped
start cold
`;

/** Policies on the roast's drum, and names as long as the files take them. */
const LONG = "a_name_without_any_blank";
const DRAWN = {
  "arrows back and over": () => [ROAST.files[0], "--drum", ROAST.files[2], "--policy", write("back.policy", BACK)],
  "the longest names": () => [
    write(`${LONG}_${LONG}_${LONG}.routine`, `SET r1, 8\nSTORE r1, r1\nEVENT ${LONG}_order\nEVENT ${LONG}_probe\nEVENT ${LONG}_order\n# ${LONG.repeat(4)}\n`),
    "--drum",
    write(`${LONG}_${LONG}.drum`, `U 1024\nSL 256\nSH 511\nM 0\nP 512\nB 4096\nQ 32\nlandings routine\nevent 0 ${LONG}_order\nevent 8 ${LONG}_probe\nceiling ${LONG}_order 4000000000\ncell 8 4294967295 ${LONG} ${LONG}\n`),
    "--policy",
    write(`${LONG}_${LONG}.policy`, `state ${LONG}_one\n  ${LONG}_order -> ${LONG}_two\nstate ${LONG}_two\n  ${LONG}_probe -> ${LONG}_two\nstart ${LONG}_one\n`),
  ],
};

for (const [what, files] of Object.entries(DRAWN)) {
  test(`${what}: nothing is cut, and states can be told from each other`, async () => {
    const file = makePage({ name: "drawn", files: files(), readings: [1500] });
    for (const size of SIZES) {
      const page = await browser.page(file, size);
      for (const [situation, code] of Object.entries(SITUATIONS)) {
        await page.run(`(async () => { ${code} })()`);
        await page.settle();
        assert.deepEqual(await see(page, lookAtForm, size.width), GOOD, `${size.width} ${situation}`);
      }
      const names = await page.run("[...document.querySelectorAll('#automaton .state text')].map((name) => name.textContent)");
      assert.equal(new Set(names).size, names.length, `${names}`);
      await page.close();
    }
  });
}

const LOOP = "loop: ADD r1, r1, r2\n STORE r3, r1\n GOIF r0, r0, always, loop\n";
const LONGEST_GAP = 250; // milliseconds in which the page does not answer

test("10,000 commands: a bar moves, and the page answers all the while", async () => {
  const files = [write("loop.routine", LOOP), ...ROAST.files.slice(1)];
  const page = await browser.page(makePage({ name: "loop", files }), DESKTOP);
  await page.run(`(() => { globalThis.gaps = []; globalThis.bars = new Set(); let last = performance.now();
    const turn = () => { const now = performance.now(); gaps.push(now - last); last = now; const bar = document.getElementById("bar");
      if (!bar.hidden) bars.add(bar.querySelector("progress").value); globalThis.timer = setTimeout(turn); }; turn(); })()`);
  await page.type("#budget", "10000");
  await page.until("document.getElementById('bar').hidden && document.getElementById('where').textContent.includes('of 3334')");
  const { longest, bars } = await page.run("({ longest: Math.max(...gaps), bars: [...bars] })");
  assert.ok(bars.length > 2, `${bars}`);
  assert.ok(longest < LONGEST_GAP, `${longest} ms`);
  await page.click("#do-end");
  assert.match(await see(page, text, "#pause"), /This page stops at 10000 commands/);
  await page.close();
});

const LONGEST_STEP = 120; // milliseconds, at the end of a long run
const RECORDING = "SET r0, 20\nloop: EVENT gas\n GOIF r0, r0, always, loop\n";

test("a step at the end of 10,000 commands is quick, and the rows of the record stay", async () => {
  const any = write("any.policy", "state any\n  others -> any\nstart any\n");
  const [, , drum] = ROAST.files;
  const file = makePage({ name: "recording", files: [write("recording.routine", RECORDING), "--drum", drum, "--policy", any] }, ["--budget", "10000", "--log", "4096"]);
  const page = await browser.page(file, DESKTOP);
  await page.click("#do-end");
  const seen = await page.run(`(() => { const first = document.querySelector("#pairs tr"); const times = [];
    for (const id of ["back", "step", "back", "step", "back", "step"]) { const began = performance.now(); document.getElementById("do-" + id).click(); document.body.offsetHeight; times.push(performance.now() - began); }
    return { stays: first === document.querySelector("#pairs tr"), median: times.sort((a, b) => a - b)[3], rows: document.querySelectorAll("#pairs tr").length }; })()`);
  assert.ok(seen.stays && seen.rows > 1900, JSON.stringify(seen));
  assert.ok(seen.median < LONGEST_STEP, JSON.stringify(seen));
  await page.close();
});

test("no error in the console, no request to anything", () => assert.deepEqual(browser.complaints(), []));
