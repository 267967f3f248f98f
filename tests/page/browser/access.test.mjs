// Who cannot see the page, sees it in colours of his own, or is quicker than it.
import assert from "node:assert/strict";
import { after, before, beforeEach, afterEach, test } from "node:test";
import { ROAST, makePage, write } from "../command.mjs";
import { browserName, openBrowser } from "./chromium.mjs";
import { LEAST_DRAWN, contrast } from "./contrast.mjs";
import { see } from "./seen.mjs";

const DESKTOP = { width: 1280, height: 900 };

let browser, page;
before(async () => (browser = await openBrowser(browserName())));
beforeEach(async () => (page = await browser.page(makePage(ROAST), DESKTOP)));
afterEach(() => page.close());
after(async () => {
  const complaints = browser.complaints();
  await browser.close();
  assert.deepEqual(complaints, []);
});

const CONTROLS = ["button", "textbox", "slider", "switch", "radio", "combobox", "link"];

test("each control has a name that no other has", async () => {
  await page.call("Accessibility.enable");
  const { nodes } = await page.call("Accessibility.getFullAXTree");
  const names = nodes.filter((node) => !node.ignored && CONTROLS.includes(node.role?.value)).map((node) => node.name.value);
  assert.deepEqual(names.filter((name, i) => names.indexOf(name) !== i), []);
  for (const name of ["Write purge timer", "purge timer cell 8"]) assert.ok(names.includes(name), name);
});

/** The live regions in which something changes while `act` is done in the page. */
const spoken = (act) =>
  page.run(`(async () => {
    const heard = new Set();
    const watch = new MutationObserver((changes) => {
      for (const { target } of changes) {
        const region = (target.nodeType === Node.TEXT_NODE ? target.parentElement : target)?.closest("[aria-live], output, [role=status], [role=alert]");
        if (region && region.getAttribute("aria-live") !== "off" && !region.closest("[hidden]")) heard.add(region.id);
      }
    });
    watch.observe(document.body, { subtree: true, childList: true, characterData: true });
    ${act};
    await new Promise((done) => setTimeout(done, 300));
    return [...heard].sort();
  })()`);

const TYPE_AHEAD = 'const field = document.getElementById("if"); field.focus(); field.value = "1700"; field.dispatchEvent(new Event("input"))';
const GIVE = 'const field = document.getElementById("readings"); field.focus(); field.value = "1500"; field.dispatchEvent(new Event("change"))';
const UNMASK = 'const field = document.getElementById("mask-of"); field.focus(); field.selectedIndex = 1; field.dispatchEvent(new Event("change"))';

test("a screen reader hears what was asked for, and not each panel at each step", async () => {
  assert.deepEqual(await spoken('document.getElementById("do-step").click()'), ["now", "where"]);
  assert.deepEqual(await spoken('document.getElementById("do-play").click()'), []);
  assert.deepEqual(await spoken('document.getElementById("do-play").click()'), ["now", "where"]);
  assert.deepEqual(await spoken(TYPE_AHEAD), ["foreseen"]);
  assert.deepEqual(await spoken(GIVE), ["now", "where"]);
  assert.deepEqual(await spoken(UNMASK), ["unmasked"]);
});

test("a moving bar is a progress bar, and not spoken at each move", async () => {
  assert.equal(await page.run("document.getElementById('bar').closest('[role=status], [aria-live]')"), null);
  assert.equal(await page.run("document.querySelector('#bar progress').getAttribute('aria-label')"), "Commands done");
});

/** The colours of an element's part, as they are drawn. */
const backOf = (css, part) => page.run(`getComputedStyle(document.querySelector(${JSON.stringify(css)}), ${JSON.stringify(part)}).backgroundColor`);

test("in colours that the viewer forces: the switch, a breakpoint and the chosen form of numbers can be seen", async () => {
  await page.call("Emulation.setEmulatedMedia", { features: [{ name: "forced-colors", value: "active" }] });
  assert.notEqual(await backOf(".switch .track", "::after"), await backOf(".switch .track", null));
  const empty = await backOf(".stop", "::before");
  await page.click(".stop");
  assert.notEqual(await backOf(".stop", "::before"), empty);
  assert.notEqual(await backOf("#formats input:checked + span", null), await backOf("#formats input:not(:checked) + span", null));
});

test("regions of the map differ by pattern, not by colour alone", async () => {
  const fills = await page.run("Object.fromEntries(['sandbox', 'state', 'table', 'landings', 'free'].map((name) => [name, getComputedStyle(document.querySelector('#map .region.' + name)).fill]))");
  const patterned = ["sandbox", "table", "landings"].map((name) => fills[name]);
  assert.ok(patterned.every((fill) => fill.startsWith("url(")), JSON.stringify(fills));
  assert.equal(new Set(patterned).size, patterned.length);
});

/** The two colours of each region that tell it from the others: ink and paper. It is run in the page, so it stands alone. */
function regionColours() {
  const fill = (css) => getComputedStyle(document.querySelector(css)).fill;
  const patterns = ["sandbox", "table", "landings"].map((name) => [name, fill(`.${name}-ink`), fill(`.${name}-back`)]);
  return [...patterns, ["free", getComputedStyle(document.querySelector("#map .region.free")).stroke, fill("#map .region.free")]];
}

test("the patterns of the map can be seen, in light and dark", async () => {
  for (const isDark of [false, true]) {
    await page.run(`document.documentElement.dataset.theme = ${JSON.stringify(isDark ? "dark" : "light")}`);
    const faint = (await see(page, regionColours)).filter(([, ink, paper]) => contrast(ink, paper) < LEAST_DRAWN);
    assert.deepEqual(faint, [], isDark ? "dark" : "light");
  }
});

const LOOP = "loop: ADD r1, r1, r2\n STORE r3, r1\n GOIF r0, r0, always, loop\n";

/** Presses what there is, again and again, until the page is ready. */
const IMPATIENT = `(() => {
  const press = () => {
    if (document.body?.classList.contains("ready")) return;
    for (const css of ["#do-step", "#map", "[value=signed]", ".stop", "button.text"]) document.querySelector(css)?.dispatchEvent(new MouseEvent("click", { bubbles: true, clientX: 200, clientY: 200 }));
    document.getElementById("if")?.dispatchEvent(new Event("input"));
    document.body?.dispatchEvent(new KeyboardEvent("keydown", { key: "ArrowRight", bubbles: true }));
    setTimeout(press);
  };
  press();
})()`;
const PRESSED_MS = 600000; // the presses leave the page little time: on a slow machine it is ready late

test("who presses keys before the first run is done breaks nothing", async () => {
  await page.close();
  page = await browser.page(makePage({ name: "loop", files: [write("loop.routine", LOOP), ...ROAST.files.slice(1)] }, ["--budget", "10000"]), DESKTOP);
  await page.call("Page.addScriptToEvaluateOnNewDocument", { source: IMPATIENT });
  await page.run("document.body.classList.remove('ready')");
  await page.call("Page.reload");
  await page.until("document.body?.classList.contains('ready') || !(document.getElementById('loud')?.hidden ?? true)", PRESSED_MS);
  assert.equal(await page.run("document.getElementById('loud').textContent"), "");
  assert.deepEqual(browser.complaints(), []);
});
