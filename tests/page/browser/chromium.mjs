// A browser for the tests: Chromium, driven over a pipe by its debugging protocol. Nothing is installed for it.
import { spawn, spawnSync } from "node:child_process";
import { mkdtempSync, rmSync } from "node:fs";
import { tmpdir } from "node:os";
import { join } from "node:path";
import { pathToFileURL } from "node:url";

const NAMES = ["chromium", "chromium-browser", "google-chrome"];
const FLAGS = ["--headless", "--no-sandbox", "--disable-gpu", "--hide-scrollbars", "--no-first-run", "--remote-debugging-pipe"];
const [TO_BROWSER, FROM_BROWSER] = [3, 4]; // the pipe's two files
const READY_MS = 20000;
const POLL_MS = 50;
const SHOT_QUALITY = 75;
const SHIFT = 8;
const KEY_CODES = { ArrowRight: 39, ArrowLeft: 37, Home: 36, End: 35, " ": 32, Tab: 9, Enter: 13 };

export const pause = (ms) => new Promise((done) => setTimeout(done, ms));

/** The name of a Chromium that can be run, or null. */
export const browserName = () => NAMES.find((name) => spawnSync(name, ["--version"]).status === 0) ?? null;

/** Calls and events of the protocol: messages with a zero byte behind each. */
class Pipe {
  #last = 0;
  #waiting = new Map();
  #rest = "";
  heard = [];

  constructor(child) {
    this.out = child.stdio[TO_BROWSER];
    child.stdio[FROM_BROWSER].on("data", (data) => this.#take(String(data)));
  }

  #take(text) {
    const messages = (this.#rest + text).split("\0");
    this.#rest = messages.pop();
    for (const message of messages.map((one) => JSON.parse(one))) {
      const [done, fail] = this.#waiting.get(message.id) ?? [];
      this.#waiting.delete(message.id);
      if (!done) this.heard.push(message);
      else if (message.error) fail(new Error(message.error.message));
      else done(message.result);
    }
  }

  call(method, params = {}, sessionId = undefined) {
    const id = ++this.#last;
    this.out.write(`${JSON.stringify({ id, method, params, sessionId })}\0`);
    return new Promise((done, fail) => this.#waiting.set(id, [done, fail]));
  }
}

class Page {
  constructor(pipe, sessionId, targetId, size) {
    Object.assign(this, { pipe, sessionId, targetId, size });
  }

  call(method, params) {
    return this.pipe.call(method, params, this.sessionId);
  }

  async resize() {
    const { width, height, isPhone = false } = this.size;
    await this.call("Emulation.setDeviceMetricsOverride", { width, height, deviceScaleFactor: 1, mobile: isPhone });
  }

  /** The value of an expression in the page. */
  async run(expression) {
    const got = await this.call("Runtime.evaluate", { expression, awaitPromise: true, returnByValue: true });
    const thrown = got.exceptionDetails;
    if (thrown) throw new Error(thrown.exception?.description ?? thrown.text);
    return got.result.value;
  }

  async until(expression, most = READY_MS) {
    for (const end = Date.now() + most; !(await this.run(expression)); await pause(POLL_MS)) {
      if (Date.now() > end) throw new Error(`This did not come true in the page: ${expression}`);
    }
  }

  /** Waits until what was asked of the page is drawn. */
  settle() {
    return this.run("new Promise((done) => requestAnimationFrame(() => requestAnimationFrame(done)))");
  }

  async key(key, text = key.length === 1 ? key : undefined, modifiers = 0) {
    const event = { key, code: key, windowsVirtualKeyCode: KEY_CODES[key], modifiers };
    await this.call("Input.dispatchKeyEvent", { type: text ? "keyDown" : "rawKeyDown", text, ...event });
    await this.call("Input.dispatchKeyEvent", { type: "keyUp", ...event });
  }

  withShift(key) {
    return this.key(key, undefined, SHIFT);
  }

  /** A click with the mouse on the middle of an element. */
  async click(css) {
    const find = `(() => { const e = document.querySelector(${JSON.stringify(css)}); e.scrollIntoView({ block: "center" });
      const b = e.getBoundingClientRect(); return { x: b.left + b.width / 2, y: b.top + b.height / 2 }; })()`;
    const spot = await this.run(find);
    for (const type of ["mousePressed", "mouseReleased"]) {
      await this.call("Input.dispatchMouseEvent", { type, button: "left", clickCount: 1, ...spot });
    }
  }

  /** Types a text into a field, key by key, in place of what stands there, and leaves it by Enter. */
  async type(css, text) {
    await this.run(`(() => { const e = document.querySelector(${JSON.stringify(css)}); e.focus(); e.select(); })()`);
    await this.call("Input.insertText", { text });
    await this.key("Enter", "\r");
  }

  /** What is seen in the window, as WebP. */
  async shot() {
    await this.settle();
    const { data } = await this.call("Page.captureScreenshot", { format: "webp", quality: SHOT_QUALITY });
    return Buffer.from(data, "base64");
  }

  close() {
    return this.pipe.call("Target.closeTarget", { targetId: this.targetId });
  }
}

/** Opens a browser. `page(file, size)` opens a file in it; size: { width, height, isDark, isPhone }. */
export async function openBrowser(name) {
  const profile = mkdtempSync(join(tmpdir(), "test-page-"));
  const child = spawn(name, [...FLAGS, `--user-data-dir=${profile}`], { stdio: ["ignore", "ignore", "ignore", "pipe", "pipe"] });
  const pipe = new Pipe(child);
  const own = new Set(); // the addresses of all pages
  const page = async (file, size) => {
    const { targetId } = await pipe.call("Target.createTarget", { url: "about:blank" });
    const { sessionId } = await pipe.call("Target.attachToTarget", { targetId, flatten: true });
    const opened = new Page(pipe, sessionId, targetId, size);
    for (const part of ["Page", "Runtime", "Network", "Log"]) await opened.call(`${part}.enable`);
    await opened.resize();
    const scheme = { name: "prefers-color-scheme", value: size.isDark ? "dark" : "light" };
    await opened.call("Emulation.setEmulatedMedia", { features: [scheme] });
    const { href: url } = pathToFileURL(file);
    own.add(url);
    await opened.call("Page.navigate", { url });
    await opened.until("document.body?.classList.contains('ready') || !(document.getElementById('loud')?.hidden ?? true)");
    return opened;
  };
  const close = async () => {
    const ended = new Promise((done) => child.on("exit", done));
    await pipe.call("Browser.close").catch(() => {});
    await ended;
    rmSync(profile, { recursive: true, force: true });
  };
  return { page, close, complaints: () => complaints(pipe.heard, own) };
}

/** Errors in the console, and requests to anything but the pages' own files: other files beside them, too. */
function complaints(heard, own) {
  const isError = ({ method, params }) =>
    method === "Runtime.exceptionThrown" ||
    (method === "Log.entryAdded" && params.entry.level === "error") ||
    (method === "Runtime.consoleAPICalled" && params.type === "error");
  const isRequest = ({ method, params }) => method === "Network.requestWillBeSent" && !own.has(params.request.url);
  const said = ({ params }) => params.request?.url ?? params.entry?.text ?? params.exceptionDetails?.exception?.description ?? "an error";
  return heard.filter((message) => isError(message) || isRequest(message)).map(said);
}
