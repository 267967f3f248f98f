// The page: opens the library, runs the session and updates the panels.
import { openLibrary } from "./library/binding.mjs";
import { countOf } from "./library/words.mjs";
import { Session } from "./model/session.mjs";
import { lineOf } from "./model/names.mjs";
import { readPage } from "./model/page.mjs";
import { FORMATS, plural } from "./model/numbers.mjs";
import { byId, h } from "./panels/dom.mjs";
import { updateChecks } from "./panels/checks.mjs";
import { buildControls, updateControls } from "./panels/controls.mjs";
import { buildMemory, updateMemory } from "./panels/memory.mjs";
import { updateNow } from "./panels/now.mjs";
import { buildPolicy, updatePolicy } from "./panels/policy.mjs";
import { buildPreview, updatePreview } from "./panels/preview.mjs";
import { buildRecord, updateRecord } from "./panels/record.mjs";
import { buildRegisters, updateRegisters } from "./panels/registers.mjs";
import { buildRoutine, updateRoutine } from "./panels/routine.mjs";
import { buildSetup, updateSetup } from "./panels/setup.mjs";
import { buildStaying } from "./panels/staying.mjs";
import { buildUnmasked, chooseAddress, runUnmasked } from "./panels/unmasked.mjs";

const COMMAND_PACE = 140; // milliseconds a command, when it runs by itself
const INSTRUCTION_PACE = 320;

const BUILDS = [buildControls, buildRoutine, buildRegisters, buildMemory, buildPolicy, buildRecord, buildPreview, buildUnmasked, buildSetup, buildStaying];
const UPDATES = [updateNow, updateControls, updateRoutine, updateRegisters, updateMemory, updatePolicy, updateRecord, updatePreview, updateChecks, updateSetup];

class App {
  constructor(session) {
    this.session = session;
    this.page = session.page;
    this.format = "unsigned";
    this.timer = null;
    const go = (move) => () => this.move(move);
    this.acts = {
      step: go(() => session.step()),
      back: go(() => session.back()),
      reset: go(() => session.go(0)),
      end: go(() => session.go(session.last)),
      event: go(() => session.nextEvent()),
      play: () => this.play(),
    };
  }

  show() {
    for (const update of UPDATES) update(this);
  }

  move(move) {
    this.stop();
    move();
    this.show();
  }

  get isPlaying() {
    return this.timer !== null;
  }

  stop() {
    clearInterval(this.timer);
    this.timer = null;
  }

  play() {
    const { session } = this;
    if (this.isPlaying || session.at === session.last) {
      this.move(() => {});
      return;
    }
    const turn = () => {
      session.step();
      if (session.at === session.last || session.isAtBreakpoint) this.stop();
      this.show();
    };
    this.timer = setInterval(turn, session.byCommand ? COMMAND_PACE : INSTRUCTION_PACE);
    this.show();
  }

  setByCommand(on) {
    this.move(() => this.session.setByCommand(on));
  }

  toggleBreakpoint(instruction) {
    this.session.toggleBreakpoint(instruction);
    this.show();
  }

  runTo(instruction) {
    let found;
    this.move(() => (found = this.session.runTo(instruction)));
    const line = lineOf(this.page, instruction);
    if (!found) byId("now").append(h("p", { class: "hint" }, `From here on, line ${line} is not reached.`));
  }

  runToBreakpoint() {
    let found;
    this.move(() => (found = this.session.runToBreakpoint()));
    if (!found) byId("now").append(h("p", { class: "hint" }, "From here on, no breakpoint is reached."));
  }

  /** Runs the routine from the installation, with a bar that moves. False if a newer run took over. */
  async run() {
    const bar = byId("bar");
    const isDone = await this.session.run((done, most) => {
      bar.hidden = false;
      bar.querySelector("progress").value = done / most;
      bar.querySelector("span").textContent = `${plural(done, "command")} of at most ${most} done`;
    });
    if (isDone) bar.hidden = true;
    return isDone;
  }

  /** Changes what the run is given, and runs it again. Then the page stays, takes a step or goes to the end. */
  async give(news, then = "stay") {
    this.stop();
    const wasAsked = byId("pause").contains(document.activeElement);
    Object.assign(this.session.given, news);
    if (!(await this.run())) return;
    if (then === "step") this.session.step();
    if (then === "end") this.session.go(this.session.last);
    this.show();
    if (wasAsked) (byId("pause").querySelector(":scope:not([hidden]) :is(input, button)") ?? byId("do-step")).focus();
    runUnmasked(this);
  }

  async write(cell, value) {
    this.session.write(cell, value);
    await this.give({});
    const outcome = this.session.failures.length ? "a difference" : "no difference";
    this.written = { cell, value };
    byId("said").textContent = `Cell ${cell} is now ${FORMATS[this.format](value)}. The run was done again from here: ${outcome}.`;
  }
}

function introduce({ page, facts }) {
  byId("title").textContent = page.name;
  byId("files").textContent = `${page.drum}, ${page.policyName}`;
  const [words, commands] = [facts.words, facts.commands].map(countOf);
  byId("taken").textContent = `${plural(words, "instruction")}, rewritten into ${commands} commands; the checker passed them, the policy is installed.`;
}

/** The library that is packed in this file. */
async function openPacked() {
  if (!globalThis.WebAssembly) throw new Error("This browser has no WebAssembly, or it is switched off. Allow it and open the page again.");
  try {
    return await openLibrary(await (await globalThis.unpack("wasm")).arrayBuffer());
  } catch (cause) {
    throw new Error("The library in this file is damaged. Make the page again with hemdroas page.", { cause });
  }
}

async function start() {
  const lib = await openPacked();
  const session = new Session(lib, readPage(byId("data").textContent));
  const app = new App(session);
  introduce(session);
  await app.run(); // before the first control can be used
  for (const build of BUILDS) build(app);
  app.show();
  chooseAddress(app);
  await runUnmasked(app);
  document.body.classList.add("ready");
}

/** Says what the page cannot go on from. It stays: what is shown from then on may be wrong. */
function failed(error) {
  const loud = byId("loud");
  loud.hidden = false;
  loud.dataset.stays = "true";
  loud.textContent = `The page cannot go on. ${error.message}`;
  console.error(error.cause ?? error);
}

addEventListener("error", ({ error }) => error && failed(error)); // a warning of the browser has no error
addEventListener("unhandledrejection", ({ reason }) => failed(reason));
start().catch(failed);
