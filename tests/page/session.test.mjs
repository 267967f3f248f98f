// The session against the command: the examples step by step, forwards and back, and every ending.
import assert from "node:assert/strict";
import { test } from "node:test";
import { ENDING, answerText } from "../../web/library/header.mjs";
import { Trace, lendBench } from "../../web/model/trace.mjs";
import { AS_WRITTEN, withoutMask } from "../../web/model/unmasked.mjs";
import { CURIOUS, EXAMPLES, ROAST, SAMPLE, objects, readingsOption, write } from "./command.mjs";
import { commandObject, open, pageOf, stepObject } from "./lesson.mjs";

const BUDGET = 1000;
const LOG = 64;

/** What the run was given and how it must come out, by the command. */
const ran = (example, readings, log, budget) =>
  objects("run", ...example.files, ...readingsOption(example, readings), "--log", String(log), "--budget", String(budget));

for (const example of EXAMPLES) {
  const page = pageOf(example);

  test(`${example.name}: each instruction as hemdroas step shows it, forwards and back`, async () => {
    const session = await open(page);
    const steps = objects("step", ...example.files, ...readingsOption(example, example.readings), "--all");
    const wanted = steps.filter(({ type }) => type === "step").map(commandObject);
    assert.equal(session.last, wanted.length);
    const seen = [];
    for (const want of wanted) {
      seen.push({ ...session.now });
      session.step();
      assert.deepEqual(stepObject(session), want);
      assert.deepEqual(session.failures, []);
    }
    for (let at = wanted.length - 1; at >= 0; at--) {
      session.back();
      assert.equal(session.at, at);
      if (at > 0) assert.deepEqual(stepObject(session), wanted[at - 1]);
      assert.deepEqual(session.now.machine, seen[at].machine);
      assert.deepEqual(session.now.memory, seen[at].memory);
      assert.deepEqual(session.failures, []);
    }
  });

  test(`${example.name}: other readings, logs and budgets as hemdroas run has them`, async () => {
    const cases = [
      [[], LOG, BUDGET],
      [[1500], LOG, BUDGET],
      [[1500, 1600, 1700, 1800, 1990, 2000, 2300], LOG, BUDGET],
      [example.readings, 5, BUDGET],
      [example.readings, 2, BUDGET],
      [example.readings, 0, BUDGET],
      [example.readings, LOG, 33],
      [example.readings, LOG, 0],
    ];
    for (const [readings, log, budget] of cases) {
      const { trace } = await open(page, { readings, log, budget });
      const all = ran(example, readings, log, budget);
      const end = all.at(-1);
      const last = trace.frames.at(-1);
      const got = [trace.ending, trace.frames.length - 1, last.pairs, last.used, last.state];
      assert.deepEqual(got, [end.ending, end.steps, end.pairs, end.readings, end.state]);
      const pairs = all.filter(({ type }) => type === "pair").map(({ event, value }) => [event, value]);
      assert.deepEqual(trace.events.map(({ event, value }) => [event, value]), pairs);
    }
  });

  test(`${example.name}: engine and machine agree, and the other memory makes no difference, after every command`, async () => {
    const session = await open(page);
    session.setByCommand(true);
    assert.equal(session.last, session.trace.frames.length - 1);
    for (let at = 0; at <= session.last; at++) {
      session.go(at);
      assert.deepEqual(session.failures, []);
      const { now, facts } = session;
      assert.ok(facts.freeCells.every((cell) => now.memory[cell] !== now.there.memory[cell]));
    }
  });
}

/** Each ending that a checked routine can have: an example, and what its run is given. A fault (22) it cannot have. */
const ENDINGS = {
  ENDED: [ROAST, {}],
  NO_ARROW: [SAMPLE, {}],
  LOG_FULL: [ROAST, { log: 2 }],
  PROBE_SILENT: [ROAST, { readings: [] }],
  SPENT: [ROAST, { budget: 10 }],
  NO_LANDING: [CURIOUS, {}],
};

for (const [name, [example, given]] of Object.entries(ENDINGS)) {
  test(`${answerText(ENDING[name])} is the command's ending and the page's, and engine and machine agree there`, async () => {
    const { readings, log, budget } = { readings: example.readings, log: LOG, budget: BUDGET, ...given };
    const session = await open(pageOf(example), given);
    session.go(session.last);
    assert.equal(session.trace.ending, ENDING[name]);
    assert.equal(ran(example, readings, log, budget).at(-1).ending, ENDING[name]);
    assert.deepEqual(session.failures, []);
    assert.equal(session.frame.isRunning, ["LOG_FULL", "PROBE_SILENT", "SPENT"].includes(name));
  });
}

test("fault (22): only a list that the checker refuses has it", async () => {
  assert.deepEqual(Object.keys(ENDING).filter((name) => !ENDINGS[name]), ["FAULT"]);
  const files = [write("away.routine", "SET r1, 5000\nSTORE r1, r1\n"), ...ROAST.files.slice(1)];
  const session = await open(pageOf({ name: "away", files }));
  assert.equal(session.trace.ending, ENDING.ENDED);
  const bare = withoutMask(session.lib, session.facts, 1, AS_WRITTEN);
  assert.equal(answerText(bare.answer.number), "bad bundle (11)");
  const trace = new Trace(session.lib, bare, session.given, lendBench(session.lib, session.facts), { withEngine: false });
  for (const _ of trace.run()) continue;
  assert.equal(trace.ending, ENDING.FAULT);
});

test("a full log that is emptied, and further readings, lead to the same record", async () => {
  const page = pageOf(ROAST);
  const whole = await open(page);
  const parts = await open(page, { log: 4, emptied: 99 });
  assert.deepEqual(parts.trace.events, whole.trace.events);
  assert.equal(parts.trace.ending, ENDING.ENDED);
  parts.setByCommand(true);
  for (let at = parts.last; at >= 0; at--) {
    parts.go(at);
    assert.deepEqual(parts.failures, []);
  }
  const silent = await open(page, { readings: page.readings.slice(0, 1) });
  silent.go(silent.last);
  silent.given.readings = page.readings;
  await silent.run();
  assert.deepEqual(silent.trace.events, whole.trace.events);
});

test("the next event, a line, a breakpoint and the last step are where they should be", async () => {
  const session = await open(pageOf(ROAST));
  session.nextEvent();
  assert.equal(session.now.pairs, 1);
  assert.equal(session.runTo(11), true);
  assert.equal(session.now.index, 11);
  assert.equal(session.runTo(0), false);
  session.toggleBreakpoint(11);
  assert.ok(session.isAtBreakpoint);
  session.toggleBreakpoint(11);
  assert.ok(!session.isAtBreakpoint);
  session.go(session.last + 5);
  assert.equal(session.at, session.last);
  session.go(-1);
  assert.equal(session.at, 0);
});
