// What the page shows of the claims: free cells written at any moment, the loud failure, the list without a mask, the preview,
// and long runs in slices.
import assert from "node:assert/strict";
import { test } from "node:test";
import { Library } from "../../web/library/binding.mjs";
import { ENDING, answerText } from "../../web/library/header.mjs";
import { numbersText, readNumber, readNumbers, valueText } from "../../web/model/numbers.mjs";
import { agreement } from "../../web/model/compare.mjs";
import { clippedMiddle, policyModel } from "../../web/model/policy.mjs";
import { Preview } from "../../web/model/preview.mjs";
import { Session } from "../../web/model/session.mjs";
import { jumpReason, tellInstruction } from "../../web/model/story.mjs";
import { Trace, lendBench } from "../../web/model/trace.mjs";
import { AS_WRITTEN, deedsOf, differences, forbiddenTargets, maskedInstructions, withoutMask } from "../../web/model/unmasked.mjs";
import { CURIOUS, EXAMPLES, PROFILES, ROAST, hemdroas, objects, write } from "./command.mjs";
import { library, open, pageOf, spoiltLibrary } from "./lesson.mjs";

const PURGE = 8;
const TABLE_CELL = 519; // of an event that the roast does not send

test("a free cell takes what the viewer writes, at any moment, and nothing else changes", async () => {
  const page = pageOf(CURIOUS);
  const plain = await open(page);
  const session = await open(page, { writes: [{ at: 0, cell: PURGE, value: 5 }, { at: 17, cell: PURGE, value: 0 }, { at: 30, cell: 9, value: 77 }] });
  assert.deepEqual(session.trace.frames.map((f) => f.machine), plain.trace.frames.map((f) => f.machine));
  assert.deepEqual(session.trace.events, plain.trace.events);
  session.setByCommand(true);
  for (const [at, value] of [[0, 5], [16, 5], [17, 0], [40, 0]]) {
    session.go(at);
    assert.equal(session.now.memory[PURGE], value);
    assert.notEqual(session.now.there.memory[PURGE], value);
    assert.deepEqual(session.failures, []);
  }
  assert.equal(session.now.memory[9], 77);
});

test("a cell that is not free stays as it is, whatever is asked", async () => {
  const page = pageOf(ROAST);
  const session = await open(page, { writes: [{ at: 0, cell: page.layout[1], value: 7 }] });
  assert.equal(session.now.memory[page.layout[1]], 0);
});

/** What each fault of a library must bring. */
const FAULTS = {
  "Engine and machine do not agree": (lib) => {
    lib.engineRun = function (layout, routine, engine, ...rest) {
      const answer = Library.prototype.engineRun.call(this, layout, routine, engine, ...rest);
      engine[3] += 1;
      return answer;
    };
  },
  "The routine saw the free cells": (lib) => {
    lib.run = function (layout, commands, machine, memory, stretch) {
      const answer = Library.prototype.run.call(this, layout, commands, machine, memory, stretch);
      machine[14] = memory[PURGE];
      return answer;
    };
  },
  "A free cell was changed": (lib) => {
    lib.run = function (layout, commands, machine, memory, stretch) {
      const answer = Library.prototype.run.call(this, layout, commands, machine, memory, stretch);
      memory[PURGE] = 1;
      return answer;
    };
  },
  "The policy’s table or a landing was changed": (lib) => {
    lib.run = function (layout, commands, machine, memory, stretch) {
      const answer = Library.prototype.run.call(this, layout, commands, machine, memory, stretch);
      memory[TABLE_CELL] = 1;
      return answer;
    };
  },
  "The run in one go and command by command came out differently": (lib) => {
    lib.run = function (layout, commands, machine, memory, stretch) {
      const answer = Library.prototype.run.call(this, layout, commands, machine, memory, stretch);
      if (stretch.budget > 1) machine[2] += 1;
      return answer;
    };
  },
};

for (const [what, spoil] of Object.entries(FAULTS)) {
  test(`a library at fault is noticed: ${what}`, async () => {
    const session = await open(pageOf(ROAST), {}, await spoiltLibrary(spoil));
    session.go(session.last);
    assert.ok(session.failures.some((failure) => failure.what === what), JSON.stringify(session.failures));
  });
}

async function unmask(example, instruction, cell) {
  const session = await open(pageOf(example));
  const bare = withoutMask(session.lib, session.facts, instruction, cell);
  const trace = new Trace(session.lib, bare, session.given, lendBench(session.lib, session.facts), { withEngine: false });
  for (const _ of trace.run()) continue;
  const found = differences(trace, session.trace);
  return { bare, found, deeds: deedsOf(found), trace };
}

test("without the mask of a LOAD the checker refuses bundle 3, and the routine sees the purge timer", async () => {
  const { bare, found } = await unmask(CURIOUS, 3, AS_WRITTEN);
  assert.equal(answerText(bare.answer.number), "bad bundle (11)");
  assert.equal(bare.answer.place, 3);
  assert.ok(found.isSeen);
  const [seen] = found.then.apart;
  assert.deepEqual([seen.what, seen.here], ["r3", 600]);
  assert.notEqual(seen.there, 600);
});

test("without the mask of a STORE the purge timer is overwritten", async () => {
  const { bare, found } = await unmask(CURIOUS, 4, AS_WRITTEN);
  assert.equal(bare.answer.place, 4);
  assert.deepEqual(found.then.moved, [{ cell: PURGE, wrote: 600, now: 4000 }]);
});

test("a routine that keeps to its sandbox can be aimed at a free cell", async () => {
  const session = await open(pageOf(ROAST));
  const [store] = maskedInstructions(session.facts);
  assert.deepEqual((await unmask(ROAST, store, AS_WRITTEN)).deeds, []);
  const { bare, found } = await unmask(ROAST, store, PURGE);
  assert.equal(bare.answer.place, store);
  assert.deepEqual(found.then.moved, [{ cell: PURGE, wrote: 600, now: 1500 }]);
});

/** Routines that write where they must not, and what they do there without the mask. */
const STRAYS = {
  "the state cell": ["SET r1, 0\nSET r2, 2\nSTORE r1, r2\nSET r0, 1\nEVENT cool\n", 2, ["wrote the policy’s state cell", "ended otherwise than with the mask"]],
  "the table": ["SET r1, 515\nSET r2, 2\nSTORE r1, r2\nEVENT charge\n", 2, ["wrote the policy’s table"]],
  "a landing cell": ["SET r1, 32\nSTORE r1, r1\n", 1, ["wrote a landing cell"]],
  "an address above all": ["SET r1, 1024\nSTORE r1, r1\n", 1, ["left the memory at address 1024: fault (22)", "ended otherwise than with the mask"]],
  "a free cell": ["SET r1, 700\nSTORE r1, r1\n", 1, ["changes what is not its own"]],
  "the state cell, only read": ["LOAD r2, r1\nSTORE r3, r2\n", 0, ["read the policy’s state cell"]],
  "a line that is not reached": ["HALT\nSTORE r1, r1\n", 1, []],
};

for (const [what, [routine, instruction, deeds]] of Object.entries(STRAYS)) {
  test(`without the mask it is said what a routine does: ${what}`, async () => {
    const example = { name: "stray", files: [write("stray.routine", routine), ...ROAST.files.slice(1)] };
    const { found, deeds: done } = await unmask(example, instruction, AS_WRITTEN);
    assert.deepEqual(done, deeds);
    assert.equal(found.isReached, deeds.length > 0);
  });
}

/** Of a routine on a drum: the GOX without its mask, by an aim that `aimAt` gives. */
async function unmaskJump(routine, instruction, { drum = ROAST.files[2], aimAt = () => AS_WRITTEN } = {}) {
  const any = write("any.policy", "state any\n  others -> any\nstart any\n");
  const example = { name: "jump", files: [write("jump.routine", routine), "--drum", drum, "--policy", any] };
  const { facts } = await open(pageOf(example));
  return unmask(example, instruction, aimAt(forbiddenTargets(facts)));
}

const ALL_LANDINGS = "U 1024\nSL 256\nSH 511\nM 0\nP 512\nB 4096\nQ 32\nlandings all\nevent 0 gas\n";
const JUMP = "SET r5, next\nGOX r5, always\nEVENT gas\nlanding next:\nHALT\n";

test("without the mask of a GOX the checker refuses its bundle, and the jump aims where the routine has no command", async () => {
  const { bare, found, deeds, trace } = await unmask(CURIOUS, 10, AS_WRITTEN);
  assert.deepEqual([bare.answer.number, bare.answer.place], [11, 10]);
  assert.deepEqual(deeds, ["aimed at address 52, where it has no command: no landing (26)", "ended otherwise than with the mask"]);
  assert.deepEqual([found.masked.index, found.masked.isRunning], [13, true]);
  assert.equal(trace.ending, ENDING.NO_LANDING);
  const { deeds: stopped, found: both } = await unmask(CURIOUS, 19, AS_WRITTEN);
  assert.deepEqual(stopped, ["aimed at address 16000, where it has no command: no landing (26)"]);
  assert.equal(both.masked.isRunning, false);
});

test("a GOX without its mask can be aimed behind a check, or behind the last command", async () => {
  const drum = write("all.drum", ALL_LANDINGS);
  const event = await unmaskJump(JUMP, 1, { drum, aimAt: (targets) => targets.event });
  assert.deepEqual(event.deeds, ["aimed into the middle of a bundle, at address 4106: no landing (26)", "ended otherwise than with the mask"]);
  const behind = await unmaskJump(JUMP, 1, { drum, aimAt: (targets) => targets.behind });
  assert.deepEqual(behind.deeds, ["aimed at address 4128, where it has no command: fault (22)", "ended otherwise than with the mask"]);
  assert.deepEqual([event.trace.ending, behind.trace.ending], [ENDING.NO_LANDING, ENDING.FAULT]);
});

test("a GOX without its mask that does nothing wrong: it leads to an instruction, it is not made, it is not reached", async () => {
  const there = await unmaskJump("SET r5, 1026\nGOX r5, always\nlanding\nHALT\n", 1);
  assert.deepEqual([there.deeds, there.found.isMade], [[], true]);
  const never = await unmaskJump("SET r5, 1\nGOX r5, r5, r0, equal\nHALT\n", 1);
  assert.deepEqual([never.deeds, never.found.isReached, never.found.isMade], [[], true, false]);
  const away = await unmaskJump("HALT\nGOX r5, always\n", 1);
  assert.deepEqual([away.deeds, away.found.isReached], [[], false]);
});

test("every mask of every example is refused when it is taken out", async () => {
  for (const example of EXAMPLES) {
    const session = await open(pageOf(example));
    const isMasked = (text) => /^(LOAD|STORE|GOX)\b/.test(text);
    const wanted = session.page.texts.flatMap((text, i) => (isMasked(text) ? [i] : []));
    assert.deepEqual(maskedInstructions(session.facts), wanted);
    for (const instruction of wanted) {
      const { answer } = withoutMask(session.lib, session.facts, instruction, AS_WRITTEN);
      assert.deepEqual([answer.number, answer.place], [11, instruction]);
    }
  }
});

test("a preview answers as the run does that follows, and touches nothing", async () => {
  const session = await open(pageOf(ROAST));
  session.go(12);
  const preview = new Preview(session.lib, session.facts);
  const ahead = preview.look(session.now, session.given, [1960, 2100]);
  assert.ok(ahead.isUntouched);
  assert.deepEqual(ahead.pairs, session.trace.events.slice(session.now.pairs).map(({ event, value }) => ({ event, value })));
  assert.equal(ahead.ending, ENDING.ENDED);
  const last = session.trace.replay(session.trace.frames.length - 1);
  assert.deepEqual(ahead.cells.map(({ cell, then }) => [cell, then]), [[257, last.memory[257]], [258, last.memory[258]]]);
});

test("a jump tells its reason", async () => {
  const session = await open(pageOf(ROAST));
  session.go(12);
  const jump = session.jump(session.before, session.now);
  assert.deepEqual(jumpReason(session.page, jump, "unsigned"), { full: "1500 below 1950: yes, to heat (line 12)", short: "1500 below 1950: yes, to heat" });
});

const LOOP = "loop: ADD r1, r1, r2\n STORE r3, r1\n GOIF r0, r0, always, loop\n";

test("10,000 commands are run in slices", async () => {
  const drum = ROAST.files.slice(1);
  const page = pageOf({ name: "loop", files: [write("loop.routine", LOOP), ...drum], readings: [] }, ["--budget", "10000"]);
  const session = new Session(await library(), page);
  const told = [];
  assert.equal(await session.run((done) => told.push(done)), true);
  assert.equal(session.trace.frames.length - 1, 10000);
  assert.ok(told.length > 2 && told.every((done, i) => i === 0 || done > told[i - 1]), `${told}`);
});

test("a newer run takes over from an older one in its midst, and comes out as if it were alone", async () => {
  const drum = ROAST.files.slice(1);
  const page = pageOf({ name: "loop", files: [write("loop.routine", LOOP), ...drum], readings: [] }, ["--budget", "10000"]);
  const alone = await open(page, { budget: 9000 });
  const session = new Session(await library(), page);
  const older = session.run();
  await new Promise((done) => setTimeout(done));
  session.given.budget = 9000;
  const newer = session.run();
  assert.deepEqual([await older, await newer], [false, true]);
  session.go(session.last);
  assert.deepEqual(session.failures, []);
  assert.deepEqual(session.trace.frames.at(-1).machine, alone.trace.frames.at(-1).machine);
});

test("a budget spent inside a bundle: its last command can be reached, and the record is that of the end", async () => {
  const page = pageOf({ name: "inside", files: [write("inside.routine", "EVENT gas\nHALT\n"), ...ROAST.files.slice(1)], readings: [] }, ["--budget", "3"]);
  const session = await open(page);
  session.go(session.last);
  assert.deepEqual([session.command, session.now.pairs], [3, 1]);
  assert.equal(session.trace.ending, ENDING.SPENT);
  assert.equal(session.taken, null);
  assert.equal(tellInstruction(session, "unsigned"), "The budget was spent inside it: 3 of its 4 commands are done.");
});

test("machine and engine: the first register or cell that differs is named", async () => {
  const session = await open(pageOf(ROAST));
  session.nextEvent();
  assert.deepEqual(session.agreement.rows[0], { what: "record", here: "1 pair", there: "1 pair", ok: true });
  session.go(session.last);
  const { facts, trace } = session;
  const { here, engine } = trace.sides;
  engine.engine[3] = here.machine[3] + 1;
  engine.memory[facts.shape.low + 7] = 5;
  const rows = agreement(facts, here, engine).filter(({ ok }) => !ok);
  assert.deepEqual(rows.map(({ what, there }) => [what, there]), [["r0 to r14", `r3 is ${here.machine[3] + 1}`], ["sandbox", `cell ${facts.shape.low + 7} is 5`]]);
});

test("a policy of 16 states is drawn with all that events lead to", async () => {
  const order = write("order.policy", "gas before air\nair before door\ndoor before charge\n");
  const [routine, , drum] = ROAST.files;
  const page = pageOf({ name: "order", files: [routine, "--drum", drum, "--policy", order] });
  const session = await open(page);
  const model = policyModel(page, session.facts);
  assert.equal(model.order.length + model.leftOut, 16);
});

test("a scaled reading is a person's number in the page, and the drum's in the library", async () => {
  const page = pageOf(PROFILES);
  assert.deepEqual(page.readings, PROFILES.readings);
  const session = await open(page);
  const tenths = session.typed.scalesFrom();
  assert.equal(tenths(), 10);
  session.nextEvent();
  session.nextEvent();
  assert.match(tellInstruction(session, "unsigned"), /The probe answers 190\.0: r0 becomes 1900, and the record has bean 190\.0\./);
  assert.deepEqual(readNumbers("196.5, -0.5, 0x10", tenths), { values: [1965, 4294967291, 16] });
  assert.match(readNumbers("196.55", tenths).problem, /too many decimals/);
  assert.deepEqual(readNumbers("214748364.7", tenths), { values: [2147483647] });
  assert.match(readNumbers("214748364.8", tenths).problem, /up to 214748364\.7/);
  assert.equal(valueText(1965, 10), "196.5");
  assert.equal(valueText(1965, 10, "hexadecimal"), "0x7AD");
});

const MIXED_DRUM = "U 1024\nSL 256\nSH 511\nM 0\nP 512\nB 4096\nQ 32\nlandings routine\nevent 0 gas\nevent 8 bean\nevent 9 exhaust\nscale bean 10\n";

/** A routine that reads two probes of different scales, which of them by what it read. */
const MIXED = {
  name: "mixed",
  files: [
    write("mixed.routine", "SET r1, 1900\nagain: EVENT bean\nEVENT gas\nGOIF r0, r1, below, again\nEVENT exhaust\nGOIF always, again\n"),
    "--drum", write("mixed.drum", MIXED_DRUM), "--policy", write("any.policy", "state any\n  others -> any\nstart any\n"),
  ],
  readings: [150.5, 196.5, 300, 200.1, 7],
};

test("probes of several scales: each reading has that of the event which takes it, as hemdroas run has it", async () => {
  const shown = objects("run", ...MIXED.files, "--readings", MIXED.readings.join()).filter(({ type }) => type === "pair").map(({ value }) => value);
  const page = pageOf(MIXED);
  const session = await open(page);
  assert.deepEqual(session.trace.events.map(({ value }) => value), shown);
  assert.equal(numbersText(page.readings, session.typed.scalesFrom()), "150.5, 196.5, 300, 200.1, 7");
  assert.deepEqual(readNumbers("150.5, 196.5, 300, 200.1, 7", session.typed.scalesFrom()).values, page.readings);
  session.nextEvent();
  session.nextEvent();
  assert.deepEqual(readNumbers("190, 300.0", session.typed.scalesFrom(session.now)).problem, "Write a whole number: 300.0 has decimals.");
  assert.match(hemdroas("page", ...MIXED.files, "--readings", "196.5,300.5", "-o", "-").said, /--readings: a reading of exhaust: '300\.5' is no whole number/);
});

test("the policy's ceiling counts where it is the lower one", async () => {
  const session = await open(pageOf(PROFILES));
  assert.equal(session.facts.shape.ceilings[0], 80);
  assert.ok(session.trace.events.some(({ event, value, r0 }) => event === 0 && value === 80 && r0 === 85));
});

test("names that are too long lose their middle", () => {
  assert.equal(clippedMiddle("phase11_of_roasting", 9), "phas…ting");
  assert.equal(clippedMiddle("short", 9), "short");
});

test("a field's text is read, or a sentence says what is wrong with it", () => {
  assert.deepEqual(readNumbers("1500, 0x10 -1;7"), { values: [1500, 16, 4294967295, 7] });
  assert.match(readNumbers("1500 hot").problem, /“hot” is no number/);
  for (const number of ["4294967296", "-2147483649"]) assert.match(readNumbers(number).problem, /^−?\d+ has more than 32 bits\. Write a number from −2147483648 to 4294967295\.$/);
  assert.deepEqual(readNumber("12", 12), { value: 12 });
  assert.match(readNumber("13", 12).problem, /up to 12/);
  assert.match(readNumber("-1", 12).problem, /^−1 is below 0\. Write a number from 0 to 12\.$/);
  assert.deepEqual(readNumber("-1"), { value: 4294967295 });
  assert.match(readNumber("1.5").problem, /^Write a whole number: 1\.5 has decimals\.$/);
  assert.match(readNumber("").problem, /Write a number/);
  assert.match(readNumber("1 2").problem, /one number only/);
});
