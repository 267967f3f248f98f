// Refusals. `hemdroas page` refuses in the words of `hemdroas check`, and writes nothing. If a page gets such data all the same, it
// shows the refusal's word and number.
import assert from "node:assert/strict";
import { existsSync, readFileSync } from "node:fs";
import { join } from "node:path";
import { test } from "node:test";
import { answerText, offsetOf } from "../../web/library/header.mjs";
import { Session } from "../../web/model/session.mjs";
import { ROAST, folder, hemdroas, write } from "./command.mjs";
import { library, pageOf } from "./lesson.mjs";

const [ROUTINE, , DRUM, , POLICY] = ROAST.files;
const drumWith = (line, other) => write("bad.drum", readFileSync(DRUM, "utf8").replace(line, other));
const bytes = (...list) => write("bad.bytes", Buffer.from(list));

const policy = (...lines) => write("bad.policy", `${lines.join("\n")}\n`);
const LAST = 5;

/** A drawing in which whether an event so many steps ago was 'air' makes a set of its own: 32 sets. */
const MANY_SETS = [
  "drawing",
  "state q0\n  gas -> q0\n  air -> q0 q1",
  ...Array.from({ length: LAST - 1 }, (_, i) => `state q${i + 1}\n  gas -> q${i + 2}\n  air -> q${i + 2}`),
  `state q${LAST}`,
  "start q0",
];

/** What is wrong, with the files that are not the roast's. Bad bundle (11) and bad count (12) are no list's that was rewritten. */
const BAD = {
  "a word that is no instruction": { routine: () => write("bad.routine", "SAT r1, 2\nSET r99, 3\n") },
  "short weight (1)": { routine: () => bytes(1, 0) },
  "foreign matter (2)": { routine: () => bytes(1, 0, 64) },
  "unknown variety (3)": { routine: () => bytes(1, 0, 1, 13) },
  "off grade (4)": { routine: () => bytes(1, 0, 3, 1, 15) },
  "oversize (5)": { routine: () => bytes(0, 4) },
  "overweight (6)": { routine: () => bytes(0, 0, 0) },
  "bad layout (7)": { drum: () => drumWith("SL 256", "SL 257") },
  "bad landing (8)": { routine: () => write("bad.routine", "GOIF always, 9\n") },
  "bad policy (10)": { drum: () => drumWith("B 4096", "B 4096\nS 2") },
  "bad base (13)": { drum: () => drumWith("B 4096", "B 4100") },
  "bad landing list (14)": { drum: () => drumWith("landings routine", "landings 3 2") },
  "too many states (15)": { policy: () => policy(...MANY_SETS) },
  "bad drawing (16)": { policy: () => policy("drawing", ...Array.from({ length: 17 }, (_, s) => `state s${s}`), "start s0") },
  "bad pair (17)": { policy: () => policy("gas before air", "air before door", "door before charge", "charge before cool") },
  "a policy without its start": { policy: () => write("bad.policy", "state one\n  gas -> two\n") },
  "a named cell that is not the drum's own": { drum: () => drumWith("cell 8 600", "cell 300 600") },
  "a named cell that stands twice": { drum: () => drumWith("cell 9 1", "cell 8 1") },
};

for (const [what, { routine = () => ROUTINE, drum = () => DRUM, policy = () => POLICY }] of Object.entries(BAD)) {
  test(`hemdroas page refuses ${what} in the words of hemdroas check`, () => {
    const files = [routine(), "--drum", drum(), "--policy", policy()];
    const out = join(folder, "refused.html");
    const [checked, paged] = [hemdroas("check", ...files), hemdroas("page", ...files, "-o", out)];
    assert.deepEqual([checked.status, paged.status], [1, 1]);
    assert.notEqual(paged.said, "");
    assert.equal(paged.said, checked.said);
    if (/\(\d+\)/.test(what)) assert.ok(paged.said.includes(`refused as ${what}`), paged.said);
    assert.ok(!existsSync(out));
  });
}

const LAYOUT = (field) => offsetOf("layout", field);
const withLayout = (field, value) => (page) => ({ ...page, layout: page.layout.with(LAYOUT(field), value) });
const withBytes = (...list) => (page) => ({ ...page, routine: Uint8Array.from(list) });

/** What the page would be handed, and the refusal. */
const HANDED = {
  1: withBytes(1, 0),
  2: withBytes(1, 0, 64),
  3: withBytes(1, 0, 1, 13),
  4: withBytes(1, 0, 3, 1, 15),
  5: withBytes(0, 4),
  6: withBytes(0, 0, 0),
  7: withLayout("low", 257),
  8: withBytes(1, 0, 33, 10, 9, 0, 0, 0),
  10: withLayout("states", 2),
  13: withLayout("base", 4100),
  14: (page) => ({ ...page, landings: [3, 2] }),
};

for (const [number, spoil] of Object.entries(HANDED)) {
  test(`a page that is handed what is refused as ${answerText(number)} says so`, async () => {
    const page = spoil(pageOf(ROAST));
    const lib = await library();
    assert.throws(() => new Session(lib, page), (error) => error.message.includes(`refused as ${answerText(number)}`));
  });
}

test("a page that stands there stays when a new one is refused", () => {
  const out = write("standing.html", "as it was");
  const files = [bytes(1, 0), ...ROAST.files.slice(1)];
  assert.equal(hemdroas("page", ...files, "-o", out).status, 1);
  assert.equal(readFileSync(out, "utf8"), "as it was");
});

test("files that cannot be read are told of in the words of hemdroas check", () => {
  for (const files of [["none.routine", ...ROAST.files.slice(1)], [ROUTINE, "--drum", "none.drum", "--policy", POLICY], [ROUTINE, "--drum", DRUM, "--policy", "none.policy"]]) {
    const out = join(folder, "refused.html");
    const [checked, paged] = [hemdroas("check", ...files), hemdroas("page", ...files, "-o", out)];
    assert.notEqual(paged.status, 0);
    assert.deepEqual([paged.status, paged.said], [checked.status, checked.said]);
    assert.ok(!existsSync(out));
  }
});

test("a list that is no bundles is refused as bad count (12)", async () => {
  const lib = await library();
  const { facts } = new Session(lib, pageOf(ROAST));
  const { number } = lib.check(facts.layout, facts.commands.subarray(2));
  assert.equal(answerText(number), "bad count (12)");
});

test("a page takes no more than it can show", () => {
  for (const [option, value] of [["--budget", "10001"], ["--log", "4097"], ["--readings", "hot"]]) {
    const out = join(folder, "refused.html");
    const { status, said } = hemdroas("page", ...ROAST.files, option, value, "-o", out);
    assert.equal(status, 2);
    assert.match(said, new RegExp(option));
    assert.ok(!existsSync(out));
  }
});

test("a routine's text and a file's name cannot break out of their place in the page", () => {
  const routine = write("<b>&.routine", "HALT # </script><script>alert(1)</script> {{TITLE}}\n");
  const out = join(folder, "odd.html");
  assert.equal(hemdroas("page", routine, ...ROAST.files.slice(1), "-o", out).status, 0);
  const page = readFileSync(out, "utf8");
  assert.ok(page.includes("<title>&lt;b&gt;&amp;.routine in its sandbox</title>"));
  assert.ok(!page.includes("alert(1)</script>"));
});
