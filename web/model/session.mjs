// A session: what the viewer has given, its trace, and the place in it that is shown. It knows nothing of the page's elements.
import { ENDING, offsetOf } from "../library/header.mjs";
import { commandName, isAccess, isJump, kindName, wordAt } from "../library/words.mjs";
import { askFacts, conditionHolds } from "./facts.mjs";
import { allOk } from "./compare.mjs";
import { Readings } from "./readings.mjs";
import { inSlices } from "./slices.mjs";
import { lendBench, Trace } from "./trace.mjs";

const PC = offsetOf("machine", "pc");
const HIDDEN = PC - 1; // the last register

export class Session {
  constructor(lib, page) {
    this.lib = lib;
    this.page = page;
    this.facts = askFacts(lib, page);
    this.benches = [lendBench(lib, this.facts), lendBench(lib, this.facts)];
    this.typed = new Readings(lib, this.facts, page);
    this.byCommand = false;
    this.breakpoints = new Set();
    this.given = { readings: page.readings, budget: page.budget, log: page.log, emptied: 0, writes: [], free: page.free };
    this.trace = null;
    this.at = 0;
    this.turn = 0;
  }

  /** Runs all anew with what was given, and stays at the same command. `onSlice(done, most)` moves a bar. */
  async run(onSlice = () => {}) {
    const turn = ++this.turn;
    const bench = this.benches.find((one) => one !== this.trace?.bench);
    const trace = new Trace(this.lib, this.facts, { ...this.given }, bench);
    const isLatest = () => turn === this.turn;
    const isDone = await inSlices(trace.run(), isLatest, (count) => onSlice(count, trace.given.budget));
    if (!isDone) return false;
    const stood = this.trace ? this.command : 0;
    this.trace = trace;
    this.standAt(stood);
    return true;
  }

  /** The frames that can be shown: all of them, or only those where an instruction begins, the routine ends or the budget is spent. */
  #findStops() {
    const { frames, ending } = this.trace;
    const isSpent = (k) => ending === ENDING.SPENT && k === frames.length - 1;
    const isStop = (frame, k) => this.byCommand || frame.isFirst || !frame.isRunning || isSpent(k);
    this.stops = [...frames.keys()].filter((k) => isStop(frames[k], k));
  }

  standAt(command) {
    this.#findStops();
    this.go(this.stops.findLastIndex((k) => k <= command));
  }

  setByCommand(on) {
    const stood = this.command;
    this.byCommand = on;
    this.standAt(stood);
  }

  get last() {
    return this.stops.length - 1;
  }

  /** The commands done. */
  get command() {
    return this.stops[this.at];
  }

  get frame() {
    return this.trace.frames[this.command];
  }

  /** Stands at a stop. What is shown there is a run from the installation, so that going back is exact. */
  go(at) {
    this.at = Math.max(0, Math.min(this.last, at));
    const look = (k) => ({ ...this.trace.frames[k], k, ...this.trace.replay(k) });
    this.before = this.at > 0 ? look(this.stops[this.at - 1]) : null;
    this.now = look(this.command);
    this.now.there = this.trace.replay(this.command, "there");
    this.now.isExact &&= this.now.there.isExact || this.frame.twins !== null;
  }

  step() {
    this.go(this.at + 1);
  }

  back() {
    this.go(this.at - 1);
  }

  /** The next stop, from here on, with this quality; else the last. */
  #next(isGood) {
    const found = this.stops.findIndex((k, at) => at > this.at && isGood(this.trace.frames[k]));
    return found < 0 ? this.last : found;
  }

  nextEvent() {
    const { pairs } = this.frame;
    this.go(this.#next((frame) => frame.pairs > pairs));
  }

  /** Goes to the next time that an instruction begins; false if it does not. */
  runTo(instruction) {
    const at = this.#next((frame) => frame.isFirst && frame.index === instruction);
    const frame = this.trace.frames[this.stops[at]];
    if (at === this.at || !frame.isFirst || frame.index !== instruction) return false;
    this.go(at);
    return true;
  }

  /** Goes to the next time that a line with a breakpoint begins; false if none does. */
  runToBreakpoint() {
    const isStop = (frame) => frame.isFirst && this.breakpoints.has(frame.index);
    const at = this.#next(isStop);
    if (at === this.at || !isStop(this.trace.frames[this.stops[at]])) return false;
    this.go(at);
    return true;
  }

  /** Whether the budget was spent within the instruction that is shown. */
  get isInside() {
    return !this.byCommand && this.frame.isRunning && !this.frame.isFirst;
  }

  get isAtBreakpoint() {
    return this.frame.isFirst && this.breakpoints.has(this.frame.index);
  }

  toggleBreakpoint(instruction) {
    if (!this.breakpoints.delete(instruction)) this.breakpoints.add(instruction);
  }

  /** Writes a value to a free cell at this moment of the run. */
  write(cell, value) {
    const here = this.command;
    const others = this.given.writes.filter((write) => write.at !== here || write.cell !== cell);
    this.given.writes = [...others, { at: here, cell, value }];
  }

  /** The event of the last step, if it recorded one. */
  get event() {
    const from = this.before ? this.before.k : this.command;
    return this.trace.events.find(({ at }) => at > from && at <= this.command) ?? null;
  }

  word(instruction) {
    return wordAt(this.facts.words, instruction);
  }

  /** The word of an instruction. HALTs follow the last word. */
  wordOrHalt(instruction) {
    return 2 * instruction < this.facts.words.length ? this.word(instruction) : { kind: 0 };
  }

  /** The last comparison of engine and machine up to here. At the last stop, it is the comparison at the end. */
  get agreement() {
    const upTo = this.at === this.last ? this.trace.frames.length - 1 : this.command;
    const at = this.trace.frames.findLastIndex((frame, k) => k <= upTo && frame.agree);
    return { at, rows: this.trace.frames[at].agree };
  }

  /** The first frames at which a comparison failed: what was seen, with the number of commands. */
  get failures() {
    const { frames } = this.trace;
    const first = (isBad) => frames.findIndex(isBad);
    const found = [
      ["Engine and machine do not agree", first((frame) => frame.agree && !allOk(frame.agree))],
      ["The routine saw the free cells", first((frame) => frame.twins)],
      ["A free cell was changed", first((frame) => frame.moved > 0)],
      ["The policy’s table or a landing was changed", first((frame) => frame.spoilt > 0)],
      ["The run in one go and command by command came out differently", this.now.isExact ? -1 : this.command],
    ];
    return found.filter(([, at]) => at >= 0).map(([what, at]) => ({ what, at }));
  }

  /** The address of a LOAD or STORE and the cell that the mask made of it, if the last step was one and they differ; else null. */
  get reach() {
    const began = this.bundleBegan;
    if (!began || !isAccess(this.wordOrHalt(began.index))) return null;
    const named = began.machine[this.word(began.index).a];
    const hit = this.now.machine[HIDDEN];
    return named === hit ? null : { named, hit };
  }

  /** If the last step finished an instruction, the frame at which that instruction began; else null. */
  get bundleBegan() {
    const { frames } = this.trace;
    const isFinished = this.before && (this.frame.isFirst || !this.frame.isRunning);
    return isFinished ? frames.findLast((frame, k) => k < this.command && frame.isFirst) : null;
  }

  /** The jump that one instruction made between two frames: whether its condition held, and where it led. */
  jump(began, ended) {
    const word = this.word(began.index);
    const holds = conditionHolds(this.lib, this.facts, word, began.machine);
    return { from: began.index, word, began, holds, to: ended.isRunning ? ended.index : null };
  }

  /** The last jump of each instruction up to here. */
  get lastJumps() {
    const { frames } = this.trace;
    const found = new Map();
    let ended = this.command;
    for (let k = this.command - 1; k >= 0; k--) {
      if (!frames[k].isFirst) continue;
      const { index } = frames[k];
      const isDone = frames[ended].isFirst || !frames[ended].isRunning;
      if (isDone && !found.has(index) && isJump(this.wordOrHalt(index))) found.set(index, { began: k, ended });
      ended = k;
    }
    return found;
  }

  /** The policy's arrow that the last step went along: from one state to another. */
  get taken() {
    const { before, facts } = this;
    const word = before && this.wordOrHalt(before.index);
    if (!before || kindName(word) !== "EVENT" || !this.frame.isRunning || this.isInside) return null;
    const isSent = this.byCommand ? ["EVENT", "KEEP"].includes(commandName(wordAt(facts.commands, this.lastCommand))) : true;
    return isSent ? { from: before.state, to: facts.arrows[before.state][word.v] } : null;
  }

  /** The index in the list of the command that the last step executed. */
  get lastCommand() {
    return this.before.machine[PC] - this.facts.shape.base;
  }

  /** The event that the policy stopped, if the routine is stopped here. */
  get stopped() {
    const isStopped = !this.frame.isRunning && this.trace.ending === ENDING.NO_ARROW;
    return isStopped ? this.wordOrHalt(this.frame.index).v : null;
  }
}
