"use strict";

// The calling convention of the RISC-V psABI ("Integer Calling Convention"), looked at over the
// steps that were made. What does not keep to it is told, and never enforced. Nothing here knows
// the page.

/* The registers that a function leaves as they were: sp, gp, tp, and s0 to s11. */
const KEPT_REGISTERS = [2, 3, 4, 8, 9, 18, 19, 20, 21, 22, 23, 24, 25, 26, 27];

/* Those that a call may change, but for a0 and a1, in which a function returns its value. */
const LOST_REGISTERS = [1, 5, 6, 7, 12, 13, 14, 15, 16, 17, 28, 29, 30, 31];

/* For each register whether it is one of these. */
const IS_KEPT = Uint8Array.from({ length: 32 }, (_, at) => Number(KEPT_REGISTERS.includes(at)));
const IS_LOST = Uint8Array.from({ length: 32 }, (_, at) => Number(LOST_REGISTERS.includes(at)));

/* How many remarks are kept. */
const MOST_REMARKS = 20;

/* How many registers an instruction reads, by its opcode. A system call is none that reads. */
const READS = new Uint8Array(128);
for (const opcode of [0x03, 0x13, 0x67]) READS[opcode] = 1;
for (const opcode of [0x23, 0x33, 0x63]) READS[opcode] = 2;

/* The arguments that a function with a variable number of them saves where it begins. */
const isSavedArgument = (register) => register >= REGISTER.A2 && register <= REGISTER.A7;

/** What is known of the steps up to one: the innermost frame, whether it has made no step yet, of
 * each register its value and how many returns there were when it was written, what the latest
 * return left, and the remarks. */
class StateOfCalls {
  constructor(step, x) {
    this.step = step;
    this.top = null;
    this.isCalled = false;
    this.now = Uint32Array.from(x);
    // a call of before the latest return may have changed what was written before it
    this.writtenAt = new Float64Array(32);
    this.returns = 0;
    this.returned = undefined;
    this.remarks = new Map();
  }

  copy() {
    const copy = new StateOfCalls(this.step, this.now);
    const { top, isCalled, returns, returned } = this;
    Object.assign(copy, { top, isCalled, returns, returned });
    copy.writtenAt.set(this.writtenAt);
    for (const [key, remark] of this.remarks) copy.remarks.set(key, { ...remark });
    return copy;
  }

  remark(kind, pc, register, facts) {
    const key = `${kind} ${pc} ${register}`;
    const before = this.remarks.get(key);
    if (before !== undefined) before.count++;
    else if (this.remarks.size < MOST_REMARKS) {
      this.remarks.set(key, { kind, pc, register, count: 1, ...facts });
    }
  }

  /** Looks at a step: its address, its word and how many bytes it has, the register that it wrote, or
   * 0, and the register's values before and after it. */
  look(pc, word, size, rd, before, after) {
    if (this.isCalled) this.enter(pc);
    const reads = READS[word & 0x7f];
    if (reads > 0) this.lookAtRead(pc, word, word >>> 15 & 31);
    if (reads > 1) this.lookAtRead(pc, word, word >>> 20 & 31);
    const sp = this.now[REGISTER.SP];
    if (rd !== 0) this.write(rd, before, after);
    const opcode = word & 0x7f;
    if (opcode !== OPCODE.JAL && opcode !== OPCODE.JALR) return;
    const kind = kindOfJump(word);
    if (kind === "return") this.leave(pc);
    else if (kind === "call") this.call(pc, word, size, sp);
  }

  call(pc, word, size, sp) {
    const isPlain = (word >>> 7 & 31) === 1;
    const back = (pc + size) % 2 ** 32;
    this.top = new Frame(pc, undefined, back, sp, isPlain, this.returns, null, this.top);
    this.isCalled = true;
    if (this.top.depth > 2 * FRAMES_KEPT) this.top = shortenedFrames(this.top);
  }

  /* The first step of a function that was called. */
  enter(pc) {
    this.isCalled = false;
    this.top.entry = pc;
  }

  lookAtRead(pc, word, register) {
    if (IS_LOST[register] === 0 || this.writtenAt[register] === this.returns) return;
    if (this.isSaving(word, register)) return;
    this.writtenAt[register] = this.returns;
    const kind = kindOfJump(word) === "return" ? "ra" : "lost";
    this.remark(kind, pc, register, { entry: this.returned });
  }

  /* Whether a function that has made no call yet stores an argument of its caller, as one does that
   * has a variable number of them. It may have fewer. */
  isSaving(word, register) {
    return (word & 0x7f) === OPCODE.STORE && isSavedArgument(register)
      && this.top?.returns === this.returns;
  }

  write(rd, before, after) {
    if (IS_KEPT[rd] === 1 && this.top !== null) this.top = this.top.saving(rd, before);
    this.now[rd] = after;
    this.writtenAt[rd] = this.returns;
  }

  /* The innermost function returns. What it changed is changed for the one that called it. */
  leave(pc) {
    const frame = this.top;
    if (frame === null) return;
    this.top = frame.caller;
    for (let at = frame.saved; at !== null; at = at.next) {
      const { register, value: before } = at;
      const after = this.now[register];
      if (after !== before && frame.isPlain) {
        this.remark("kept", pc, register, { entry: frame.entry, before, after });
      }
      if (this.top !== null) this.top = this.top.saving(register, before);
    }
    // a function that is called by t0 saves and restores registers for another
    if (!frame.isPlain) return;
    this.returns++;
    this.returned = frame.entry;
  }
}

/** Follows the steps of a machine, there and back, by their records. What it found in steps whose
 * records are gone stays. */
class Convention {
  constructor(history) {
    this.history = history;
    this.clear();
  }

  /** Begins with the registers as they are. */
  clear() {
    this.begin(this.history.steps);
  }

  begin(step) {
    this.state = new StateOfCalls(step, this.history.kit.x);
    this.kept = [this.state.copy()];
  }

  /** The state behind the latest step. */
  follow() {
    const { history } = this;
    if (history.lowest < this.state.step) this.goBack(history.lowest);
    if (this.state.step < history.first) this.begin(history.first);
    history.lowest = history.steps;
    if (history.steps === 0) this.begin(0);
    while (this.state.step < history.steps) {
      // where records are dropped up to, there is a state
      const next = (Math.floor(this.state.step / STEPS_DROPPED) + 1) * STEPS_DROPPED;
      this.look(Math.min(next, history.steps));
      if (this.state.step === next) this.kept.push(this.state.copy());
    }
    while (this.kept.length > 1 && this.kept[1].step <= history.first) this.kept.shift();
    return this.state;
  }

  /* Looks at the records up to that of a step. */
  look(until) {
    const { state, history, history: { kit } } = this;
    const { u32 } = kit;
    for (; state.step < until; state.step++) {
      const at = history.placeOf(state.step);
      const bits = u32[at + RECORD.word];
      state.look(u32[at + RECORD.pc], kit.wordOf(bits), kit.sizeOf(bits), u32[at + RECORD.rd],
        u32[at + RECORD.rdBefore], u32[at + RECORD.rdAfter]);
    }
  }

  /* Takes up the latest state that is kept of before a step, or at it. */
  goBack(step) {
    while (this.kept.length > 1 && this.kept.at(-1).step > step) this.kept.pop();
    if (this.kept[0].step > step) return this.begin(this.history.first);
    this.state = this.kept.at(-1).copy();
    return undefined;
  }

  /** Takes up a register that was changed by hand. */
  change(register, value) {
    this.follow();
    this.state.now[register] = value;
    this.state.writtenAt[register] = this.state.returns;
    if (this.kept.at(-1).step === this.state.step) this.kept.pop();
    this.kept.push(this.state.copy());
  }
}

/** What does not keep to the convention in the steps that were made, the first ones first, and how
 * often each happened. */
const remarksOf = (machine) => [...machine.convention.follow().remarks.values()];

/** A remark as a sentence. `nameOf` names an address. */
function sentenceOf({ kind, pc, register, entry, before, after, count }, names, nameOf) {
  const name = names[register];
  const called = nameOf(entry);
  const often = count > 1 ? ` (${numbered(count)} times)` : "";
  if (kind === "ra") {
    return `The return at ${nameOf(pc)} uses the ${name} that the call of ${called} left: ${name} `
      + `has to be saved before a call.${often}`;
  }
  if (kind === "lost") {
    return `${name} is read at ${nameOf(pc)}, and the call of ${called} before may have changed it.`
      + often;
  }
  if (register === REGISTER.SP) {
    const bytes = after - before | 0;
    return `${name} is ${numbered(Math.abs(bytes))} bytes ${bytes < 0 ? "lower" : "higher"} where `
      + `${called} returns than where it was called.${often}`;
  }
  return `${called} leaves ${name} changed: it was ${hex(before)}, and is ${hex(after)} at the `
    + `return.${often}`;
}
