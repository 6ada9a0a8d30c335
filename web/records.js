"use strict";

// The records of the latest steps. The library notes in each what takes the step back, and takes it
// back by that. What else is told of a step stands beside it.

/* What made a step: the machine alone, the port or a device, a system call, or machine mode. */
const MADE_BY = { MACHINE: 0, PORT: 1, CALL: 2, TRAP: 3 };

const NO_ACCESS = { address: 0, value: 0, readMask: 0, writeMask: 0 };

/** The records of the latest steps of a machine, in the kit's memory. Where there is no more room
 * the oldest goes. What a record has no room for is an extra: of a step that the port or a call
 * made who made it, its access, and what it changed beside registers and memory; of any step the
 * `changes` that were made behind it, by a call in memory or by hand. */
class Records {
  constructor(kit) {
    this.kit = kit;
    this.clear();
  }

  clear() {
    this.extras = new Map();
    this.first = 0;
    this.steps = 0;
    // the fewest steps that there were since one who follows them has set this
    this.lowest = 0;
  }

  /** How many steps can be taken back. */
  get length() {
    return this.steps - this.first;
  }

  /** Where in the kit's memory the record of a step is, the number of its first word. */
  placeOf(step) {
    return this.kit.recordsAt + step % RECORDS * RECORD_WORDS;
  }

  /** Where the next step is to be noted. */
  get next() {
    return this.placeOf(this.steps);
  }

  /** Notes that the next step writes a register, or none by 0, which the library has not noted. It
   * has its old value yet. */
  noteWritten(rd) {
    this.kit.noteWritten(this.next, rd);
  }

  /** Keeps the step that was made and noted, with the word that it executed, and its extra or
   * undefined. */
  push(word, extra) {
    const { u32, x } = this.kit;
    const place = this.next;
    u32[place + RECORD.word] = word;
    u32[place + RECORD.rdAfter] = x[u32[place + RECORD.rd]];
    this.steps++;
    if (this.length === RECORDS) this.first += STEPS_DROPPED;
    if (extra !== undefined) this.keepExtra(extra);
  }

  /* Keeps the extra of the latest step. Those of steps that are gone go. */
  keepExtra(extra) {
    for (const step of this.extras.keys()) {
      if (step >= this.first) break;
      this.extras.delete(step);
    }
    this.extras.set(this.steps - 1, extra);
  }

  /** Keeps a change that is made behind the latest step, if there is one: it is taken back with
   * that step. */
  addChange(words) {
    if (this.length === 0) return;
    const extra = this.extras.get(this.steps - 1) ?? {};
    extra.changes ??= [];
    extra.changes.push(words);
    this.keepExtra(extra);
  }

  /* Takes a step back in a hart and its words, and before it what was changed behind it. Returns the
   * step's extra or undefined. */
  takeBack(step, at) {
    const extra = this.extras.get(step);
    if (extra?.changes) this.takeChangesBack(extra.changes, at);
    this.kit.undo(this.placeOf(step), at);
    return extra;
  }

  takeChangesBack(changes, at) {
    for (let made = changes.length - 1; made >= 0; made--) this.kit.undoWords(changes[made], at);
  }

  /** Takes the latest step back, and returns its extra or undefined. One has to be kept. */
  pop() {
    this.steps--;
    if (this.steps < this.lowest) this.lowest = this.steps;
    const extra = this.takeBack(this.steps, this.kit.addresses);
    if (extra !== undefined) this.extras.delete(this.steps);
    return extra;
  }

  /** What the latest steps did, `most` at most, the latest first. Each is taken back in a copy of
   * the state, and made there once more to be told. */
  latest(most) {
    this.kit.copyState();
    const length = Math.min(most, this.length);
    return Array.from({ length }, (_, back) => this.tell(this.steps - 1 - back));
  }

  /* What a step did, of which the copy has the state after it, and gets the state before it. */
  tell(step) {
    const { u32, copied } = this.kit;
    const place = this.placeOf(step);
    const read = (field) => u32[place + RECORD[field]];
    const extra = this.takeBack(step, copied);
    return {
      step, extra, pc: read("pc"), word: read("word"), rd: read("rd"), rdAfter: read("rdAfter"),
      madeBy: extra?.madeBy ?? MADE_BY.MACHINE, ...extra?.access ?? this.accessOf(place),
    };
  }

  /* The load or the store of the machine's step in the copy, with the masks of its bytes. */
  accessOf(place) {
    const { kit } = this;
    kit.stepHart(BIT_PROFILE, kit.copied);
    const access = kit.accessRetired;
    kit.undo(place, kit.copied);
    return access;
  }

  /** The bytes that the latest step stored: their address and how many, or null. */
  latestStore() {
    if (this.length === 0) return null;
    const place = this.placeOf(this.steps - 1);
    const { u32 } = this.kit;
    const length = u32[place + RECORD.stored];
    const { stored } = this.extras.get(this.steps - 1) ?? {};
    return stored ?? (length ? { address: u32[place + RECORD.address], length } : null);
  }
}
