"use strict";

// The machine of the page: the proved steps of the kit, there and back, and around them what serves
// the program's calls and the port, and what counts steps.

const REGISTER = { RA: 1, SP: 2, GP: 3, S0: 8, A0: 10, A1: 11, A2: 12, A3: 13, A4: 14, A7: 17 };

/* The word of ret, by which a function returns. */
const RETURN_WORD = 0x00008067;

/* The errors of Linux's calls. */
const NO_SUCH_FILE = -9;
const BAD_ADDRESS = -14;

/* The most bytes of one call, as on Linux. */
const MOST_TRANSFERRED = 0x7ffff000;

/* How many bytes calls may transfer before a run answers. */
const RUN_BYTES = 1 << 16;

/* Instructions that were executed are counted by these bits of a word: the opcode, funct3, and the
 * two bits of funct7 that tell the rows of the table apart. Words of different rows that retire differ
 * in them, but for those with an operation that has other bits of funct7: these are counted by their
 * rows. Behind these kinds is one for each half-word. */
const ROWS_AT = 1 << 10;
const KINDS = ROWS_AT + 128;
function kindOf(word, kit) {
  if ((word & 3) !== 3) return KINDS + word;
  if (isAboveTable(word)) return ROWS_AT + kit.rowOf(word);
  const opcode = word >>> 2 & 31;
  if (isAtomic(word)) return opcode | word >>> 27 << 5;
  // a call, or mret or wfi, which two other bits tell apart
  if ((word & 0x707f) === 0x73) return opcode | (word >>> 28 & 3) << 8;
  return opcode | (word >>> 12 & 7) << 5 | (word >>> 30 & 1) << 8 | (word >>> 25 & 1) << 9;
}

/* Whether a word that retires is an operation on registers, or one with an amount, of no row of the
 * table, as its funct7 says. */
function isAboveTable(word) {
  const isOperation = (word & 0x7f) === 0x33 || (word & 0x307f) === 0x1013;
  return isOperation && (word & 0xbc000000) !== 0;
}

/* How many bytes of a buffer a call may transfer, or an error where it passes the last address. */
function mostTransferred(address, count) {
  return address + count > 2 ** 32 ? BAD_ADDRESS : Math.min(count, MOST_TRANSFERRED);
}

/* Whether the hart of a process may make the step that ended with a fault: an instruction of
 * extension A, fence.i, or a load or a store at a misaligned address. */
function isOfProcess({ kit, isProcess, environment }, fault, word) {
  if (!isProcess || !environment.hasProcesses) return false;
  if (fault.kind === FAULT.MISALIGNED) return kit.pc % kit.unit === 0;
  return fault.kind === FAULT.ILLEGAL && (isAtomic(word) || isFenceI(word));
}

/* Has the library make a step by the hart of a process. Answers null where it is made, or an end. */
function stepOfProcess(machine, fault, word) {
  const { kit, history, terminal } = machine;
  const from = fault.kind === FAULT.MISALIGNED ? fault.address : kit.x[word >>> 15 & 31];
  const places = [from, from + 3].filter((address) => machine.indexOf(address) >= 0);
  const changes = places.map((address) => kit.noteWord(address));
  const reserved = kit.reserved.slice();
  history.noteWritten(kit.decode(word).rd);
  const isMade = kit.stepHart(PROCESS_PROFILE) === FAULT.NONE;
  const access = isMade ? kit.accessRetired : NO_ACCESS;
  const stored = storedBy(access);
  const isCode = machine.isCode(stored);
  if (isMade && !isCode) {
    machine.keep(word, { access, stored, changes, reserved, mark: terminal.mark() });
    return null;
  }
  history.takeChangesBack(changes, kit.addresses);
  kit.reserved.set(reserved);
  if (!isMade) return { reason: "fault", ...kit.readFault() };
  return { reason: "fault", kind: FAULT.STORE, address: stored.address, word: 0, isCode };
}

/* The bytes that an access stores, or null. */
function storedBy({ address, writeMask }) {
  return writeMask === 0 ? null : { address, length: 32 - Math.clz32(writeMask) };
}

/** A machine that runs one program, and can take its steps back. */
class Machine {
  constructor(kit) {
    this.kit = kit;
    this.seed = 0;
    this.terminal = new Terminal();
    this.history = new Records(kit);
    this.convention = new Convention(this.history);
    this.environment = ENVIRONMENTS.linux;
    this.traps = new Traps(kit);
    this.load(new Uint32Array(0), 0, PAGE_BYTES, false);
  }

  /** Has `size` bytes of memory from `base` on, with the words at its start, and starts `entry`
   * bytes behind it. With a stack sp starts as the end of memory, or so many bytes below it, which
   * are what a process is given. `code` is null, or has 1 for each word that is an instruction: these
   * are read-only. With a `unit` of 2 there are half-words in the place of words. */
  load(words, base, size, hasStack, entry = 0, aboveStack = 0, code = null, unit = 4) {
    this.kit.setMemory(base, size, unit);
    this.entry = base + entry;
    this.program = this.kit.parts.constructor.from(words);
    this.hasStack = hasStack;
    this.aboveStack = aboveStack;
    this.isProcess = aboveStack > 0;
    this.code = code;
    this.stopsAtOutput = false;
    this.reset();
  }

  /** The first state: registers 0 but for sp where there is a stack, the pc where the program
   * starts, memory the program and then 0. */
  reset() {
    const { kit } = this;
    kit.x.fill(0);
    if (this.hasStack) kit.x[REGISTER.SP] = kit.base + kit.size - this.aboveStack;
    const isRars = isOfRars(kit);
    if (isRars) kit.x[REGISTER.GP] = RARS_PLACES.gp;
    kit.pc = this.entry;
    kit.last = 0;
    kit.reserved.fill(0);
    // the call of a case that it begins at
    this.called = null;
    kit.words.fill(0);
    kit.parts.set(this.program);
    // what is cleared costs less than what is new
    if (this.executed?.length === kit.parts.length) this.executed.fill(0);
    else this.executed = new Float64Array(kit.parts.length);
    const kinds = kit.unit === 2 ? KINDS + (1 << 16) : KINDS;
    this.kinds = new Float64Array(kinds);
    this.wordOfKind = new Uint32Array(kinds);
    this.transferred = 0;
    // where more memory begins that a program asks for
    const end = kit.base + kit.unit * this.program.length;
    this.heap = isRars ? Math.max(end, RARS_PLACES.heap) : end;
    this.break = this.heapRange().first;
    this.random = 0n;
    // the states of RARS's generators of random numbers, and how long a run is to wait
    this.streams = new Map();
    this.asleep = 0;
    this.terminal.reset();
    this.traps.reset();
    this.history.clear();
    this.convention.clear();
  }

  /** How many steps were made. */
  get steps() {
    return this.history.steps;
  }

  /** The number of the word, or of the half-word, at an address, or -1 where there is none. */
  indexOf(address) {
    const { base, size, unit } = this.kit;
    const offset = address - base;
    return offset >= 0 && offset < size ? Math.floor(offset / unit) : -1;
  }

  /** The instruction at the pc, or undefined. */
  bitsAtPc() {
    return this.kit.bitsAt(this.kit.pc);
  }

  /** The word that the instruction at the pc is or stands for, or undefined. */
  wordAtPc() {
    const bits = this.bitsAtPc();
    return bits === undefined ? undefined : this.kit.wordOf(bits);
  }

  /** Whether the hart has Zba to Zicond: that of a process and that of machine mode. */
  get hasBits() {
    return this.isProcess && this.environment.hasProcesses || this.environment.hasTraps;
  }

  /** Makes a step, and notes what takes it back. Returns the kind of its fault, or 0. */
  stepNoted() {
    const { kit, history: { next } } = this;
    const kind = kit.stepNoted(next);
    return kind === FAULT.ILLEGAL && this.hasBits ? kit.stepBits(next) : kind;
  }

  /** Makes one step. Returns null where it was made, and else why it was not: an end. */
  step() {
    const { kit, history } = this;
    const word = this.bitsAtPc();
    if (kit.x[REGISTER.RA] === 0 && this.code !== null && this.wordAtPc() === RETURN_WORD) {
      return { reason: "returned" };
    }
    if (this.environment.hasTraps) return stepWithTraps(this);
    if (this.stepNoted() === FAULT.NONE) {
      if (this.code !== null && this.hasStoredToCode()) return this.refuseStore();
      this.keep(word);
      return null;
    }
    const end = this.serve(word);
    // the kit forgets the register that was the last written, also in a step that is not made
    if (end !== null) kit.undo(history.next, kit.addresses);
    return end;
  }

  /* Whether the step that was just made stored to an instruction. */
  hasStoredToCode() {
    const { kit: { u32 }, history: { next } } = this;
    const length = u32[next + RECORD.stored];
    return length > 0 && this.isCode({ address: u32[next + RECORD.address], length });
  }

  /** Whether bytes that are stored are instructions of the program. */
  isCode(stored) {
    const { code } = this;
    if (stored === null || code === null) return false;
    const { address, length } = stored;
    return [0, 1, 2, 3].some((at) => at < length && code[this.indexOf(address + at)] === 1);
  }

  /* Takes the step that was just made back: an end. */
  refuseStore() {
    const { kit, history } = this;
    const address = kit.u32[history.next + RECORD.address];
    kit.undo(history.next, kit.addresses);
    return { reason: "fault", kind: FAULT.STORE, address, word: 0, isCode: true };
  }

  /** Whether the pc is a stop: an instruction that begins there, and is marked in `stops`. */
  isAtStop(stops) {
    const { pc, base, unit } = this.kit;
    return stops[(pc - base) / unit] > 0;
  }

  /** Makes steps until one ends, `most` were made, the pc is a stop, calls have transferred
   * RUN_BYTES, or one waits. `stops` has a number that is not 0 for each word or half-word to stop
   * at; the first step is made wherever the pc is. */
  run(most, stops) {
    this.convention.follow();
    const end = this.makeSteps(most, stops);
    this.convention.follow();
    return end;
  }

  makeSteps(most, stops) {
    const { kit, terminal } = this;
    const printed = terminal.printed + terminal.lost;
    this.transferred = 0;
    this.asleep = 0;
    const isOn = () => this.transferred < RUN_BYTES && this.asleep === 0;
    for (let made = 0; made < most && isOn(); made++) {
      const end = this.step();
      if (end !== null) return end;
      if (this.isAtStop(stops)) return { reason: "stop", address: kit.pc };
      if (this.stopsAtOutput && terminal.printed + terminal.lost > printed) {
        return { reason: "output" };
      }
    }
    return null;
  }

  /* Keeps the step that was made, with the word that it executed, and counts it. */
  keep(word, extra) {
    const { kit, history } = this;
    const pc = kit.u32[history.next + RECORD.pc];
    history.push(word, extra);
    this.executed[(pc - kit.base) / kit.unit]++;
    const kind = kindOf(word, kit);
    this.kinds[kind]++;
    this.wordOfKind[kind] = word;
  }

  /* Serves the step that the kit did not make, or returns why it ends the program. */
  serve(word) {
    const fault = this.kit.readFault();
    if (fault.kind === FAULT.ECALL) return this.serveCall(fault, word);
    if (isOfProcess(this, fault, word)) return stepOfProcess(this, fault, word);
    if (fault.kind === FAULT.ILLEGAL && isCounterRead(word)) return serveCounter(this, word);
    const isAccess = fault.kind === FAULT.LOAD || fault.kind === FAULT.STORE;
    if (isAccess && fault.address === PORT_ADDRESS) return this.servePort(fault, word);
    const keys = isAccess && this.environment.hasKeys ? serveKeys(this, fault, word) : undefined;
    return keys === null ? null : { reason: "fault", ...fault };
  }

  /* The port takes and gives one byte. */
  servePort(fault, word) {
    const { kit, terminal } = this;
    const { kind, bytes, value: stored } = kit.request(word);
    if (bytes !== 1) return { reason: "fault", ...fault };
    const mark = terminal.mark();
    const isLoad = kind === ACCESS.LOAD;
    const value = isLoad ? terminal.port : stored & 0xff;
    this.history.noteWritten(kit.decode(word).rd);
    kit.complete(word, value);
    if (!isLoad) terminal.storeToPort(value);
    const masks = { readMask: Number(isLoad), writeMask: Number(!isLoad) };
    const access = { address: PORT_ADDRESS, value, ...masks };
    this.keep(word, { madeBy: MADE_BY.PORT, access, mark });
    return null;
  }

  /* A call of the environment. */
  serveCall(fault, word) {
    const { kit, terminal, environment, heap, break: breakBefore, random, streams } = this;
    const call = environment.calls[kit.x[environment.number]];
    if (call === undefined) return { reason: "fault", ...fault };
    const extra = {
      madeBy: MADE_BY.CALL, access: NO_ACCESS, name: call.name, mark: terminal.mark(), heap,
      breakBefore, random, streams, changes: [],
    };
    const answer = call.serve(this, extra);
    if (answer === null) return { reason: "waiting" };
    if (typeof answer === "object") return answer;
    const rd = answer === undefined ? 0 : REGISTER.A0;
    this.history.noteWritten(rd);
    if (rd !== 0) kit.x[rd] = answer;
    kit.pc += 4;
    kit.last = rd;
    this.keep(word, extra);
    return null;
  }

  /* The heap of Linux's calls, from the middle of memory up to the last quarter, which is for the
   * stack, as in the memory of `rrs exec --raw`. */
  heapRange() {
    const { base, size } = this.kit;
    return { first: base + size / 2, last: base + 3 * size / 4 };
  }

  /* brk(a0): moves the break to an address of the heap, and answers where it is. */
  breakCall() {
    const address = this.kit.x[REGISTER.A0];
    const { first, last } = this.heapRange();
    if (address >= first && address <= last) this.break = address;
    return this.break;
  }

  /** Prints bytes for a call. */
  print(bytes) {
    this.terminal.print(bytes);
    this.transferred += bytes.length;
  }

  /** The bytes of memory from an address on, none where it is outside. */
  bytesFrom(address) {
    const { bytes, base, size } = this.kit;
    const offset = address - base;
    return offset < 0 ? bytes.subarray(size) : bytes.subarray(offset);
  }

  /* How many of `length` bytes from an address on the memory has, up to the first that it lacks. */
  countMapped(address, length) {
    const offset = address - this.kit.base;
    return offset < 0 ? 0 : Math.max(0, Math.min(length, this.kit.size - offset));
  }

  /* write(a0, a1, a2): prints the bytes, and answers how many they are. */
  writeCall() {
    const { x } = this.kit;
    const file = x[REGISTER.A0];
    if (file !== 1 && file !== 2) return NO_SUCH_FILE;
    return this.write(x[REGISTER.A1], x[REGISTER.A2]);
  }

  /** Prints bytes from an address on, and answers how many they are, or an error. */
  write(address, length) {
    const { kit } = this;
    const most = mostTransferred(address, length);
    if (most <= 0) return most;
    const count = this.countMapped(address, most);
    if (count === 0) return BAD_ADDRESS;
    const offset = address - kit.base;
    this.print(kit.bytes.subarray(offset, offset + count));
    return count;
  }

  /* read(a0, a1, a2): gives typed bytes, one line at most, and answers how many they are; null
   * where none is there yet. Bytes that the memory does not take are given by the next read. */
  readCall(extra) {
    const { kit, terminal } = this;
    if (kit.x[REGISTER.A0] !== 0) return NO_SUCH_FILE;
    const address = kit.x[REGISTER.A1];
    const most = mostTransferred(address, kit.x[REGISTER.A2]);
    if (most <= 0) return most;
    if (terminal.isEmpty) return null;
    const held = terminal.read(most);
    if (held.length === 0) return 0;
    const given = held.slice(0, this.countMapped(address, most));
    if (given.length === 0) return BAD_ADDRESS;
    terminal.taken += given.length;
    this.transferred += given.length;
    this.storeBytes(address, given, extra);
    return given.length;
  }

  /* Stores what a call gives, and keeps the words that stood there. */
  storeBytes(address, given, extra) {
    const { kit } = this;
    const end = address + given.length;
    for (let at = address - address % 4; at < end; at += 4) extra.changes.push(kit.noteWord(at));
    kit.bytes.set(given, address - kit.base);
    extra.stored = { address, length: given.length };
  }

  /* ---- changes by hand, which are taken back with the latest step */

  /** Changes one of the registers x1 to x31. */
  setRegister(register, value) {
    const { kit } = this;
    this.history.addChange(kit.noteRegister(register));
    kit.x[register] = value;
    this.convention.change(register, value);
  }

  /** Changes the pc. A step back gives the pc of the step in any case. */
  setPc(value) {
    this.kit.pc = value;
  }

  /** Changes a byte, or the word at a multiple of 4, of memory. */
  setMemory(address, value, bytes) {
    const { kit } = this;
    this.history.addChange(kit.noteWord(address));
    if (bytes === 1) kit.bytes[address - kit.base] = value;
    else kit.words[(address - kit.base) / 4] = value;
  }

  /* ---- the way back */

  /** Takes the latest step back. Returns whether one was kept. */
  stepBack() {
    const { kit, history } = this;
    if (history.length === 0) return false;
    const extra = history.pop();
    if (extra !== undefined) this.restore(extra);
    if (extra?.traps !== undefined) this.traps.restore(extra.traps);
    else if (this.environment.hasTraps) this.traps.count(-1);
    if (extra?.cause !== undefined) return true;
    this.executed[(kit.pc - kit.base) / kit.unit]--;
    this.kinds[kindOf(this.bitsAtPc(), kit)]--;
    return true;
  }

  /* Takes back what a system call or the port did beside registers and memory. */
  restore({ mark, heap, breakBefore, random, streams, reserved }) {
    this.terminal.restore(mark);
    if (reserved !== undefined) this.kit.reserved.set(reserved);
    this.heap = heap ?? this.heap;
    this.break = breakBefore ?? this.break;
    this.random = random ?? this.random;
    this.streams = streams ?? this.streams;
  }

  /** Takes `most` steps back, or as many as are kept, and stops where the pc is a stop. Returns
   * null where it went on to the end, "stop", or "oldest" where no step is kept. */
  runBack(most, stops) {
    for (let made = 0; made < most; made++) {
      if (!this.stepBack()) return "oldest";
      if (this.isAtStop(stops)) return "stop";
    }
    return this.history.length === 0 ? "oldest" : null;
  }

  /** How often each kind of instruction was executed: `{ name, word, count }`, most first. */
  counts() {
    const byName = new Map();
    for (let kind = 0; kind < this.kinds.length; kind++) {
      if (this.kinds[kind] === 0) continue;
      const word = this.wordOfKind[kind];
      const [name] = (this.kit.disassemble(word, 0) || textOfMachineMode(word)).split(" ");
      const entry = byName.get(name) ?? { name, word, count: 0 };
      entry.count += this.kinds[kind];
      byName.set(name, entry);
    }
    return [...byName.values()].sort((a, b) => b.count - a.count || a.name.localeCompare(b.name));
  }
}
