"use strict";

// Machine mode: its CSRs, and the devices beside them, at the addresses that `rrs board` has
// (docs/MACHINE.md). The library makes each step. Nothing here knows the page.

/* Which words of a hart's CSRs they are. */
const CSR = wordsOf(LAYOUT.csrs);

/* The CSRs of the specification that there are, by their numbers. */
const CSR_NAMES = {
  0x300: "mstatus", 0x301: "misa", 0x304: "mie", 0x305: "mtvec", 0x310: "mstatush",
  0x320: "mcountinhibit", 0x340: "mscratch", 0x341: "mepc", 0x342: "mcause", 0x343: "mtval",
  0x344: "mip", 0xb00: "mcycle", 0xb02: "minstret", 0xb80: "mcycleh", 0xb82: "minstreth",
  0xc00: "cycle", 0xc01: "time", 0xc02: "instret", 0xc80: "cycleh", 0xc81: "timeh",
  0xc82: "instreth", 0xf11: "mvendorid", 0xf12: "marchid", 0xf13: "mimpid", 0xf14: "mhartid",
};

/* How a step of a hart with machine mode ends, as rrs.h numbers it. */
const OUTCOME = { RETIRED: 0, WAITING: 1, RAISED: 2, INTERRUPTED: 3 };

/* What mcause says. */
const CAUSES = {
  0: "misaligned jump", 1: "fetch fault", 2: "illegal instruction", 3: "breakpoint",
  4: "misaligned load", 5: "load fault", 6: "misaligned store", 7: "store fault", 11: "ecall",
  0x80000003: "software interrupt", 0x80000007: "timer interrupt",
};

/* Bits of mstatus and of mip, and of mcountinhibit. */
const MIE = 1 << 3;
const PENDING = { SOFTWARE: 1 << 3, TIMER: 1 << 7 };
const INHIBITS = { CYCLE: 1, INSTRET: 4 };

/* The addresses of the devices' words. */
const DEVICE = {
  FINISHER: 0x100000, SOFTWARE: 0x2000000, ALARM: 0x2004000, ALARM_HIGH: 0x2004004,
  TIME: 0x200bff8, TIME_HIGH: 0x200bffc,
};

/* What each device is, as the page tells it. */
const DEVICES_TOLD = [
  [PORT_ADDRESS, "port", "prints a byte that is stored"],
  [DEVICE.FINISHER, "finisher", "ends, where 0x5555 is stored"],
  [DEVICE.SOFTWARE, "msip", "a 1 makes a software interrupt pending"],
  [DEVICE.ALARM, "mtimecmp", "64 bits: from this time on a timer interrupt is pending"],
  [DEVICE.TIME, "mtime", "64 bits: one more with each instruction"],
];

/* What is stored to the finisher: the end with status 0, and that with the status in the high half. */
const FINISHES = 0x5555;
const FAILS = 0x3333;

const BEYOND_WORD = 2 ** 32;

/* The halves of an alarm at reset, which is none. */
const NO_ALARM = { alarmLow: BEYOND_WORD - 1, alarmHigh: BEYOND_WORD - 1 };

/** The CSRs of a machine and the words of its devices. */
class Traps {
  constructor(kit) {
    this.kit = kit;
    this.csrs = kit.u32.subarray(kit.csrs / 4, (kit.csrs + LAYOUT.csrs.size) / 4);
    this.reset();
  }

  /** As at reset: no handler, no alarm, nothing pending. */
  reset() {
    this.csrs.fill(0);
    this.csrs[CSR.profile] = PROFILE.ATOMICS | PROFILE.BITS
      | (this.kit.unit === 2 ? PROFILE.COMPRESSED : 0);
    Object.assign(this, { time: 0, software: 0, ...NO_ALARM });
  }

  mark() {
    const { csrs, time, alarmLow, alarmHigh, software } = this;
    return { csrs: csrs.slice(), others: { time, alarmLow, alarmHigh, software } };
  }

  restore({ csrs, others }) {
    this.csrs.set(csrs);
    Object.assign(this, others);
  }

  /** From which time on the interrupt of the timer is pending. A time does not come to where this is
   * not exact. */
  get alarm() {
    return this.alarmHigh * BEYOND_WORD + this.alarmLow;
  }

  /** The bits of mip. */
  get pending() {
    return (this.software & 1 ? PENDING.SOFTWARE : 0)
      | (this.time >= this.alarm ? PENDING.TIMER : 0);
  }

  /** Whether an interrupt is taken before the next instruction. */
  get isInterrupted() {
    const { csrs } = this;
    return (csrs[CSR.mstatus] & MIE) !== 0 && (csrs[CSR.mie] & this.pending) !== 0;
  }

  /** Whether the alarm can end a wait. */
  get canWake() {
    return (this.csrs[CSR.mie] & PENDING.TIMER) !== 0 && Number.isSafeInteger(this.alarm);
  }

  /** Counts an instruction of the kit that retired, or takes one back by -1. */
  count(by) {
    const inhibited = this.csrs[CSR.mcountinhibit];
    this.time += by;
    if ((inhibited & INHIBITS.CYCLE) === 0) this.add(CSR.mcycle, by);
    if ((inhibited & INHIBITS.INSTRET) === 0) this.add(CSR.minstret, by);
  }

  /* Adds 1 or -1 to a counter of 64 bits. */
  add(place, by) {
    const low = this.csrs[place] + by;
    this.csrs[place] = low;
    if (low < 0 || low === BEYOND_WORD) this.csrs[place + 1] += by;
  }

  /** The word of a device, or undefined. */
  load(address) {
    switch (address) {
      case DEVICE.FINISHER: return 0;
      case DEVICE.SOFTWARE: return this.software;
      case DEVICE.ALARM: return this.alarmLow;
      case DEVICE.ALARM_HIGH: return this.alarmHigh;
      case DEVICE.TIME: return this.time % BEYOND_WORD;
      case DEVICE.TIME_HIGH: return this.time / BEYOND_WORD >>> 0;
      default: return undefined;
    }
  }

  /** Stores a word to a device. Answers the end that it makes, or null. */
  store(address, value) {
    const { time } = this;
    const low = value & 0xffff;
    if (address === DEVICE.SOFTWARE) this.software = value;
    else if (address === DEVICE.ALARM) this.alarmLow = value;
    else if (address === DEVICE.ALARM_HIGH) this.alarmHigh = value;
    else if (address === DEVICE.TIME) this.time = time - time % BEYOND_WORD + value;
    else if (address === DEVICE.TIME_HIGH) this.time = value * BEYOND_WORD + time % BEYOND_WORD;
    else if (low === FINISHES) return { reason: "exit", status: 0, by: "store" };
    else if (low === FAILS) return { reason: "exit", status: value >>> 16, by: "store" };
    return null;
  }

  /** What a step did to the CSRs since a mark, but for what each step counts. */
  changedSince({ csrs }) {
    return ["mstatus", "mie", "mtvec", "mscratch", "mepc", "mcause", "mtval"]
      .filter((name) => csrs[CSR[name]] !== this.csrs[CSR[name]])
      .map((name) => `${name} = ${hex(this.csrs[CSR[name]])}`).join(", ");
  }
}

/** Makes a step of a machine with machine mode. Answers null where it was made, and else an end. */
function stepWithTraps(machine) {
  const { kit, history, traps } = machine;
  if (traps.isInterrupted) return makeTrap(machine, null);
  const word = machine.bitsAtPc();
  const kind = machine.stepNoted();
  if (kind === FAULT.NONE && kit.pc % kit.unit === 0) {
    if (machine.code !== null && machine.hasStoredToCode()) return machine.refuseStore();
    machine.keep(word);
    traps.count(1);
    return null;
  }
  const fault = kind === FAULT.NONE
    ? { kind: FAULT.MISALIGNED, address: kit.pc, word: 0 } : kit.readFault();
  const served = serveDevice(machine, fault, word);
  if (served === null) return null;
  kit.undo(history.next, kit.addresses);
  return served ?? makeTrap(machine, fault);
}

/* Serves an access to a device or the port. Answers null where it is made, an end that it makes, or
 * undefined where there is no device. */
function serveDevice(machine, fault, word) {
  const { kit, history, traps, terminal } = machine;
  if (fault.kind !== FAULT.LOAD && fault.kind !== FAULT.STORE) return undefined;
  const { address } = fault;
  const { kind, bytes, value: stored } = kit.request(word);
  const before = traps.mark();
  if (address === PORT_ADDRESS && bytes === 1) {
    machine.servePort(fault, word);
    traps.count(1);
    return null;
  }
  const held = bytes === 4 ? traps.load(address) : undefined;
  if (held === undefined) return undefined;
  const isLoad = kind === ACCESS.LOAD;
  const end = isLoad ? null : traps.store(address, stored);
  if (end !== null) return end;
  history.noteWritten(kit.decode(word).rd);
  kit.complete(word, held);
  const access = {
    address, value: isLoad ? held : stored, readMask: isLoad ? 15 : 0, writeMask: isLoad ? 0 : 15,
  };
  machine.keep(word, { madeBy: MADE_BY.PORT, access, mark: terminal.mark(), traps: before });
  traps.count(1);
  return null;
}

/* What takes back what the instruction at the pc may store, where it is one of extension A: nothing
 * where it has no memory, or null where it stores to an instruction of the program. */
function changesOfAtomic(machine) {
  const { kit, code } = machine;
  const word = machine.wordAtPc();
  if (word === undefined || !isAtomic(word)) return [];
  const address = kit.x[word >>> 15 & 31];
  const index = machine.indexOf(address);
  if (index >= 0 && code !== null && code[index] === 1 && word >>> 27 !== 2) return null;
  return index < 0 ? [] : [kit.noteWord(address)];
}

/* The end of a program by an instruction of extension A that stores to one of its instructions. */
function refuseAtomic(machine) {
  const { kit, history } = machine;
  const address = kit.x[machine.wordAtPc() >>> 15 & 31];
  kit.u32.set(kit.noteRegister(0), history.next);
  return { reason: "fault", kind: FAULT.STORE, address, word: 0, isCode: true };
}

/* Has the library take an interrupt, where `fault` is null, or execute what the kit refuses: an
 * instruction of machine mode, or one that raises an exception. Answers an end where there is no
 * handler, or nothing ends a wait. */
function makeTrap(machine, fault) {
  const { kit, history, traps, terminal } = machine;
  const before = traps.mark();
  const changes = changesOfAtomic(machine);
  if (changes === null) return refuseAtomic(machine);
  const place = history.next;
  const x = kit.x.slice();
  const word = machine.bitsAtPc() ?? 0;
  kit.u32.set(kit.noteRegister(0), place);
  const kind = kit.stepMachine(traps.pending, traps.time);
  const isTrap = kind === OUTCOME.RAISED || kind === OUTCOME.INTERRUPTED;
  const hasHandler = before.csrs[CSR.mtvec] >>> 2 !== 0;
  if (isTrap && !hasHandler || kind === OUTCOME.WAITING && !traps.canWake) {
    kit.undo(place, kit.addresses);
    traps.restore(before);
    if (!isTrap) return { reason: "asleep" };
    return fault === null ? { reason: "no handler" } : { reason: "fault", ...fault };
  }
  if (!isTrap) traps.time++;
  if (kind === OUTCOME.WAITING) traps.time = Math.max(traps.time, traps.alarm);
  const rd = isTrap ? 0 : kit.u32[(kit.machineRetired + LAYOUT.machineRetired.rd) / 4];
  kit.u32[place + RECORD.rd] = rd;
  kit.u32[place + RECORD.rdBefore] = x[rd];
  const cause = isTrap ? CAUSES[traps.csrs[CSR.mcause]] ?? "trap" : undefined;
  const extra = {
    madeBy: MADE_BY.TRAP, access: NO_ACCESS, mark: terminal.mark(), traps: before, cause, changes,
    changed: traps.changedSince(before),
  };
  // a trap executes no instruction
  if (isTrap) history.push(0, extra);
  else machine.keep(word, extra);
  return null;
}

const CSR_CALLS = ["", "csrrw", "csrrs", "csrrc", "", "csrrwi", "csrrsi", "csrrci"];
/* The instructions of extension A, by bits 31 to 27. */
const ATOMICS = {
  0: "amoadd.w", 1: "amoswap.w", 2: "lr.w", 3: "sc.w", 4: "amoxor.w", 8: "amoor.w", 12: "amoand.w",
  16: "amomin.w", 20: "amomax.w", 24: "amominu.w", 28: "amomaxu.w",
};

/** Whether a word is an instruction of extension A. */
const isAtomic = (word) => (word & 0x707f) === 0x202f && ATOMICS[word >>> 27] !== undefined;

/** Whether a word is fence.i. */
const isFenceI = (word) => (word & 0x707f) === 0x100f;

/* The text of an instruction of extension A. */
function textOfAtomic(word) {
  const order = ["", ".rl", ".aq", ".aqrl"][word >>> 25 & 3];
  const [rd, rs1, rs2] = [7, 15, 20].map((bit) => `x${word >>> bit & 31}`);
  const name = ATOMICS[word >>> 27];
  return `${name}${order} ${name === "lr.w" ? rd : `${rd}, ${rs2}`}, (${rs1})`;
}

const OTHER_CALLS = { 0x30200073: "mret", 0x10500073: "wfi", 0x0000100f: "fence.i" };

/** The text of an instruction of machine mode, or "". */
function textOfMachineMode(word) {
  if (isAtomic(word)) return textOfAtomic(word);
  const call = (word & 0x7f) === 0x73 ? CSR_CALLS[word >>> 12 & 7] : "";
  if (!call) return OTHER_CALLS[word] ?? "";
  const name = CSR_NAMES[word >>> 20] ?? `0x${hexOf(word >>> 20, 3)}`;
  const source = word >>> 15 & 31;
  return `${call} x${word >>> 7 & 31}, ${name}, ${call.endsWith("i") ? source : `x${source}`}`;
}

/** Whether a word is an instruction that machine mode has, and programs elsewhere have not. */
const isOfMachineMode = (word, kit) => textOfMachineMode(word) !== "" || kit.isOfBits(word);
