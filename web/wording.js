"use strict";

// What the page says in plain words, and how it writes numbers and names.

/* The names of the registers in calls, by their numbers. */
const ABI_NAMES = [
  "zero", "ra", "sp", "gp", "tp", "t0", "t1", "t2", "s0", "s1", "a0", "a1", "a2", "a3", "a4", "a5",
  "a6", "a7", "s2", "s3", "s4", "s5", "s6", "s7", "s8", "s9", "s10", "s11", "t3", "t4", "t5", "t6",
];

/* How registers are called: by their names in calls, or by their numbers. */
const NAMES = { abi: ABI_NAMES, number: ABI_NAMES.map((_, number) => `x${number}`) };

/** What a function makes with each choice of names. */
function byNames(make) {
  return new Map(Object.values(NAMES).map((names) => [names, make(names)]));
}

/** A text of the disassembler, which has numbers, with other names of the registers. */
function withNames(text, names) {
  return text.replace(/\bx(\d+)\b/g, (_, number) => names[number]);
}

/** A text of the disassembler, with the offset of jalr in decimal, as loads and stores have it. */
function inDecimal(text) {
  return text.replace(/^(jalr .*)0x([0-9a-f]{3})\(/, (_, before, digits) =>
    `${before}${parseInt(digits, 16) << 20 >> 20}(`);
}

/** A word or a half-word of data, as a directive has it: a number, or its letters. */
function textOfData(word, size = 4) {
  const bytes = [0, 8, 16, 24].slice(0, size).map((at) => word >>> at & 0xff);
  const letters = String.fromCharCode(...bytes).replace(/\0+$/, "");
  const areLetters = letters.length > 1 && /^[\t\n\x20-\x7e]+$/.test(letters);
  if (areLetters) return `.ascii ${JSON.stringify(letters)}`;
  return size === 4 ? `.word ${word | 0}` : `.half ${word}`;
}

/** The number of a register by any of its names, or undefined. */
function registerNamed(name) {
  if (name === "fp") return ABI_NAMES.indexOf("s0");
  const number = Math.max(NAMES.abi.indexOf(name), NAMES.number.indexOf(name));
  return number < 0 ? undefined : number;
}

/* The ways to write a register's value. */
const RADIXES = {
  hex: { name: "hexadecimal", write: (value) => `0x${hexOf(value)}` },
  signed: { name: "signed decimal", write: (value) => String(value | 0) },
  unsigned: { name: "unsigned decimal", write: (value) => String(value) },
  binary: { name: "binary", write: (value) => `0b${value.toString(2).padStart(32, "0")}` },
};

const hex = (value) => `0x${hexOf(value)}`;
const counted = (count, noun) => `${numbered(count)} ${noun}${count === 1 ? "" : "s"}`;

/* What kind of instruction a word is, by its opcode; multiplication by funct7 too. */
const GROUPS = {
  arithmetic: "arithmetic and logic",
  multiply: "multiply and divide",
  load: "load",
  store: "store",
  branch: "branch",
  jump: "jump",
  system: "system",
};
const GROUP_OF_OPCODE = {
  0x03: "load", 0x0f: "system", 0x13: "arithmetic", 0x17: "arithmetic", 0x23: "store",
  0x33: "arithmetic", 0x37: "arithmetic", 0x63: "branch", 0x67: "jump", 0x6f: "jump",
  0x73: "system",
};

function groupOf(word) {
  const opcode = word & 0x7f;
  return opcode === 0x33 && word >>> 25 === 1 ? "multiply" : GROUP_OF_OPCODE[opcode];
}

/** Whether the text of a word ends with the address that it goes to: a branch or jal. */
const isJumpToTarget = (word) => [0x63, 0x6f].includes(word & 0x7f);

/* How many characters of a label are shown. */
const LABEL_SHOWN = 60;

/* How many bytes the load or the store of an instruction has: one of 2 bytes is of a word. */
const bytesOf = (bits) => ((bits & 3) === 3 ? 1 << (bits >>> 12 & 3) : 4);

/* The memory, as a sentence names it. */
const whereMemoryIs = (machine) => {
  const { base, size } = machine.kit;
  return `Memory goes from ${hex(base)} to ${hex(base + size - 1)}.`;
};

/* Whether sp or s0, which a stack is reached by, is the base of the load or store at the pc. */
function isByStack(machine) {
  const base = machine.wordAtPc() >>> 15 & 31;
  return base === REGISTER.SP || base === REGISTER.S0;
}

/* Whether the program ran past its last instruction: it made the one before the pc, and at the pc
 * there is no more. */
function ranPastEnd(machine) {
  const { kit, code, program, executed } = machine;
  const index = machine.indexOf(kit.pc);
  const starts = kit.unit === 4 ? [index - 1] : [index - 1, index - 2];
  if (!starts.some((start) => executed[start] > 0)) return false;
  return code === null ? index >= program.length : code[index] === 0 && code[index - 1] === 1;
}

/* Why an access by sp goes wrong, or "". */
function whyOfStack(machine, names) {
  if (!isByStack(machine)) return "";
  const sp = names[REGISTER.SP];
  // below 0, where it began
  if (!machine.hasStack && machine.kit.x[REGISTER.SP] >= 2 ** 32 - MOST_BYTES) {
    return ` ${sp} was never set: it began as 0.`;
  }
  return machine.hasStack && machine.kit.x[REGISTER.SP] < machine.kit.base + machine.kit.size / 2
    || machine.kit.x[REGISTER.SP] >= 2 ** 32 - MOST_BYTES
    ? " The stack has reached the start of memory: is there a recursion without an end?" : "";
}

/* The call by which a program ends, as a sentence names it, by the environment. */
function exitCall({ environment }, names) {
  if (environment.hasTraps) {
    return `a store of ${hex(FINISHES)} to the finisher, at ${hex(DEVICE.FINISHER)}`;
  }
  const number = Object.keys(environment.calls).find((call) =>
    /^exit$/i.test(environment.calls[call].name));
  return `the call ${environment.calls[number].name} (${names[environment.number]} = ${number})`;
}

/* The sentence of each fault. `pc` is where the machine stands. */
const FAULT_SENTENCES = {
  [FAULT.ILLEGAL]({ address, word }, machine, names) {
    const what = machine.kit.sizeOf(word) === 2
      ? `The half-word at ${hex(address)} is 0x${hexOf(word, 4)}, which is no compressed instruction.`
      : `The word at ${hex(address)} is ${hex(word)}, which is no instruction of RV32IM.`;
    if (isOfMachineMode(word, machine.kit) && !machine.environment.hasTraps) {
      const text = machine.kit.disassemble(word, 0) || textOfMachineMode(word);
      return `The word at ${hex(address)} is ${hex(word)}, ${withNames(text, names)}: machine mode `
        + "has this instruction. Choose machine mode here.";
    }
    if (ranPastEnd(machine)) {
      return `The program has no exit: it ran past its last instruction. ${what} A program ends by `
        + `${exitCall(machine, names)}.`;
    }
    return word === 0 ? `${what} Memory is 0 behind a program's end.` : what;
  },
  [FAULT.FETCH]({ address }, machine, names) {
    if ([2, 4].some((size) => machine.executed[machine.indexOf(address - size)] > 0)) {
      return `The program has no exit: it ran past its last instruction to ${hex(address)}, where `
        + `there is no memory. A program ends by ${exitCall(machine, names)}.`;
    }
    return `The program went to ${hex(address)}, where there is no memory. `
      + whereMemoryIs(machine);
  },
  [FAULT.LOAD]({ address }, machine, names) {
    const { pc } = machine.kit;
    return `The instruction at ${hex(pc)} loads from ${hex(address)}, where there is no memory. `
      + whereMemoryIs(machine) + whyOfStack(machine, names);
  },
  [FAULT.STORE]({ address, isCode }, machine, names) {
    const { pc } = machine.kit;
    if (isCode) {
      const why = isByStack(machine)
        ? " The stack has reached the program: is there a recursion without an end?" : "";
      return `The instruction at ${hex(pc)} stores to ${hex(address)}, where the program's `
        + `instructions are, which are read-only.${why}`;
    }
    return `The instruction at ${hex(pc)} stores to ${hex(address)}, where there is no memory. `
      + whereMemoryIs(machine) + whyOfStack(machine, names);
  },
  [FAULT.MISALIGNED]({ address }, machine) {
    const { pc } = machine.kit;
    const { unit } = machine.kit;
    if (pc % unit !== 0) {
      return `The program went to ${hex(address)}, which is no multiple of ${unit}: no instruction `
        + "starts there.";
    }
    const word = machine.wordAtPc();
    const does = groupOf(word) === "load" ? "loads" : "stores";
    const bytes = bytesOf(word);
    return `The instruction at ${hex(pc)} ${does} ${bytes} bytes at ${hex(address)}, which is no `
      + `multiple of ${bytes}.`;
  },
  [FAULT.ECALL]({ address }, machine, names) {
    const { kit, environment } = machine;
    if (environment.hasTraps) return `The ecall at ${hex(address)} goes to a handler.`;
    const number = kit.x[environment.number];
    const register = names[environment.number];
    const meant = callsMeant({ reason: "fault", kind: FAULT.ECALL }, machine);
    if (meant !== null) {
      const { name, number: by, calls } = ENVIRONMENTS[meant];
      return `The ecall at ${hex(address)} is none of ${environment.name}'s: ${names[by]} = `
        + `${kit.x[by]} is ${calls[kit.x[by]].name} of ${name}. Choose its calls here.`;
    }
    return `The ecall at ${hex(address)} asks for system call ${number} (${register}). This page `
      + `serves ${callsOf(environment)}, as ${environment.name} has them.`;
  },
  [FAULT.EBREAK]({ address }, { called, kit: { x } }, names) {
    if (called?.back === address) {
      return `${called.text} has returned: ${names[REGISTER.A0]} is ${x[REGISTER.A0] | 0} `
        + `(${hex(x[REGISTER.A0])}).`;
    }
    return `The program asked to stop, by the ebreak at ${hex(address)}.`;
  },
};

const FAULT_NAMES = {
  [FAULT.ILLEGAL]: "Illegal instruction",
  [FAULT.FETCH]: "Fetch fault",
  [FAULT.LOAD]: "Load fault",
  [FAULT.STORE]: "Store fault",
  [FAULT.MISALIGNED]: "Misaligned address",
  [FAULT.ECALL]: "Environment call",
  [FAULT.EBREAK]: "Breakpoint instruction",
};

/** The name of the environment whose call an `ecall` seems to make that the chosen one does not
 * serve, or null. */
function callsMeant(end, { kit, environment }) {
  if (end.reason !== "fault" || environment.hasTraps) return null;
  if (end.kind === FAULT.ILLEGAL && isOfMachineMode(end.word, kit)) return "machine";
  if (end.kind !== FAULT.ECALL) return null;
  const isMeant = (other) => other !== environment && other.calls[kit.x[other.number]] !== undefined
    && (other.number === REGISTER.A7 || kit.x[REGISTER.A7] === 0);
  return Object.keys(ENVIRONMENTS).find((name) => isMeant(ENVIRONMENTS[name])) ?? null;
}

/* What is told where machine mode has no handler for an exception, and else "". */
const noHandler = ({ environment }, { isCode }) => (environment.hasTraps && !isCode
  ? "There is no handler: mtvec was never set. " : "");

/* Whether a call that a case made has returned. */
const isReturn = ({ kind, address }, { called }) =>
  kind === FAULT.EBREAK && called !== null && called.back === address;

/* Of each end its heading, its sentence, and which kind of news it is. */
const EXPLAINED = {
  fault: (end, machine, names) => ({
    heading: isReturn(end, machine) ? "Returned" : FAULT_NAMES[end.kind],
    sentence: isReturn(end, machine) ? FAULT_SENTENCES[end.kind](end, machine, names)
      : `${FAULT_SENTENCES[end.kind](end, machine, names)} ${noHandler(machine, end)}`
        + "Nothing was changed by it.",
    // a program may ask to stop, but where a handler should serve its ebreak
    kind: end.kind === FAULT.EBREAK && !machine.environment.hasTraps ? "done" : "end",
  }),
  "no handler": (end, machine) => ({
    heading: "Interrupt",
    sentence: `An interrupt came before ${hex(machine.kit.pc)}. ${noHandler(machine, end)}`.trim(),
    kind: "end",
  }),
  asleep: (end, machine) => ({
    heading: "Waiting for ever",
    sentence: `The wfi at ${hex(machine.kit.pc)} waits for an interrupt, and none can come: mie `
      + "does not enable that of the timer, or no alarm is set.",
    kind: "end",
  }),
  returned: (end, machine, names) => ({
    heading: "Return of main",
    sentence: `The ret at ${hex(machine.kit.pc)} has nowhere to go: ${names[REGISTER.RA]} is 0, `
      + `since nothing called main. A program ends by ${exitCall(machine, names)}.`,
    kind: "end",
  }),
  refused: (end, machine) => ({
    heading: "Call refused",
    sentence: `The ecall at ${hex(machine.kit.pc)} could not be served: ${end.why}.`,
    kind: "end",
  }),
  exit: (end, machine) => ({
    heading: "Exit",
    sentence: `The program ended by the ${end.by ?? "ecall"} at ${hex(machine.kit.pc)}, with `
      + `status ${end.status}.`,
    kind: "done",
  }),
  waiting: () => ({
    heading: "Waiting for input",
    sentence: "The program reads from the console. Type a line there, or end the input.",
    kind: "wait",
  }),
};

/** A heading and a sentence for why the machine stands where it stands, and which kind of news that
 * is: a fault is an "end", exit and ebreak are "done", and "wait" is none, since the program can go
 * on. */
const explain = (end, machine, names) => EXPLAINED[end.reason](end, machine, names);

/** What a step did, as `t0 = 0x0000002a`, from its record. */
function effectOf(record, names) {
  const written = record.rd ? `${names[record.rd]} = ${hex(record.rdAfter)}` : "";
  const value = `0x${hexOf(record.value, 2 * bytesOf(record.word))}`;
  if (record.madeBy === MADE_BY.CALL) {
    return written ? `${record.extra.name}, ${written}` : record.extra.name;
  }
  if (record.madeBy === MADE_BY.TRAP) {
    const { cause, changed } = record.extra;
    return [cause, written, changed].filter((part) => part).join(", ");
  }
  const stored = `[${hex(record.address)}] ← ${value}`;
  if (record.writeMask) return written ? `${written}, ${stored}` : stored;
  if (record.readMask) return `${written || value} ← [${hex(record.address)}]`;
  return written;
}
