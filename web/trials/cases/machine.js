"use strict";

// The machine: its steps, its calls, its port, what takes steps back, and what counts them.

const w = require("./words.js");

const [A0, A1, A2, A7] = [10, 11, 12, 17];
const FIRST = 0x2000;
const SIZE = 0x10000;

/* A machine with words from `base` on. */
function machineWith({ Machine }, kit, words, base = 0, hasStack = false) {
  const machine = new Machine(kit);
  machine.load(words, base, SIZE, hasStack);
  return machine;
}

/* The numbers of an array that are not 0, each with its place. */
function nonzero(numbers) {
  const found = [];
  for (let at = 0; at < numbers.length; at++) if (numbers[at] !== 0) found.push(at, numbers[at]);
  return found;
}

/* All that a step may change, as one text. */
function digest(machine) {
  const { kit, executed, kinds, terminal, heap, random, history, traps } = machine;
  const { output, printed, lost, input, held, taken, isClosed, port } = terminal;
  return JSON.stringify([
    [...kit.x], kit.pc, kit.last, nonzero(kit.words), nonzero(executed), nonzero(kinds),
    [...output.subarray(0, printed)], lost, input, held, taken, isClosed, port, heap,
    machine.break, String(random), history.steps, history.first, [...history.extras.keys()],
    [...traps.csrs], traps.time, traps.alarmLow, traps.alarmHigh, traps.software, [...kit.reserved],
  ]);
}

/* Makes steps to the end and takes them all back. Answers the end, and how many states on the way
 * back are other than they were on the way. */
function thereAndBack(machine) {
  const states = [digest(machine)];
  let end = machine.step();
  for (; end === null; end = machine.step()) states.push(digest(machine));
  let wrong = 0;
  while (states.length > 0) {
    if (states.pop() !== digest(machine)) wrong++;
    if (machine.stepBack() !== states.length > 0) wrong++;
  }
  return [end.reason, wrong];
}

/* A program with a word of each instruction, whose ecall writes four bytes, and whose ebreak ends
 * it. */
function allRows() {
  const before = [
    ...w.li(6, 0x87654321), ...w.li(7, 0x1234), ...w.li(8, FIRST), ...w.li(A7, 64),
    ...w.li(A0, 1), ...w.li(A1, FIRST), ...w.li(A2, 4), w.sw(6, 0, 8),
  ];
  const words = [...before];
  const ebreak = w.ROWS.find(([name]) => name === "ebreak")[1];
  for (const [name, word] of w.ROWS) {
    if (name === "jalr") words.push(w.lui(9, 0), w.addi(9, 9, 4 * (words.length + 3)));
    if (word !== ebreak) words.push(word);
  }
  return [...words, ebreak];
}

function rowsThereAndBack(report, page, kit) {
  const words = allRows();
  const machine = machineWith(page, kit, words);
  report.same("the end, and states that differ on the way back", ["fault", 0],
    thereAndBack(machine));
  while (machine.step() === null);
  report.same("the steps", words.length - 1, machine.steps);
  report.same("the kind of the end", page.FAULT.EBREAK, machine.step().kind);
  const names = machine.counts().map(({ name }) => name).sort();
  const wanted = w.ROWS.map(([name]) => name).filter((name) => name !== "ebreak").sort();
  report.same("the instructions that are counted", wanted, names);
  const total = machine.counts().reduce((sum, { count }) => sum + count, 0);
  report.same("how many are counted", words.length - 1, total);
  const of = Object.fromEntries(machine.counts().map(({ name, count }) => [name, count]));
  report.same("some counts", [9, 1, 2, 1], [of.lui, of.mul, of.sw, of.ecall]);
  const listed = Object.entries(of);
  const sorted = [...listed].sort(([a, m], [b, n]) => n - m || (a < b ? -1 : 1));
  report.same("most first, and those of the same count by their names", sorted, listed);
}

/* What the record of the latest step says. */
function recordsOfSteps(report, page, kit) {
  const { history } = page;
  const value = 0x87654321;
  const rows = [
    [w.lui(5, 0x7000), { rd: 5, rdAfter: 0x7000, readMask: 0, writeMask: 0, madeBy: 0 }],
    [w.sw(6, 8, 8), { rd: 0, address: FIRST + 8, value, readMask: 0, writeMask: 15, madeBy: 0 }],
    [w.sh(6, 10, 8), { rd: 0, address: FIRST + 10, value: 0x4321, writeMask: 3, madeBy: 0 }],
    [w.sb(6, 11, 8), { rd: 0, address: FIRST + 11, value: 0x21, writeMask: 1, madeBy: 0 }],
    [w.lw(5, 0, 8), { rd: 5, rdAfter: value, address: FIRST, value, readMask: 15, writeMask: 0 }],
    [w.lh(5, 2, 8), { rd: 5, rdAfter: 0xffff8765, address: FIRST + 2, value: 0x8765, readMask: 3 }],
    [w.lbu(5, 3, 8), { rd: 5, rdAfter: 0x87, address: FIRST + 3, value: 0x87, readMask: 1 }],
    [w.lw(0, 0, 8), { rd: 0, rdAfter: 0, address: FIRST, value, readMask: 15 }],
  ];
  for (const [word, wanted] of rows) {
    const machine = machineWith(page, kit, [...w.li(8, FIRST), ...w.li(6, value), w.sw(6, 0, 8),
      word]);
    for (let made = 0; made < 6; made++) machine.step();
    const [record] = machine.history.latest(1);
    const got = Object.fromEntries(Object.keys(wanted).map((name) => [name, record[name]]));
    report.same(`the record of ${word.toString(16)}`, wanted, got);
    report.same("its place and word", [5, 20, word], [record.step, record.pc, record.word]);
    const stored = wanted.writeMask
      ? { address: wanted.address, length: { 15: 4, 3: 2, 1: 1 }[wanted.writeMask] } : null;
    report.same("what it stored", stored, machine.history.latestStore());
  }
  report.same("a machine with no step", null, machineWith(page, kit, []).history.latestStore());
}

/* ---- system calls: the registers of a call, and what comes of it */

/* A machine before an ecall, with sixteen letters at FIRST. */
function beforeCall(page, kit, [a7, a0, a1, a2], base = 0, typed = "") {
  const machine = machineWith(page, kit, [w.ecall], base);
  const bytes = new TextEncoder().encode("0123456789abcdef");
  kit.bytes.set(bytes, FIRST);
  for (const [register, value] of [[A0, a0], [A1, a1], [A2, a2], [A7, a7]]) {
    kit.x[register] = value;
  }
  kit.x[5] = 55;
  kit.last = 5;
  machine.terminal.type(typed);
  return machine;
}

/* What comes of it: the answer in a0, or the end, and what was printed. And whether it is one step
 * of the one register, which can be taken back. */
function callThereAndBack(page, kit, call, base, typed) {
  const machine = beforeCall(page, kit, call, base, typed);
  const before = digest(machine);
  const end = machine.step();
  const printed = machine.terminal.text(1e9);
  if (end !== null) return [end, digest(machine) === before];
  const state = [kit.x[A0] | 0, printed, kit.pc - kit.base, kit.last, machine.steps];
  machine.stepBack();
  return [...state, digest(machine) === before];
}

function writes(report, page, kit) {
  const last = 0xffffffff;
  for (const base of [0, 0x80000000]) {
    const at = base + FIRST;
    const end = base + SIZE;
    const rows = [
      [[1, at, 4], 4, "0123"], [[2, at + 1, 3], 3, "123"], [[1, at, 0], 0, ""],
      [[0, at, 4], -9, ""], [[3, at, 4], -9, ""], [[last, at, 4], -9, ""], [[3, at, last], -9, ""],
      [[1, end, 1], -14, ""], [[1, end, 0], 0, ""], [[1, end - 1, 9], 1, "\0"],
      [[1, end - 4, 4], 4, "\0\0\0\0"], [[1, at, last], -14, ""], [[1, last, 1], -14, ""],
      [[1, last, 2], -14, ""], [[1, at, 2 ** 32 - at], SIZE - FIRST, undefined],
      [[1, at, 2 ** 32 - at + 1], -14, ""],
    ];
    if (base > 0) rows.push([[1, base - 1, 4], -14, ""], [[1, base - 4, 8], -14, ""]);
    for (const [call, answer, text] of rows) {
      const [a0, printed, ...rest] = callThereAndBack(page, kit, [64, ...call], base);
      report.same(`write(${call})`, [answer, text ?? printed, 4, A0, 1, true],
        [a0, printed, ...rest]);
    }
  }
}

function reads(report, page, kit) {
  const at = FIRST;
  const long = "x".repeat(299);
  const rows = [
    [[0, at, 9], "ab\ncd\n", 3, "ab\n3456789abcdef"], [[0, at, 2], "ab\n", 2, "ab23456789abcdef"],
    [[0, at + 1, 9], "ab\n", 3, "0ab\n456789abcdef"],
    [[0, at + 6, 3], "xyz", 3, "012345xyz9abcdef"],
    [[0, at, 0], "", 0, "0123456789abcdef"], [[1, at, 4], "ab\n", -9, "0123456789abcdef"],
    [[0, SIZE, 4], "ab\n", -14, "0123456789abcdef"],
    [[0, 0xffffffff, 2], "ab\n", -14, "0123456789abcdef"],
    [[0, at, 1000], `${long}\n`, 256, "x".repeat(16)],
    [[0, SIZE - 1, 4], "ab\n", 1, "0123456789abcdef"],
    [[0, at, 9], "é\n", 3, "é\n3456789abcdef"],
  ];
  for (const [call, typed, answer, stored] of rows) {
    const [a0, printed, ...rest] = callThereAndBack(page, kit, [63, ...call], 0, typed);
    report.same(`read(${call})`, [answer, "", 4, A0, 1, true], [a0, printed, ...rest]);
    const machine = beforeCall(page, kit, [63, ...call], 0, typed);
    machine.step();
    const memory = new TextDecoder().decode(kit.bytes.subarray(FIRST, FIRST + 16));
    report.same(`memory after read(${call})`, stored, memory);
    const isStored = answer > 0;
    report.same(`what read(${call}) stored`,
      isStored ? { address: call[1], length: answer } : null, machine.history.latestStore());
    report.same(`what read(${call}) took`, [Math.max(answer, 0), 1],
      [machine.terminal.taken, machine.history.extras.size]);
  }
}

function endsOfCalls(report, page, kit) {
  const { ECALL } = page.FAULT;
  const rows = [
    [[93, 7, 0, 0], { reason: "exit", status: 7 }],
    [[93, 0xffffffff, 0, 0], { reason: "exit", status: 255 }],
    [[93, 256, 0, 0], { reason: "exit", status: 0 }],
    [[94, 7, 0, 0], { reason: "exit", status: 7 }],
    [[95, 7, 0, 0], { reason: "fault", kind: ECALL, address: 0, word: 0 }],
    [[0, 1, FIRST, 4], { reason: "fault", kind: ECALL, address: 0, word: 0 }],
    [[63, 0, FIRST, 4], { reason: "waiting" }],
  ];
  report.cases("what comes of a call", rows.map(([call, end]) => [call, [end, true]]),
    (call) => callThereAndBack(page, kit, call));
  const machine = beforeCall(page, kit, [63, 0, FIRST, 4]);
  machine.terminal.close();
  report.same("a read after the end of input", [null, 0, 4], [machine.step(), kit.x[A0], kit.pc]);
}

/* Bytes that were read and found no room are given by the next read, and no others with them. */
function heldBytes(report, page, kit) {
  const machine = beforeCall(page, kit, [63, 0, SIZE, 100], 0, "ab\ncd\n");
  const seen = [];
  for (const [a1, a2] of [[SIZE, 100], [FIRST, 1], [FIRST, 100], [FIRST, 100]]) {
    kit.pc = 0;
    kit.x.set([0, a1, a2], A0);
    seen.push([machine.step(), kit.x[A0] | 0]);
  }
  report.same("reads one after another", [[null, -14], [null, 1], [null, 2], [null, 3]], seen);
}

/* ---- the port */

function ports(report, page, kit) {
  const at = 0x10000000;
  const port = [w.lui(8, at), ...w.li(6, 0x1ff)];
  const rows = [
    [w.sb(6, 0, 8), w.lb(5, 0, 8), [null, 0xffffffff, "\u{fffd}"]],
    [w.sb(6, 0, 8), w.lbu(5, 0, 8), [null, 0xff, "\u{fffd}"]],
    [w.sb(6, 0, 8), w.lb(0, 0, 8), [null, 0, "\u{fffd}"]],
    [w.sb(6, 0, 8), w.lh(5, 0, 8), [page.FAULT.LOAD, 0, "\u{fffd}"]],
    [w.sb(6, 0, 8), w.lw(5, 0, 8), [page.FAULT.LOAD, 0, "\u{fffd}"]],
    [w.sb(6, 0, 8), w.sh(6, 0, 8), [page.FAULT.STORE, 0, "\u{fffd}"]],
    [w.sb(6, 0, 8), w.sw(6, 0, 8), [page.FAULT.STORE, 0, "\u{fffd}"]],
    [w.sb(6, 0, 8), w.sb(6, 1, 8), [page.FAULT.STORE, 0, "\u{fffd}"]],
    [w.sb(6, 0, 8), w.lbu(5, -1, 8), [page.FAULT.LOAD, 0, "\u{fffd}"]],
    [w.lbu(5, 0, 8), w.sb(0, 0, 8), [null, 0, "\0"]],
  ];
  for (const [first, second, wanted] of rows) {
    const words = [...port, first, second];
    const machine = machineWith(page, kit, words);
    let end = null;
    for (let made = 0; made < words.length && end === null; made++) end = machine.step();
    report.same(`the port, ${second.toString(16)}`, wanted,
      [end && end.kind, kit.x[5], machine.terminal.text(9)]);
    report.same("what the port stored", null, end ? null : machine.history.latestStore());
    report.same("the way back", ["fault", 0], thereAndBack(machineWith(page, kit, words)));
  }
  const machine = machineWith(page, kit, [...port, w.sb(6, 0, 8), w.lb(5, 0, 8)]);
  for (let made = 0; made < 5; made++) machine.step();
  const fields = ({ rd, rdAfter, address, value, readMask, writeMask, madeBy }) =>
    [rd, rdAfter, address, value, readMask, writeMask, madeBy];
  report.same("the records of the port",
    [[0, 0, at, 0xff, 0, 1, 1], [5, 0xffffffff, at, 0xff, 1, 0, 1]],
    machine.history.latest(2).reverse().map(fields));
  const covered = machineWith(page, kit, [...port, w.sb(6, 0, 8)], at);
  while (covered.step() === null && covered.steps < 4);
  report.same("a port that memory covers", ["", 0xff],
    [covered.terminal.text(9), kit.bytes[0]]);
}

/* ---- the first state, stops, and counts */

function firstStates(report, page, kit) {
  for (const [base, hasStack, sp] of [[0, false, 0], [0x80000000, true, 0x80010000]]) {
    const words = [w.addi(5, 0, 1), w.sw(5, 0, 2), w.ebreak];
    const machine = machineWith(page, kit, words, base, hasStack);
    const first = digest(machine);
    report.same("the first state", [base, 0, sp, 0, [...words, 0]],
      [kit.pc, kit.last, kit.x[2], kit.x[5], [...kit.words.subarray(0, 4)]]);
    machine.terminal.type("typed");
    machine.terminal.print(Uint8Array.of(65));
    while (machine.step() === null);
    kit.words[100] = 1;
    kit.x[31] = 1;
    machine.reset();
    report.same("the state after a reset", first, digest(machine));
    report.same("no step is kept", [false, "oldest"],
      [machine.stepBack(), machine.runBack(5, new Uint8Array(SIZE / 4))]);
  }
}

function addresses(report, page, kit) {
  const machine = machineWith(page, kit, [w.ebreak], 0x1000);
  report.cases("the number of the word at an address", [
    [0x1000, 0], [0x1003, 0], [0x1004, 1], [0x0fff, -1], [0, -1], [0x1000 + SIZE - 1, SIZE / 4 - 1],
    [0x1000 + SIZE, -1], [0xffffffff, -1], [NaN, -1],
  ], (address) => machine.indexOf(address));
  report.cases("the word at a pc", [
    [0x1000, w.ebreak], [0x1004, 0], [0x1002, undefined], [0x1001, undefined], [0, undefined],
  ], (pc) => {
    kit.pc = pc;
    return machine.wordAtPc();
  });
}

function runs(report, page, kit) {
  const nothing = new Uint8Array(SIZE / 4);
  const stopAt = (...indexes) => nothing.map((_, at) => (indexes.includes(at) ? 1 : 0));
  const words = [w.addi(5, 5, 1), w.addi(6, 6, 1), w.jal(0, -8)];
  for (const base of [0, 0x80000000]) {
    const machine = machineWith(page, kit, words, base);
    report.same("a run to a number of steps", [null, 7, base + 4],
      [machine.run(7, nothing), machine.steps, kit.pc]);
    report.same("a run to a stop", [{ reason: "stop", address: base }, 9],
      [machine.run(100, stopAt(0)), machine.steps]);
    report.same("a run from a stop to the next", [{ reason: "stop", address: base }, 12],
      [machine.run(100, stopAt(0)), machine.steps]);
    report.same("some steps back", [null, 8], [machine.runBack(4, nothing), machine.steps]);
    report.same("back to a stop", ["stop", 7], [machine.runBack(9, stopAt(1)), machine.steps]);
    report.same("back to the first state", ["oldest", 0],
      [machine.runBack(7, nothing), machine.steps]);
  }
  const away = machineWith(page, kit, [w.jalr(0, 0, 0x102)]);
  report.same("a stop at 0x100, and a pc of 0x102", [null, 0x102],
    [away.run(1, stopAt(0x40)), kit.pc]);
  const out = machineWith(page, kit, [w.lui(5, 0x20000000), w.jalr(0, 5, 0)]);
  report.same("stops everywhere, and a pc outside", [{ reason: "stop", address: 4 }, null],
    [out.run(9, nothing.fill(1)), out.run(1, nothing)]);
}

/* A run answers when calls have transferred 64 KiB. */
function longTransfers(report, page, kit) {
  const call = [w.ecall, w.addi(A0, 9, 0), w.jal(0, -8)];
  const writing = [...w.li(A7, 64), ...w.li(A2, 30000), w.addi(9, 0, 1), w.addi(A0, 9, 0), ...call];
  const machine = machineWith(page, kit, writing);
  report.same("a run that writes", [null, 90000], [machine.run(1000, new Uint8Array(SIZE / 4)),
    machine.terminal.printed]);
  report.same("and once more", [null, 180000], [machine.run(1000, new Uint8Array(SIZE / 4)),
    machine.terminal.printed]);
  const reading = [...w.li(A7, 63), ...w.li(A1, FIRST), ...w.li(A2, 300), ...call];
  const reader = machineWith(page, kit, reading);
  reader.terminal.type("x".repeat(100000));
  report.same("a run that reads", [null, 65536], [reader.run(9999, new Uint8Array(SIZE / 4)),
    reader.terminal.taken]);
}

/* Counts that are carried over 2^32. */
function largeCounts(report, page, kit) {
  const machine = machineWith(page, kit, [w.addi(5, 5, 1), w.jal(0, -4)]);
  const most = 2 ** 32 - 1;
  machine.step();
  machine.step();
  machine.executed[0] = most;
  machine.kinds.forEach((count, kind) => { if (count) machine.kinds[kind] = most; });
  machine.step();
  report.same("a count over 2^32", [2 ** 32, 2 ** 32],
    [machine.executed[0], machine.counts()[0].count]);
  report.same("the instructions, most first", ["addi", "jal"],
    machine.counts().map(({ name }) => name));
  machine.stepBack();
  report.same("a step back", [most, most], [machine.executed[0], machine.counts()[1].count]);
  report.same("of the same count, by name", ["addi", "jal"],
    machine.counts().map(({ name }) => name));
}

function kitCalls(report, page, kit) {
  machineWith(page, kit, [], 0x1000);
  kit.x.set([FIRST, 0x87654321], 8);
  const { LOAD, STORE, NONE } = page.ACCESS;
  report.same("kinds of an access", [0, 1, 2], [NONE, LOAD, STORE]);
  report.cases("what an instruction requests", [
    [w.lhu(5, 6, 8), { kind: 1, address: FIRST + 6, bytes: 2 }],
    [w.sw(9, 4, 8), { kind: 2, address: FIRST + 4, bytes: 4, value: 0x87654321 }],
    [w.sb(9, 1, 8), { kind: 2, address: FIRST + 1, bytes: 1, value: 0x87654321 }],
    [w.addi(5, 6, 1), { kind: 0 }],
  ], (word) => {
    const access = kit.request(word);
    if (access.kind === LOAD) delete access.value;
    return access.kind === NONE ? { kind: 0 } : access;
  });
  const rows = w.ROWS.map(([, word]) => kit.decode(word).row);
  report.same("rows are of 1 to 48, each another", [48, 1, 48],
    [new Set(rows).size, Math.min(...rows), Math.max(...rows)]);
  report.cases("the row and the register of a word", [
    [0, [0, 0]], [0xffffffff, [0, 0]], [w.addi(31, 0, 0), [undefined, 31]],
  ], (word) => {
    const { row, rd } = kit.decode(word);
    return [row && undefined, rd].map((value, at) => (at === 0 && row === 0 ? 0 : value));
  });
  report.cases("the text of a word at 0x80000000", [
    [w.addi(5, 6, -1), "addi x5, x6, -1"], [0, ""], [w.ecall, "ecall"],
  ], (word) => kit.disassemble(word, 0x80000000));
}

/** Tries the machine over a kit. */
function tryMachine(report, page, kit) {
  report.begin("machine");
  for (const part of [
    rowsThereAndBack, recordsOfSteps, writes, reads, endsOfCalls, heldBytes, ports, firstStates,
    addresses, runs, longTransfers, largeCounts, kitCalls,
  ]) part(report, page, kit);
}

module.exports = { digest, machineWith, thereAndBack, tryMachine };
