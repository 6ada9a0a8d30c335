"use strict";

// Programs with compressed code: executables, half-words and assembly.

const fs = require("node:fs");
const path = require("node:path");

const { thereAndBack } = require("./machine.js");

/* What gcc -march=rv32imac -Os makes of this, from 0x10000 on, but for the sections, in hexadecimal
 * digits:
 *
 *   static unsigned total = 5; static char bytes[12];
 *   static int twice(int x) { return x + x; }
 *   static int sum(int n) { int s = 0; for (int i = 0; i < n; i++) s += twice(i); return s; }
 *   void _start(void) {
 *     __atomic_fetch_add(&total, sum(4), __ATOMIC_RELAXED);
 *     asm volatile("sw %0, 3(%1)" : : "r"(total), "r"(bytes) : "memory");
 *     write(1, "twice\n", 6);
 *     exit(bytes[3]);
 *   } */
const PROGRAM = Buffer.from(
  fs.readFileSync(path.join(__dirname, "twice.hex"), "utf8").replaceAll("\n", ""), "hex");

/* Where it calls sum, and sum. */
const [CALL, SUM] = [0x100a6, 0x10078];

const FIRST = 0x10000;

async function sessionOf(page, kit, file = PROGRAM) {
  const session = new page.Session(new page.Machine(kit));
  session.open({ name: "compressed", ...await page.programOfElf(kit, file) });
  return session;
}

/* Steps to the end, which is answered. */
function ended({ machine }) {
  let end = null;
  while (end === null) end = machine.step();
  return end;
}

const printed = ({ machine: { terminal: { output, printed: length } } }) =>
  Buffer.from(output.subarray(0, length)).toString();

async function processes(report, page, kit) {
  const session = await sessionOf(page, kit);
  const { machine, language } = session;
  report.same("a process, there and back", ["halves", "exit", 0],
    [language, ...thereAndBack(machine)]);
  const end = ended(session);
  report.same("how it ends", [{ reason: "exit", status: 17 }, 63, "twice\n"],
    [end, machine.steps, printed(session)]);
  const told = machine.history.latest(18)
    .map((record) => `${session.executedBy(record)}: ${session.effectOf(record)}`);
  report.same("what is told of its steps", [
    "c.jr ra: ", "amoadd.w zero, a0, (a4): [0x000110ec] ← 0x00000011",
    "c.lui a5, 0x00011000: a5 = 0x00011000", "sw a4, 3(a5): [0x000110f3] ← 0x00000011",
    "c.li a0, 1: a0 = 0x00000001",
  ], [17, 14, 12, 10, 8].map((back) => told[back]));
  const counts = Object.fromEntries(machine.counts().map(({ name, count }) => [name, count]));
  report.same("how often some were executed", [5, 4, 7, 5, 1, 4],
    ["c.jr", "c.slli", "c.addi", "c.jal", "amoadd.w", "bne"].map((name) => counts[name]));
  const addresses = [CALL, CALL + 2, FIRST + 0x100];
  report.same("by their addresses", [1, 1, 0],
    addresses.map((address) => machine.executed[machine.indexOf(address)]));
}

/* The rows of the listing around the call. */
async function listings(report, page, kit) {
  const session = await sessionOf(page, kit);
  const { machine } = session;
  const from = session.rowOf(machine.indexOf(CALL));
  const row = (at) => {
    const index = session.partOf(at);
    return [kit.base + 2 * index - FIRST, session.digitsAt(index), session.textAt(index)];
  };
  report.same("rows of the listing", [
    [0xa4, "c606", "c.swsp ra, 12(sp)"], [0xa6, "3fc9", "c.jal 0x00010078"],
    [0xa8, "67c5", "c.lui a5, 0x00011000"], [0xaa, "0ec78713", "addi a4, a5, 236"],
    [0xae, "00a7202f", "amoadd.w zero, a0, (a4)"],
  ], [-1, 0, 1, 2, 3].map((at) => row(from + at)));
  report.same("data is by words", [0x10e0, "00000000", ".word 0"],
    row(session.rowOf(machine.indexOf(0x110e0))));
  const second = machine.indexOf(0x100ac);
  report.same("the row of a second half", 0x100aa,
    kit.base + 2 * session.partOf(session.rowOf(second)));
  machine.setPc(0x100ac);
  session.say("there", "");
  report.same("and where the pc is there", [0xac, "202f0ec7", ""], row(session.rowOf(second)));
  session.select(from);
  report.same("a row that is selected", machine.indexOf(CALL), session.selected);
}

async function stops(report, page, kit, clock) {
  const session = await sessionOf(page, kit);
  const { machine } = session;
  session.toggleBreakpoint(machine.indexOf(CALL));
  session.run();
  while (session.isRunning) await clock.next();
  report.same("at a breakpoint at 2 modulo 4", [CALL, "Breakpoint", 2],
    [kit.pc, session.notice.heading, machine.steps]);
  session.step();
  const [frame] = page.framesOf(machine);
  report.same("in the call", [SUM, { from: CALL, entry: SUM, back: CALL + 2, sp: 0x10ffb0 }],
    [kit.pc, frame]);
  session.stepOut();
  while (session.isRunning) await clock.next();
  report.same("back from it", [CALL + 2, 0], [kit.pc, page.depthOf(machine)]);
  session.runBack();
  while (session.isRunning) await clock.next();
  report.same("back at the breakpoint", [CALL, 2], [kit.pc, machine.steps]);
  session.stepOver();
  while (session.isRunning) await clock.next();
  report.same("over the call", [CALL + 2, 12], [kit.pc, kit.x[10]]);
  report.same("no remark on the calling convention", [], page.remarksOf(machine));
}

/* A text of half-words that is what a source assembles to. */
function halvesOf(kit, source, base = 0) {
  const { bytes } = kit.assemble(source, base);
  const halves = [];
  for (let at = 0; at < bytes.length; at += 2) {
    halves.push((bytes[at] | bytes[at + 1] << 8).toString(16));
  }
  return halves.join(" ");
}

function opened(page, kit, options) {
  const session = new page.Session(new page.Machine(kit));
  session.open({ name: "halves", language: "halves", ...options });
  return session;
}

/* Programs of half-words, each with its end: the kind, the address, and where it stands. */
function faults(report, page, kit) {
  const { ILLEGAL, FETCH, LOAD, STORE, MISALIGNED, EBREAK } = page.FAULT;
  const cases = [
    ["c.nop; .half 0", ILLEGAL, 2, 2],
    ["c.nop; c.lui a5, 16; c.lw a0, 4(a5)", LOAD, 0x10004, 4],
    ["c.nop; c.lui a5, 16; c.sw a0, 4(a5)", STORE, 0x10004, 4],
    ["c.li a5, 2; c.lw a0, 0(a5)", MISALIGNED, 2, 2],
    ["c.nop; lw a0, 1(zero)", MISALIGNED, 1, 2],
    ["c.nop; amoadd.w a0, a1, (a2)", ILLEGAL, 2, 2],
    ["c.li a0, 3; c.ebreak", EBREAK, 2, 2],
    ["c.lui a5, 16; c.addi a5, -2; c.jr a5; c.nop", FETCH, 0x10000, 0xfffe],
    ["c.nop; csrrw zero, mscratch, a0", ILLEGAL, 2, 2],
  ];
  for (const [source, kind, address, pc] of cases) {
    const session = opened(page, kit, { text: halvesOf(kit, source) });
    if (kind === FETCH) kit.bytes[kit.size - 2] = 3;
    const { machine } = session;
    let end = null;
    let before = null;
    const state = () => JSON.stringify([[...kit.x], kit.pc, kit.last, [...kit.words]]);
    while (end === null) {
      before = state();
      end = machine.step();
    }
    report.same(`${source}: its end, where, and whether nothing changed`, [kind, address, pc, true],
      [end.kind, end.address, kit.pc, before === state()]);
  }
  const sentence = (text) => {
    const session = opened(page, kit, { text });
    return page.explain(ended(session), session.machine, page.NAMES.abi).sentence;
  };
  const none = (address) => `The half-word at ${page.hex(address)} is 0x0000, which is no compressed `
    + "instruction.";
  report.same("the sentence of a half-word that is none",
    `${none(2)} Memory is 0 behind a program's end. Nothing was changed by it.`, sentence("1 0"));
  report.same("that of one behind an instruction of 4 bytes", "The program has no exit: it ran past its "
    + `last instruction. ${none(4)}`, sentence("13 0").split(" A program")[0]);
}

/* Stores over what is not 0, of each size, where none of these instructions is at a multiple of 4. */
const STORES = `c.nop; lui a5, 1; li a0, 0x12345678; c.sw a0, 0(a5); c.sw a5, 0(a5); c.sw a0, 4(a5)
sh zero, 6(a5); sb zero, 5(a5); sw zero, 4(a5); c.ebreak`;

/* Misaligned accesses and an AMO of a process, at 2 modulo 4. */
const MISALIGNED_AT = `c.nop; lui a5, 1; c.li a0, 9; c.nop; c.sw a0, 0(a5); c.addi a5, 3
c.sw a0, 0(a5); c.nop; c.lw a1, 0(a5); c.addi a5, -3; c.nop; amoadd.w a2, a0, (a5); c.ebreak`;

function stores(report, page, kit) {
  const session = opened(page, kit, { text: halvesOf(kit, STORES) });
  report.same("stores, there and back", ["fault", 0], thereAndBack(session.machine));
  ended(session);
  const told = session.machine.history.latest(6)
    .map((record) => `${session.executedBy(record)}: ${session.effectOf(record)}`);
  report.same("what is told of them", ["sw zero, 4(a5): [0x00001004] ← 0x00000000",
    "c.sw a0, 4(a5): [0x00001004] ← 0x12345678", "c.sw a5, 0(a5): [0x00001000] ← 0x00001000"],
  [told[0], told[3], told[4]]);
  const process = opened(page, kit, { text: `_start: ${halvesOf(kit, MISALIGNED_AT)}` });
  report.same("misaligned ones, there and back", ["fault", 0], thereAndBack(process.machine));
  report.same("what they have done", [page.FAULT.EBREAK, 9, 0x09000009, 0x09000012],
    [ended(process).kind, kit.x[11], kit.x[12], kit.words[1024]]);
}

function texts(report, page, kit) {
  const { text, language } = { text: "_start: 4515 # five\n9002 next:\n1", language: "halves" };
  const program = page.readProgram(text, language, 0, 1 << 16, kit);
  report.same("half-words", [[0x4515, 0x9002, 1], 2, 0, { index: 2, offset: 4 }],
    [program.words, program.unit, program.entry,
      { index: program.places.get("next").index, offset: program.places.get("next").offset }]);
  report.cases("why a text is none", [
    ["4515 19002", 'Line 1: "19002" is no half-word of 1 to 4 hexadecimal digits'],
    ["", "There is no half-word in it."],
  ], (given) => {
    try {
      return page.readProgram(given, language, 0, 1 << 16, kit) && "read";
    } catch (error) {
      return error.message;
    }
  });
}

/* Each half-word: its text is told where it stands for a word, which has the text of an instruction. */
function halves(report, page, kit) {
  opened(page, kit, { text: "1" });
  const wrong = [];
  let count = 0;
  for (let half = 0; half < 1 << 16; half++) {
    if ((half & 3) === 3) continue;
    const word = kit.wordOf(half);
    const isOne = kit.disassemble(half, 0) !== "";
    if (isOne) count++;
    if (isOne !== (word !== 0) || isOne && kit.disassemble(word, 0) === "") wrong.push(half);
  }
  report.same("half-words with a text and no word, or the other way round", [[], 28823], [wrong, count]);
}

/* Prints by the port, from addresses at 2 modulo 4. */
const PORT = ["c.nop", "lui a5, 0x10000", "li a0, 65", "sb a0, 0(a5)", "c.nop", "lbu a1, 0(a5)",
  "c.ebreak"].join("\n");

function assembled(report, page, kit) {
  const text = `.option rvc\nli a2, 0x12345678\nstart: addi a0, a0, 1\n${PORT}\nlater: .word 7`;
  const session = opened(page, kit, { text, language: "assembly" });
  const { machine } = session;
  report.same("assembly, there and back", ["fault", 0], thereAndBack(machine));
  report.same("its end and what it did", [page.FAULT.EBREAK, "A", 65, 66],
    [ended(session).kind, printed(session), kit.x[11], kit.x[10] + 1]);
  report.same("the lines of its instructions, and where the first begins", [2, 3, 4, 5, 6, 7, 8, 9, 10, 0],
    [...session.starts.keys(), ...session.starts.get(2)]);
  report.same("a label, and lines", [0x22, 10, 2], [session.addressOf("later"),
    ...[kit.pc, 4].map((address) => session.lineOf(machine.indexOf(address)))]);
  const adds = opened(page, kit, { text: "nop\nc.add a0, a1", language: "assembly" });
  report.same("what is forbidden, by the name of what it stands for",
    ["Line 2: add may not stand in this program."],
    page.forbiddenIn(adds, { forbidden: [{ name: "add" }] }));
  const words = opened(page, kit, { text: "addi a0, a0, 1", language: "assembly" });
  report.same("assembly without compressed code", [4, null], [kit.unit, words.rows]);
}

/* A handler takes an illegal half-word, and goes on behind it. Before that msip is stored and loaded. */
const TRAPS = `lui a4, 0x2000; c.li a3, 2; c.sw a3, 0(a4); c.lw a2, 0(a4); la t0, 1f; csrw mtvec, t0
c.nop; .half 0; c.li a0, 5; c.ebreak; .align 2
1: csrr a1, mcause; csrr t1, mepc; c.addi t1, 2; csrw mepc, t1; mret`;

function machineMode(report, page, kit) {
  const session = opened(page, kit, { text: halvesOf(kit, TRAPS), calls: "machine" });
  const { machine } = session;
  for (let made = 0; made < 15; made++) machine.step();
  report.same("a trap of a half-word, and msip", [5, 2, 2, 28], [...kit.x.subarray(10, 13), kit.pc]);
  while (machine.stepBack());
  report.same("back at the start", [0, 0, 0], [kit.pc, kit.x[10], machine.traps.csrs[page.CSR.mtvec]]);
}

async function tryCompressed(report, page, kit, clock) {
  report.begin("compressed");
  clock.time = 0;
  clock.tasks.length = 0;
  await processes(report, page, kit);
  await listings(report, page, kit);
  await stops(report, page, kit, clock);
  faults(report, page, kit);
  stores(report, page, kit);
  texts(report, page, kit);
  halves(report, page, kit);
  assembled(report, page, kit);
  machineMode(report, page, kit);
  clock.tasks.length = 0;
}

module.exports = { tryCompressed };
