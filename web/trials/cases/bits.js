"use strict";

// Instructions of Zba to Zicond: in processes, in machine mode and on the board.

const { execFileSync } = require("node:child_process");
const fs = require("node:fs");
const os = require("node:os");
const path = require("node:path");
const { thereAndBack } = require("./machine.js");
const w = require("./words.js");

const RRS = path.join(__dirname, "..", "..", "..", "crates", "rrs", "out", "rrs");

/* What gcc -march=rv32imac_zba_zbb_zbs -Os makes of this, from 0x10000 on, but for the sections, in
 * hexadecimal digits:
 *
 *   static unsigned seeds[4] = {0x12345678, 0x80ff7f01, 9, 0};
 *   static unsigned mix(unsigned a, unsigned b) {
 *     unsigned turned = (a << 7 | a >> 25) + (b & ~a);
 *     unsigned counted = __builtin_clz(a | 1) + __builtin_popcount(b) + __builtin_ctz(b | 256);
 *     int least = (int)a < (int)b ? a : b;
 *     return (turned ^ (unsigned short)b) + (counted | 1u << (b & 31)) + (short)least;
 *   }
 *   void _start(void) {
 *     unsigned sum = 0;
 *     for (unsigned at = 0; at < 4; at++) sum = mix(sum, seeds[at]);
 *     write(1, "bits\n", 5);
 *     exit(sum >> 24 ^ sum);
 *   } */
const PROGRAM = Buffer.from(
  fs.readFileSync(path.join(__dirname, "bits.hex"), "utf8").replaceAll("\n", ""), "hex");

/* Its instructions of Zba, Zbb and Zbs, each made four times, and the address of the last. */
const MADE = ["andn", "bset", "clz", "cpop", "ctz", "min", "rol", "sext.h", "zext.h"];
const BSET = 0x100a8;

/* The first and the last row of Zba to Zicond, and how many there are. */
const [FIRST_ROW, LAST_ROW, ROWS] = [69, 107, 39];

async function sessionOf(page, kit, file) {
  const session = new page.Session(new page.Machine(kit));
  session.open({ name: "bits", ...await page.programOfElf(kit, file) });
  return session;
}

/* Steps to the end, which is answered. */
function ended({ machine }) {
  let end = null;
  while (end === null) end = machine.step();
  return end;
}

const printed = ({ machine: { terminal: { output, printed: length } } }) =>
  Buffer.from(output.subarray(0, length)).toString("hex");

/* How often each of some instructions was executed. */
const countsOf = ({ machine }, names) =>
  names.map((name) => machine.counts().find((entry) => entry.name === name)?.count ?? 0);

async function compiled(report, page, kit, clock) {
  const session = await sessionOf(page, kit, PROGRAM);
  const { machine } = session;
  report.same("a compiled process, there and back", ["exit", 0], thereAndBack(machine));
  report.same("how it ends", [{ reason: "exit", status: 38 }, 101, "626974730a"],
    [ended(session), machine.steps, printed(session)]);
  report.same("how often its instructions were executed", MADE.map(() => 4),
    countsOf(session, MADE));
  report.same("steps with extras: the calls alone", 1, machine.history.extras.size);
  const told = machine.history.latest(31).slice(14).map((record) =>
    `${session.executedBy(record)}: ${session.effectOf(record)}`);
  report.same("what is told of its steps", [
    "bset a1, a5, a1: a1 = 0x00000009", "sext.h a0, a0: a0 = 0x00000000",
    "min a0, a1, a0: a0 = 0x00000000", "ctz a3, a3: a3 = 0x00000008", "clz a5, a5: a5 = 0x00000001",
    "zext.h a2, a1: a2 = 0x00000000", "cpop a6, a1: a6 = 0x00000000",
    "rol a2, a0, a2: a2 = 0x1a28c933", "andn a4, a1, a0: a4 = 0x00000000",
  ], told.filter((text) => MADE.includes(text.split(" ")[0])));
  report.same("no remark on the calling convention", [], page.remarksOf(machine));
  while (machine.stepBack());
  session.toggleBreakpoint(machine.indexOf(BSET));
  session.run();
  while (session.isRunning) await clock.next();
  report.same("at a breakpoint", [BSET, "Breakpoint", [1, 0, 1]],
    [kit.pc, session.notice.heading, countsOf(session, ["clz", "bset", "min"])]);
  session.step();
  session.stepBack();
  report.same("a step there and back", [BSET, 0], [kit.pc, ...countsOf(session, ["bset"])]);
}

/* A function that changes s0 by bset, and a value that is read by max behind its call. */
const AGAINST = `_start: li a0, 1; li t1, 2; call f; max a0, t1, a0; ebreak
f: bseti s0, s0, 9; ret`;

function remarks(report, page, kit) {
  const session = new page.Session(new page.Machine(kit));
  session.open({ name: "remarks", text: AGAINST, language: "assembly", calls: "machine" });
  ended(session);
  report.same("remarks on the calling convention", [["kept", 8, 0, 512], ["lost", 6]],
    page.remarksOf(session.machine).map(({ kind, register, before, after }) =>
      (kind === "kept" ? [kind, register, before, after] : [kind, register])));
}

/* Each instruction by its name, with as many operands as the assembler takes. */
function instructionsOf(kit) {
  const isRight = (text) => kit.assemble(text, 0).mistakes.length === 0;
  return kit.instructionNames().slice(FIRST_ROW - 1, LAST_ROW).map((name) =>
    [", a2", "", ", 5"].map((last) => `${name} a0, a1${last}`).find(isRight));
}

/* A program with each instruction twice, on other numbers, which stores the results in order. */
const programOf = (kit, end) => `_start: la s1, results
li a1, 0x80f1e2d3; li a2, 0x1ab47c05; call all; mv a3, a1; mv a1, a2; mv a2, a3; call all
la s1, results; ${end}
all: ${instructionsOf(kit).map((text) => `${text}; sw a0, (s1); addi s1, s1, 4`).join("; ")}; ret
.data
results: .zero ${8 * ROWS}`;

/* Prints the results by a call, and by the port, and ends. */
const BY_CALL = `li a7, 64; li a0, 1; mv a1, s1; li a2, ${8 * ROWS}; ecall
li a7, 93; li a0, 0; ecall`;
const BY_PORT = `li s2, ${8 * ROWS}; li s3, 0x10000000; 1: lbu t0, (s1); sb t0, (s3); addi s1, s1, 1
addi s2, s2, -1; bnez s2, 1b; li t0, 0x100000; li t1, 0x5555; sw t1, (t0)`;

/* The executable of a source, from an address on, and what it prints under rrs. */
function builtAndPrinted(text, at, command) {
  const folder = fs.mkdtempSync(path.join(os.tmpdir(), "bits"));
  try {
    const [source, program] = ["a.s", "a"].map((name) => path.join(folder, name));
    fs.writeFileSync(source, text);
    execFileSync(RRS, ["as", "-Ttext", at, "-o", program, source]);
    const run = execFileSync(RRS, [command, program], { stdio: ["ignore", "pipe", "ignore"] });
    return [fs.readFileSync(program), run.toString("hex")];
  } finally {
    fs.rmSync(folder, { recursive: true });
  }
}

/* Each instruction in a process. */
async function inProcess(report, page, kit) {
  const [program, wanted] = builtAndPrinted(programOf(kit, BY_CALL), "0x10000", "exec");
  const session = await sessionOf(page, kit, program);
  report.same("each instruction in a process, there and back", ["exit", 0],
    thereAndBack(session.machine));
  ended(session);
  report.same("what it prints", [wanted, 16 * ROWS], [printed(session), wanted.length]);
  const names = kit.instructionNames().slice(FIRST_ROW - 1, LAST_ROW);
  report.same("each is counted apart", names.map(() => 2), countsOf(session, names));
  const words = [...kit.words].filter((word) => kit.isOfBits(word));
  const kinds = [...words, ...w.ROWS.filter(([name]) => name !== "ebreak").map(([, word]) => word)]
    .map((word) => page.kindOf(word, kit));
  report.same("and apart from the rows of the table", [ROWS + 47, ROWS + 47, true],
    [kinds.length, new Set(kinds).size, Math.max(...kinds) < page.KINDS]);
}

/* Each instruction in machine mode, and on the board. */
async function inMachineMode(report, page, kit, clock) {
  const [program, wanted] = builtAndPrinted(programOf(kit, BY_PORT), "0x80000000", "board");
  const session = new page.Session(new page.Machine(kit));
  session.open({
    name: "bits", text: programOf(kit, BY_PORT), language: "assembly", calls: "machine",
    base: 0x80000000,
  });
  report.same("each instruction in machine mode, there and back", ["exit", 0],
    thereAndBack(session.machine));
  ended(session);
  report.same("what it prints there, and steps with extras: the bytes alone", [wanted, 8 * ROWS],
    [printed(session), session.machine.history.extras.size]);
  const board = new page.Board(kit.module);
  const sent = [];
  board.screen.print = (bytes) => sent.push(...bytes);
  board.open("bits", program);
  board.run();
  while (board.isRunning) await clock.next();
  report.same("on the board", [wanted, "It was powered off, with status 0."],
    [Buffer.from(sent).toString("hex"), board.ending]);
}

/* What is said where the hart has none of them. */
function elsewhere(report, page, kit) {
  for (const [calls, source, bits] of [["linux", "andn a0, a1, a2", "0x40c5f533, andn a0, a1, a2"],
    ["rars", "bseti a0, a1, 5", "0x28559513, bseti a0, a1, 5"]]) {
    const session = new page.Session(new page.Machine(kit));
    session.open({ name: "elsewhere", text: source, language: "assembly", calls });
    const end = ended(session);
    report.same(`${source} without machine mode`, [`The word at 0x00000000 is ${bits}: machine `
      + "mode has this instruction. Choose machine mode here. Nothing was changed by it.", "machine"],
    [page.explain(end, session.machine, page.NAMES.abi).sentence,
      page.callsMeant(end, session.machine)]);
  }
}

async function tryBits(report, page, kit, clock) {
  report.begin("bits");
  clock.time = 0;
  clock.tasks.length = 0;
  await compiled(report, page, kit, clock);
  remarks(report, page, kit);
  await inProcess(report, page, kit);
  await inMachineMode(report, page, kit, clock);
  elsewhere(report, page, kit);
  clock.tasks.length = 0;
}

module.exports = { tryBits };
