"use strict";

// Executables in the ELF format that become programs of the page.

const { thereAndBack } = require("./machine.js");

/* The names of the symbols, and where each begins. */
const NAMES = "\0_start\0twice\0odd-name\0";
const nameAt = (name) => NAMES.indexOf(`${name}\0`);

/* From 0x10074 on: _start reads the number of its arguments, calls twice, which adds 7 and the word
 * at 0x11000, and exits with the sum; behind twice another function of this name, and one whose
 * name is no label. */
const CODE = [
  0x00012503, 0x00c000ef, 0x05d00893, 0x00000073, 0x00750513, 0x000117b7, 0x0007a783, 0x00f50533,
  0x00008067, 0x00008067, 0x00008067,
];
const SYMBOLS = [
  ["", 0, 0, 0], ["_start", 0x10074, 0, 0x10], ["twice", 0x10084, 20, 0x12],
  ["twice", 0x10098, 4, 0x02], ["odd-name", 0x1009c, 4, 0x12],
];
const HEADERS = 0x74;
const DATA_AT = HEADERS + 4 * CODE.length;
const SYMBOLS_AT = DATA_AT + 4;
const NAMES_AT = SYMBOLS_AT + 16 * SYMBOLS.length;

/* An executable, lowest byte first: a segment with the headers and the code, one with a word and
 * zeros, and symbols. `changes` has bytes by their offsets, `last` is the name of the last symbol, and
 * `code` has as many words as CODE. */
function executable(changes = {}, last = "odd-name", code = CODE) {
  const names = NAMES.replace("odd-name", last);
  const sectionsAt = (NAMES_AT + names.length + 3) & ~3;
  const bytes = new Uint8Array(sectionsAt + 3 * 40);
  const view = new DataView(bytes.buffer);
  const put = (at, ...words) => words.forEach((word, i) => view.setUint32(at + 4 * i, word, true));
  put(0, 0x464c457f, 0x00010101, 0, 0, 0x00f30002, 1, 0x10074, 52, sectionsAt, 0, 0x00200034,
    0x00280002, 3);
  put(52, 1, 0, 0x10000, 0, DATA_AT, DATA_AT, 5, 4096);
  put(84, 1, DATA_AT, 0x11000, 0, 4, 0x100, 6, 4096);
  put(HEADERS, ...code, 30);
  SYMBOLS.forEach(([name, value, size, info], i) =>
    put(SYMBOLS_AT + 16 * i, nameAt(name), value, size, info | (i === 0 ? 0 : 0x10000)));
  bytes.set(new TextEncoder().encode(names), NAMES_AT);
  put(sectionsAt + 40, 0, 2, 0, 0, SYMBOLS_AT, 16 * SYMBOLS.length, 2, 1, 4, 16);
  put(sectionsAt + 80, 0, 3, 0, 0, NAMES_AT, names.length, 0, 0, 1, 0);
  for (const [at, byte] of Object.entries(changes)) bytes[at] = byte;
  return bytes;
}

/* The program that an executable is, or why it is none. */
async function opened(page, kit, bytes) {
  try {
    return await page.programOfElf(kit, bytes);
  } catch (error) {
    if (!(error instanceof page.ProgramError)) throw error;
    return error.message;
  }
}

async function programs(report, page, kit) {
  const program = await opened(page, kit, executable());
  const { text, code, ...rest } = program;
  report.same("the memory of an executable",
    { language: "words", base: 0x10000, size: 1 << 20, hasStack: true, calls: "linux" }, rest);
  const { words, labels, entry } = page.parseProgram(text, 1 << 20);
  report.same("its words", [1025, 0x464c457f, CODE, 0, 30],
    [words.length, words[0], words.slice(29, 40), words[1023], words[1024]]);
  report.same("its words that are read-only", [40, 1, 0],
    [code.reduce((sum, one) => sum + one), code[29], code[1024]]);
  report.same("its labels", { 29: ["_start"], 33: ["twice"], 38: ["twice.00010098"] },
    Object.fromEntries(labels));
  report.same("where it starts", HEADERS, entry);
  const session = new page.Session(new page.Machine(kit));
  session.open({ name: "executable", ...program });
  const { machine } = session;
  report.same("pc and sp", [0x10074, 0x110000 - 64], [kit.pc, kit.x[2]]);
  let end = null;
  while (end === null) end = machine.step();
  report.same("how it ends", [{ reason: "exit", status: 37 }, 8], [end, machine.steps]);
  const halves = await opened(page, kit, executable({ 36: 1 }));
  const short = page.parseProgram(halves.text, 1 << 20, 2);
  report.same("the same with compressed code", ["halves", 2050, { 58: ["_start"], 66: ["twice"],
    76: ["twice.00010098"] }, 80], [halves.language, short.words.length,
    Object.fromEntries(short.labels), halves.code.reduce((sum, one) => sum + one)]);
  // the second segment has two bytes of the file more
  const longer = await opened(page, kit, executable({ [84 + 16]: 6 }));
  report.same("words of a file whose last one is not whole", 1026,
    page.parseProgram(longer.text, 1 << 20).words.length);
  const named = await opened(page, kit, executable({ [NAMES_AT + 1]: 0x61 }));
  report.same("the label of the entry under another name", true,
    named.text.includes("_start:\nastart:\n0x00012503\n"));
  for (const length of [255, 256]) {
    const name = "n".repeat(length);
    const { text: other } = await opened(page, kit, executable({}, name));
    report.same(`a name of ${length} letters`, length < 256, other.includes(`${name}:\n`));
  }
}

/* A session with the executable whose code is a text. */
async function sessionOf(page, kit, text, calls = "linux", changes = {}) {
  const { bytes } = kit.assemble(text, 0x10000 + HEADERS);
  const code = CODE.map((_, index) => new DataView(bytes.buffer).getUint32(4 * index, true));
  const session = new page.Session(new page.Machine(kit));
  const program = await opened(page, kit, executable(changes, "odd-name", code));
  session.open({ name: "process", ...program, calls });
  return session;
}

/* Stores at a misaligned address over two words, loads between them, and has a word from a pair and
 * from an AMO. */
const PROCESS = `lui a5, 0x11; li a1, 0x7f; sw a1, 3(a5); lw a2, 2(a5); lr.w a3, (a5)
sc.w a4, a1, (a5); amoadd.w a0, a1, (a5); fence.i; li a7, 93; ecall; nop`;

async function processes(report, page, kit) {
  const { machine } = await sessionOf(page, kit, PROCESS);
  report.same("a process, there and back", ["exit", 0], thereAndBack(machine));
  const session = await sessionOf(page, kit, PROCESS);
  let end = null;
  while (end === null) end = session.machine.step();
  const { x, words } = kit;
  report.same("how it ends", [{ reason: "exit", status: 127 }, 9], [end, session.machine.steps]);
  report.same("what it has", [0x7f, 0x7f00, 0x7f00001e, 0, 0xfe, 0],
    [...[10, 12, 13, 14].map((register) => x[register]), words[1024], words[1025]]);
  const told = session.machine.history.latest(7).slice(1)
    .map((record) => `${session.executedBy(record)}: ${session.effectOf(record)}`);
  report.same("what is told of its steps", [
    "fence.i: ",
    "amoadd.w a0, a1, (a5): a0 = 0x0000007f, [0x00011000] ← 0x000000fe",
    "sc.w a4, a1, (a5): a4 = 0x00000000, [0x00011000] ← 0x0000007f",
    "lr.w a3, (a5): a3 = 0x7f00001e ← [0x00011000]",
    "lw a2, 2(a5): a2 = 0x00007f00 ← [0x00011002]",
    "sw a1, 3(a5): [0x00011003] ← 0x0000007f",
  ], told);
}

async function reset(report, page, kit) {
  const session = await sessionOf(page, kit, PROCESS);
  for (let made = 0; made < 5; made++) session.machine.step();
  const before = [...kit.reserved];
  session.reset();
  report.same("the address that is reserved, before a reset and behind it", [[1, 0x11000], [0, 0]],
    [before, [...kit.reserved]]);
}

/* The second segment in a page before the first, whose start is code. */
const DATA_FIRST = { 93: 0xf0, 94: 0 };

/* What a process does not do: its end, by the code, the calls that are chosen, and other bytes of the
 * file. */
async function noProcesses(report, page, kit) {
  const { ILLEGAL, LOAD, STORE, MISALIGNED } = page.FAULT;
  const nops = "; nop".repeat(CODE.length);
  const cases = [
    ["lui a5, 0x11; lr.w a3, (a5); addi a5, a5, 2; sc.w a4, a1, (a5)", MISALIGNED, 0x11002],
    ["lui a5, 0x10; sw a1, 0x71(a5)", STORE, 0x10071, true],
    ["lui a5, 0x10; addi a5, a5, 0x74; amoadd.w a0, a1, (a5)", STORE, 0x10074, true],
    ["lui a5, 0x11; sh a1, 0x71(a5); lui a6, 0x20000; lw a0, 1(a6)", LOAD, 0x20000001],
    ["lui a5, 0x10; sw a1, -2(a5)", STORE, 0xfffe, true, "linux", DATA_FIRST],
    ["lui a5, 0x20000; amoadd.w a0, a1, (a5)", STORE, 0x20000000],
    ["lui a5, 0x110; sw a1, -2(a5)", STORE, 0x10fffe],
    [".word 0x1820b2af", ILLEGAL, 0x10074],
    ["lui a5, 0x11; lw a0, 1(a5)", MISALIGNED, 0x11001, false, "rars"],
    ["lr.w a0, (a5)", ILLEGAL, 0x10074, false, "venus"],
  ];
  for (const [text, kind, address, isCode = false, calls, changes] of cases) {
    const { machine } = await sessionOf(page, kit, text + nops, calls, changes);
    const steps = text.split(";").length - 1;
    for (let made = 0; made < steps; made++) machine.step();
    const state = () => JSON.stringify([[...kit.x], kit.pc, [...kit.words], [...kit.reserved]]);
    const before = state();
    const end = machine.step();
    report.same(`${text}: its end, and what changed`, [steps, kind, address, isCode, true],
      [machine.steps, end.kind, end.address, end.isCode ?? false, before === state()]);
  }
}

async function refused(report, page, kit) {
  const first = 52;
  const second = 84;
  const none = "It is no executable for this machine: ";
  const cases = [
    [{ 4: 2 }, `${none}e_ident[EI_CLASS] is 2, not 1 (32 bits).`],
    [{ 5: 2 }, `${none}e_ident[EI_DATA] is 2, not 1 (lowest byte first).`],
    [{ 6: 0 }, `${none}e_ident[EI_VERSION] is 0, not 1.`],
    [{ 16: 3 }, `${none}e_type is 3: a shared object or a position-independent executable.`],
    [{ 16: 1 }, `${none}e_type is 1, not 2 (an executable).`],
    [{ 18: 62 }, `${none}e_machine is 62, not 243 (RISC-V).`],
    [{ 20: 2 }, `${none}e_version is 2, not 1.`],
    [{ 36: 3 }, `${none}e_flags: a floating-point ABI.`],
    [{ 36: 2 }, `${none}e_flags: a floating-point ABI.`],
    [{ 36: 8 }, `${none}e_flags: RVE, 16 registers.`],
    [{ 42: 40 }, `${none}e_phentsize is 40, not 32.`],
    [{ 44: 0xff, 45: 0xff }, `${none}e_phnum is 65535: too many program headers.`],
    [{ 29: 0xff }, `${none}e_phoff, e_phnum: the file ends within the program headers.`],
    [{ [second]: 3 }, `${none}segment 1: it names a dynamic linker.`],
    [{ [second + 6]: 0xff }, `${none}segment 1: the file ends within it.`],
    [{ [second + 20]: 3, [second + 21]: 0 }, `${none}segment 1: p_filesz is above p_memsz.`],
    [{ [second + 11]: 1, [second + 23]: 0xff }, `${none}segment 1: it ends past the last address.`],
    [{ [second + 9]: 0 }, `${none}segments 0 and 1: they overlap.`],
    [{ 24: 0x75 }, `${none}e_entry is 0x00010075, no multiple of 4.`],
    [{ 24: 0x75, 36: 1 }, `${none}e_entry is 0x00010075, no multiple of 2.`],
    [{ 25: 0x08 }, `${none}e_entry is 0x00010874, in no loaded segment.`],
    [{ [second + 22]: 8 }, "It takes 528,640 bytes from 0x00010000 on, and the memory has 524,288 "
      + "for a program."],
    // p_memsz up to 0x90000, and a byte more
    [{ [second + 20]: 0, [second + 21]: 0xf0, [second + 22]: 7 }, "opened"],
    [{ [second + 20]: 1, [second + 21]: 0xf0, [second + 22]: 7 }, "It takes 524,289 bytes from "
      + "0x00010000 on, and the memory has 524,288 for a program."],
    [{ [first + 11]: 0xff, [second + 11]: 0xff, 27: 0xff }, "opened"],
  ];
  for (const [changes, wanted] of cases) {
    const found = await opened(page, kit, executable(changes));
    report.same(`an executable with ${JSON.stringify(changes)}`, wanted,
      typeof found === "string" ? found : "opened");
  }
  report.same("a file of 40 bytes", `${none}the file ends within the ELF header.`,
    await opened(page, kit, executable().subarray(0, 40)));
  report.same("a file that is none", false, page.isElf(Uint8Array.of(0x7f, 0x45, 0x4c)));
}

async function tryExecutables(report, page, kit) {
  report.begin("executables");
  await programs(report, page, kit);
  await processes(report, page, kit);
  await reset(report, page, kit);
  await noProcesses(report, page, kit);
  await refused(report, page, kit);
}

module.exports = { tryExecutables };
