"use strict";

// What the page says in plain words, and what its keys ask for.

const { machineWith } = require("./machine.js");
const w = require("./words.js");

/* The names of x0 to x31 in the RISC-V psABI, its section on the integer register convention. */
const NAMES = [
  "zero", "ra", "sp", "gp", "tp", "t0", "t1", "t2", "s0", "s1", "a0", "a1", "a2", "a3", "a4", "a5",
  "a6", "a7", "s2", "s3", "s4", "s5", "s6", "s7", "s8", "s9", "s10", "s11", "t3", "t4", "t5", "t6",
];

function numbers(report, page) {
  const { RADIXES } = page;
  report.same("the radixes", ["hexadecimal", "signed decimal", "unsigned decimal", "binary"],
    Object.values(RADIXES).map(({ name }) => name));
  report.cases("a register by radix", [
    [0, ["0x00000000", "0", "0", `0b${"0".repeat(32)}`]],
    [0xffffffff, ["0xffffffff", "-1", "4294967295", `0b${"1".repeat(32)}`]],
    [0x80000000, ["0x80000000", "-2147483648", "2147483648", `0b1${"0".repeat(31)}`]],
    [0x7fffffff, ["0x7fffffff", "2147483647", "2147483647", `0b0${"1".repeat(31)}`]],
    [10, ["0x0000000a", "10", "10", `0b${"0".repeat(28)}1010`]],
  ], (value) => Object.values(RADIXES).map(({ write }) => write(value)));
  report.cases("a count", [
    [[0, "step"], "0 steps"], [[1, "step"], "1 step"], [[2, "byte"], "2 bytes"],
    [[1234567, "step"], "1,234,567 steps"],
  ], ([count, noun]) => page.counted(count, noun));
  report.cases("a share", [
    [[1, 3], "33 %"], [[1, 1], "100 %"], [[1, 11], "9.1 %"], [[1, 10], "10 %"],
    [[1, 1000], "0.1 %"], [[4, 10000], "< 0.1 %"], [[5, 10000], "0.1 %"], [[2, 3], "67 %"],
  ], ([count, total]) => page.percent(count, total));
  report.cases("the greatest of some counts", [[[], 1], [[0, 0], 1], [[3, 7, 5], 7]], page.mostOf);
  const long = "x".repeat(61);
  report.cases("labels of a word", [
    [[], ""], [["a", "b"], "a, b"], [[long], `${"x".repeat(60)}…`],
    [["1", "2", "3", "4", "5", "6", "7", "8"], "1, 2, 3, 4, 5, 6, 7, 8"],
    [["1", "2", "3", "4", "5", "6", "7", "8", "9"], "1, 2, 3, 4, 5, 6, 7, 8, 1 more"],
    [["1", "2", "3", "4", "5", "6", "7", "8", "9", "10"], "1, 2, 3, 4, 5, 6, 7, 8, 2 more"],
  ], page.labelsShown);
  const kit = { base: 16, bytes: Uint8Array.of(0, 31, 32, 126, 127, 65) };
  report.same("letters of memory", "· ~·", page.MemoryView.prototype.lettersAt.call(
    { session: { machine: { kit } }, rowBytes: 4 }, 17));
  // what is looked at is in one of the rows, wherever they stood before
  const outside = [];
  for (const [rowBytes, around, rows] of [
    [8, "sp", 13], [16, "pc", 13], [16, "label x", 7], [8, "address", 13], [16, "sp", 7],
  ]) {
    const view = {
      session: { machine: { kit: { base: 0x1000, size: 0x10000 } } }, rowBytes, around, rows,
    };
    for (let start = 0x1000; start < 0x1400; start += rowBytes) {
      for (let address = 0x1000; address < 0x1600; address += 4) {
        view.start = start;
        page.MemoryView.prototype.follow.call(view, address);
        const offset = address - view.start;
        const isThere = offset >= 0 && offset < rows * rowBytes && view.start % rowBytes === 0;
        if (!isThere || view.start < 0x1000) outside.push([around, start, address, view.start]);
      }
    }
  }
  report.same("addresses that are not in the rows of memory", [], outside.slice(0, 3));
}

function groups(report, page) {
  report.cases("the group of an instruction", w.ROWS.map(([, word, group]) => [word, group]),
    page.groupOf);
  report.same("the names of groups", {
    arithmetic: "arithmetic and logic", multiply: "multiply and divide", load: "load",
    store: "store", branch: "branch", jump: "jump", system: "system",
  }, page.GROUPS);
  const kinds = w.ROWS.filter(([name]) => name !== "ebreak").map(([, word]) => page.kindOf(word));
  report.same("instructions that are counted apart", 47, new Set(kinds).size);
  report.same("and below the number of kinds", true, Math.max(...kinds) < page.KINDS);
  report.cases("the bytes of a load or a store", [
    [w.lb(1, 0, 2), 1], [w.lh(1, 0, 2), 2], [w.lw(1, 0, 2), 4], [w.lbu(1, 0, 2), 1],
    [w.lhu(1, 0, 2), 2], [w.sb(1, 0, 2), 1], [w.sh(1, 0, 2), 2], [w.sw(1, 0, 2), 4],
  ], page.bytesOf);
}

/* What the latest of some steps did, as the page says it. */
function effectOfLast(page, kit, words, steps, typed = "") {
  const machine = machineWith(page, kit, words);
  machine.terminal.type(typed);
  for (let made = 0; made < steps; made++) machine.step();
  return page.effectOf(machine.history.latest(1)[0], page.NAMES.abi);
}

function effects(report, page, kit) {
  report.same("the names of registers", NAMES, page.ABI_NAMES);
  for (let number = 1; number < 32; number++) {
    report.same(`x${number}`, `${NAMES[number]} = 0x00000${number.toString(16).padStart(3, "0")}`,
      effectOfLast(page, kit, [w.addi(number, 0, number)], 1));
  }
  const at = [...w.li(8, 0x2000), ...w.li(6, 0x87654321), w.sw(6, 0, 8)];
  const port = [w.lui(8, 0x10000000), w.addi(6, 0, 0x41)];
  const call = (a7, a1) => [w.addi(10, 0, a7 === 64 ? 1 : 0), w.addi(11, 0, a1), w.addi(12, 0, 3),
    w.addi(17, 0, a7), w.ecall];
  report.cases("what a step did", [
    [[w.addi(0, 0, 1)], ""], [[w.b(0, 0, 0, 8)], ""], [[w.jal(1, 8)], "ra = 0x00000004"],
    [at, "[0x00002000] ← 0x87654321"], [[...at, w.sh(6, 2, 8)], "[0x00002002] ← 0x4321"],
    [[...at, w.sb(6, 7, 8)], "[0x00002007] ← 0x21"],
    [[...at, w.sb(0, 7, 8)], "[0x00002007] ← 0x00"],
    [[...at, w.lw(5, 0, 8)], "t0 = 0x87654321 ← [0x00002000]"],
    [[...at, w.lh(5, 2, 8)], "t0 = 0xffff8765 ← [0x00002002]"],
    [[...at, w.lbu(0, 3, 8)], "0x87 ← [0x00002003]"],
    [[...at, w.lhu(0, 0, 8)], "0x4321 ← [0x00002000]"],
    [[...port, w.sb(6, 0, 8)], "[0x10000000] ← 0x41"],
    [[...port, w.sb(6, 0, 8), w.lbu(5, 0, 8)], "t0 = 0x00000041 ← [0x10000000]"],
    [call(64, 0), "write, a0 = 0x00000003"], [call(63, 100), "read, a0 = 0x00000002"],
    [call(64, -1), "write, a0 = 0xfffffff2"],
  ], (words) => effectOfLast(page, kit, words, words.length, "A\nB\n"));
}

/* ---- why a program stands */

const MEMORY = "Memory goes from 0x80000000 to 0x8000ffff.";
const NOTHING = "Nothing was changed by it.";

/* The words of a program at 0x80000000, and what is said of its end: heading, sentence, kind. */
function ends() {
  const at = "0x80000008";
  const li = w.li(8, 0x20000000);
  const odd = w.li(8, 0x80000103);
  const misaligned = (does, bytes, address) => ["Misaligned address", `The instruction at ${at} `
    + `${does} ${bytes} bytes at ${address}, which is no multiple of ${bytes}. ${NOTHING}`, "end"];
  const loads = ["Load fault", `The instruction at ${at} loads from 0x20000000, where there is no `
    + `memory. ${MEMORY} ${NOTHING}`, "end"];
  const stores = (address) => ["Store fault", `The instruction at ${at} stores to ${address}, `
    + `where there is no memory. ${MEMORY} ${NOTHING}`, "end"];
  const call = (number) => ["Environment call", `The ecall at 0x80000004 asks for system call `
    + `${number} (a7). This page serves 29 (ioctl), 57 (close), 62 (lseek), 63 (read), 64 (write), `
    + "66 (writev), 79 (newfstatat), 80 (fstat), 93 (exit), 94 (exit_group), 160 (uname), "
    + "169 (gettimeofday), 172 (getpid), 174 (getuid), 175 (geteuid), 176 (getgid), 177 (getegid), "
    + "214 (brk), 278 (getrandom), 291 (statx) and 403 (clock_gettime64), as Linux has them. "
    + NOTHING, "end"];
  return [
    [[0xffffffff], ["Illegal instruction", "The word at 0x80000000 is 0xffffffff, which is no "
      + `instruction of RV32IM. ${NOTHING}`, "end"]],
    [[w.addi(1, 0, 1)], ["Illegal instruction", "The program has no exit: it ran past its last "
      + "instruction. The word at 0x80000004 is 0x00000000, which is no instruction of RV32IM. A "
      + `program ends by the call exit (a7 = 93). ${NOTHING}`, "end"]],
    [[w.jal(0, 8)], ["Illegal instruction", "The word at 0x80000008 is 0x00000000, which is no "
      + `instruction of RV32IM. Memory is 0 behind a program's end. ${NOTHING}`, "end"]],
    [[w.lui(8, 0x20000000), w.jalr(0, 8, 4)], ["Fetch fault", "The program went to 0x20000004, "
      + `where there is no memory. ${MEMORY} ${NOTHING}`, "end"]],
    [[w.jalr(0, 0, 2)], ["Misaligned address", "The program went to 0x00000002, which is no "
      + `multiple of 4: no instruction starts there. ${NOTHING}`, "end"]],
    [[...li, w.lw(5, 0, 8)], loads], [[...li, w.lbu(5, 0, 8)], loads],
    [[...li, w.sw(5, 8, 8)], stores("0x20000008")], [[...li, w.sb(5, 1, 8)], stores("0x20000001")],
    [[...odd, w.lw(5, 3, 8)], misaligned("loads", 4, "0x80000106")],
    [[...odd, w.lhu(5, 0, 8)], misaligned("loads", 2, "0x80000103")],
    [[...odd, w.sw(5, 0, 8)], misaligned("stores", 4, "0x80000103")],
    [[...odd, w.sh(5, -2, 8)], misaligned("stores", 2, "0x80000101")],
    [[w.addi(17, 0, 1000), w.ecall], call(1000)], [[w.addi(17, 0, -1), w.ecall], call(4294967295)],
    [[w.ebreak], ["Breakpoint instruction", "The program asked to stop, by the ebreak at "
      + `0x80000000. ${NOTHING}`, "done"]],
    [[w.addi(17, 0, 93), w.addi(10, 0, -1), w.ecall], ["Exit", "The program ended by the ecall at "
      + "0x80000008, with status 255.", "done"]],
    [[w.lui(11, 0x80000000), w.addi(12, 0, 1), w.addi(17, 0, 63), w.ecall], ["Waiting for input",
      "The program reads from the console. Type a line there, or end the input.", "wait"]],
  ];
}

function explanations(report, page, kit) {
  report.cases("why a program stands", ends(), (words) => {
    const machine = machineWith(page, kit, words, 0x80000000);
    const end = machine.run(99, new Uint8Array(16384));
    const { heading, sentence, kind } = page.explain(end, machine, page.NAMES.abi);
    return [heading, sentence, kind];
  });
  const asked = machineWith(page, kit, [w.ebreak], 0x80000000);
  const end = asked.run(99, new Uint8Array(16384));
  asked.environment = page.ENVIRONMENTS.machine;
  report.same("an ebreak for which machine mode has no handler", "end",
    page.explain(end, asked, page.NAMES.abi).kind);
}

/* Sources that end by mistakes of beginners, and a part of what is said of each. */
const CAUSES = [
  ["main: addi sp, sp, -16; sw ra, 12(sp); call main", { hasStack: true },
    "are, which are read-only. The stack has reached the program: is there a recursion without an "
    + "end?"],
  ["main: la t0, main; sw t0, 0(t0)", {}, "where the program's instructions are, which are "
    + "read-only. Nothing was changed by it."],
  ["addi sp, sp, -16; sw ra, 12(sp)", {}, "sp was never set: it began as 0."],
  ["li a0, 5; nop", {}, "The program has no exit: it ran past its last instruction."],
  ["li a0, 5; nop\n.data\n.word -1", {}, "The program has no exit: it ran past its last "
    + "instruction."],
  ["main: li a0, 3; ret", {}, "The ret at 0x00000004 has nowhere to go: ra is 0, since nothing called "
    + "main. A program ends by the call exit (a7 = 93)."],
  ["li a0, 5; li a7, 1; ecall", {}, "is none of Linux's: a7 = 1 is PrintInt of RARS. Choose its calls "
    + "here."],
  ["li a0, 4; la a1, text; text: ecall", {}, "a0 = 4 is print_string of Venus."],
  ["li a7, 64; ecall", { calls: "rars" }, "is none of RARS's: a7 = 64 is write of Linux."],
];

function causes(report, page, kit) {
  report.cases("the cause that is told", CAUSES.map(([text, options, cause]) =>
    [[text, options], cause]), ([text, options]) => {
    const session = new page.Session(new page.Machine(kit));
    session.open({ name: "p", text, language: "assembly", ...options });
    const end = session.machine.run(99999, new Uint8Array(16384));
    session.sayEnd(end);
    const cause = CAUSES.find((row) => row[0] === text)[2];
    return session.sentence.includes(cause) ? cause : session.sentence;
  });
  const machine = new page.Machine(kit);
  const code = Uint8Array.of(1, 1);
  machine.load([w.auipc(5, 0), w.sw(5, 0, 5)], 0, 65536, false, 0, 0, code);
  machine.step();
  const before = [...kit.x, kit.pc, kit.last, machine.steps];
  report.same("a store to an instruction", ["fault", page.FAULT.STORE, 0],
    (({ reason, kind, address }) => [reason, kind, address])(machine.step()));
  report.same("and what it changed", [before, w.auipc(5, 0)],
    [[...kit.x, kit.pc, kit.last, machine.steps], kit.words[0]]);
  report.cases("the text of jalr", [
    ["jalr x1, 0x00c(x1)", "jalr x1, 12(x1)"], ["jalr x0, 0xfff(x5)", "jalr x0, -1(x5)"],
    ["jalr x0, 0x800(x5)", "jalr x0, -2048(x5)"], ["lui x5, 0x00001000", "lui x5, 0x00001000"],
  ], page.inDecimal);
  report.cases("the text of data", [
    [7, ".word 7"], [0xffffffff, ".word -1"], [0x6c6c6548, '.ascii "Hell"'],
    [0x00000a6f, '.ascii "o\\n"'],
    [0x00006100, ".word 24832"], [0x41, ".word 65"], [0, ".word 0"],
  ], page.textOfData);
}

/* ---- keys */

const KEYS = {
  step: "s", stepOver: "S", stepOut: "U", stepBack: "b", run: "r", pause: "p", runToOutput: "R",
  runBack: "B", runToLine: "t", reset: "x",
  breakpoint: "k", program: "g", slower: "-", faster: "+", radix: "n", names: "h", change: "u",
  details: "i", unit: "m", around: "w",
  address: "a", memoryUp: "[", memoryDown: "]", calls: "f", console: "c",
  endInput: "z", examples: "y", preset: "v",
  edit: "e", create: "N", kept: "K", open: "o", save: "W", link: "l", lesson: "j", check: "C", hint: "H", handIn: "D",
  closeLesson: "q",
  theme: "d", keys: "?",
};

function keys(report, page) {
  report.same("the keys of the actions", KEYS,
    Object.fromEntries(Object.entries(page.ACTIONS).map(([name, { key }]) => [name, key])));
  report.same("actions with a sentence", Object.keys(KEYS).length,
    new Set(Object.values(page.ACTIONS).map(({ label }) => label)).size);
  const event = (key, held = []) => ({
    key, shiftKey: held.includes("Shift"), ctrlKey: held.includes("Ctrl"),
    altKey: held.includes("Alt"), metaKey: held.includes("Meta"),
  });
  for (const [name, key] of Object.entries(KEYS)) {
    const isLetter = /[a-z]/i.test(key);
    const shift = /[A-Z]/.test(key) || "+?".includes(key) ? ["Shift"] : [];
    const asked = (...held) => page.actionOf(event(key, [...shift, ...held]));
    report.same(`the key ${key}, alone and with others`,
      [name, undefined, undefined, undefined, undefined, isLetter ? undefined : name],
      [asked(), asked("Ctrl"), asked("Alt"), asked("Meta"), asked("Ctrl", "Alt", "Meta"),
        asked("Ctrl", "Alt")]);
  }
  report.cases("what a key asks for", [
    // CapsLock turns letters around, with and without Shift
    [event("B"), "stepBack"], [event("b", ["Shift"]), "runBack"], [event("S"), "step"],
    [event("s", ["Shift"]), "stepOver"], [event("S", ["Shift"]), "stepOver"],
    [event("t", ["Shift"]), undefined], [event("T", ["Shift"]), undefined],
    [event("Enter"), undefined], [event(" "), undefined], [event("ArrowDown"), undefined],
    [event("{", ["Shift"]), undefined], [event("0"), undefined], [event("F1"), undefined],
    [event("["), "memoryUp"],
  ], page.actionOf);
}

/** Tries sentences, numbers and keys. */
function tryWording(report, page, kit) {
  report.begin("wording");
  for (const part of [numbers, groups, effects, explanations, causes]) part(report, page, kit);
  report.begin("keys");
  keys(report, page);
}

module.exports = { tryWording };
