"use strict";

// Machine mode: what its steps do, that they are taken back, and that a program ends as it does under
// `rrs board`.

const { execFileSync } = require("node:child_process");
const fs = require("node:fs");
const os = require("node:os");
const path = require("node:path");
const { thereAndBack } = require("./machine.js");

const RRS = path.join(__dirname, "..", "..", "..", "crates", "rrs", "out", "rrs");

/* A handler that leaves in a0 and a1 what mcause and mtval are, and in a2 mepc, and ends. */
const WITH_HANDLER = `main: la t0, handler; csrw 0x305, t0; li t0, 0x88; csrw 0x304, t0
li s0, 0x2000000; li s1, 0x2004000; li s2, 0x200bff8; j body
.align 2
handler: csrr a0, 0x342; csrr a1, 0x343; csrr a2, 0x341; li t0, 0x100000; li t1, 0x5555
sw t1, (t0)
body: `;
const FINISH = "\nli t0, 0x100000; li t1, 0x5555; sw t1, (t0)";

/* A machine before a program of machine mode. */
function machineOf(page, kit, text, base = 0) {
  const machine = new page.Machine(kit);
  machine.environment = page.ENVIRONMENTS.machine;
  const { words, entry, code } = page.parseAssembly(text, base, 65536, kit);
  machine.load(words, base, 65536, true, entry, 0, code);
  return machine;
}

const FINDINGS = [
  // an end, and a0 to a2
  ["a call", `${WITH_HANDLER}ecall`, ["exit", 11, 0, 0x44]],
  ["a breakpoint", `${WITH_HANDLER}ebreak`, ["exit", 3, 0x44, 0x44]],
  ["no instruction", `${WITH_HANDLER}.word 0xffffffff`, ["exit", 2, 0xffffffff, 0x44]],
  ["a load from nowhere", `${WITH_HANDLER}lui a0, 0x20000; lw a0, 4(a0)`,
    ["exit", 5, 0x20000004, 0x48]],
  ["a store to nowhere", `${WITH_HANDLER}lui a0, 0x20000; sw a0, 4(a0)`,
    ["exit", 7, 0x20000004, 0x48]],
  ["a misaligned load", `${WITH_HANDLER}lw a0, 1(zero)`, ["exit", 4, 1, 0x44]],
  ["a misaligned jump", `${WITH_HANDLER}li a0, 6; jr a0`, ["exit", 0, 6, 0x48]],
  ["a byte of a device", `${WITH_HANDLER}lb a0, (s2)`, ["exit", 5, 0x200bff8, 0x44]],
  ["a software interrupt", `${WITH_HANDLER}csrsi 0x300, 8; li t0, 1; sw t0, (s0); nop; nop`,
    ["exit", 0x80000003, 0, 0x50]],
  ["one that is pending, and not enabled", `${WITH_HANDLER}csrsi 0x300, 8; csrw 0x304, zero
li t0, 1; sw t0, (s0); lw a0, (s0); csrr a1, 0x344; li a2, 5${FINISH}`, ["exit", 1, 8, 5]],
  ["a timer", `${WITH_HANDLER}csrsi 0x300, 8; sw zero, 4(s1); lw t1, (s2); addi t1, t1, 5
sw t1, (s1); nop; nop; nop; nop`, ["exit", 0x80000007, 0, 0x60]],
  ["a wait for it", `${WITH_HANDLER}csrsi 0x300, 8; li t1, 1000; sw t1, (s1); sw zero, 4(s1); wfi`,
    ["exit", 0x80000007, 0, 0x58]],
  ["a wait for nothing", `${WITH_HANDLER}wfi`, ["asleep", 0, 0, 0]],
  ["no handler for a call", "li a0, 5; ecall", ["fault", 5, 0, 0]],
  ["no handler for an interrupt", `csrsi 0x300, 8; li t0, 8; csrw 0x304, t0; li s0, 0x2000000
li t0, 1; sw t0, (s0); nop`, ["no handler", 0, 0, 0]],
  ["a status", "li t0, 0x100000; li t1, 0x73333; sw t1, (t0)", ["exit", 0, 0, 0]],
  ["counters", `${WITH_HANDLER}csrr a0, 0xb00; csrr a1, 0xb02; csrr a2, 0xc01${FINISH}`,
    ["exit", 10, 11, 12]],
  ["counters that stand still", `li t0, 5; csrw 0x320, t0; nop; nop; csrr a0, 0xb00
csrr a1, 0xb02; csrr a2, 0xc01${FINISH}`, ["exit", 2, 2, 6]],
  // mcycle and minstret are 2^32 - 1 before the last one
  ["counters past 32 bits", `li t0, -3; csrw 0xb00, t0; csrw 0xb02, t0; nop; nop; nop; csrr a0, 0xb80
csrr a1, 0xb82; csrr a2, 0xb00${FINISH}`, ["exit", 1, 1, 3]],
  ["a time that is set", `${WITH_HANDLER}li t0, 7; sw t0, 4(s2); csrr a0, 0xc81; lw a1, 4(s2)
sw zero, 4(s2); lw a2, 4(s2)${FINISH}`, ["exit", 7, 7, 0]],
  ["an alarm at reset", `${WITH_HANDLER}lw a0, (s1); lw a1, 4(s1); sw zero, 4(s1); lw a2, 4(s1)${
    FINISH}`, ["exit", 0xffffffff, 0xffffffff, 0]],
  ["a store to an instruction", `${WITH_HANDLER}sw zero, (zero)`, ["fault", 0, 0, 0]],
];

function findings(report, page, kit) {
  for (const [what, text, wanted] of FINDINGS) {
    const machine = machineOf(page, kit, text);
    const end = machine.run(1e4, new Uint8Array(16384));
    report.same(`${what}: its end, and a0 to a2`, wanted, [end.reason, ...kit.x.slice(10, 13)]);
    report.same(`${what}: there and back`, [wanted[0], 0],
      thereAndBack(machineOf(page, kit, text)));
  }
  const machine = machineOf(page, kit, FINDINGS.find(([what]) => what === "a status")[1]);
  report.same("a status, and what is said of it", [7, "The program ended by the store at 0x0000000c, "
    + "with status 7."], (({ status, ...end }) => [status,
    page.explain({ status, ...end }, machine, page.NAMES.abi).sentence])(machine.run(99, [])));
}

/* What is said of ends, and of steps. */
function said(report, page, kit) {
  const told = (text) => {
    const machine = machineOf(page, kit, text);
    const { heading, sentence } =
      page.explain(machine.run(1e4, new Uint8Array(16384)), machine, page.NAMES.abi);
    return `${heading}: ${sentence}`;
  };
  report.cases("what is said of an end", [
    ["ecall", "Environment call: The ecall at 0x00000000 goes to a handler. There is no handler: "
      + "mtvec was never set. Nothing was changed by it."],
    ["nop\n.data\n.word 0", "Illegal instruction: The program has no exit: it ran past its last "
      + "instruction. The word at 0x00000004 is 0x00000000, which is no instruction of RV32IM. A "
      + "program ends by a store of 0x00005555 to the finisher, at 0x00100000. There is no handler: "
      + "mtvec was never set. Nothing was changed by it."],
    [`${WITH_HANDLER}sw zero, (zero)`, "Store fault: The instruction at 0x00000044 stores to "
      + "0x00000000, where the program's instructions are, which are read-only. Nothing was changed "
      + "by it."],
    ["wfi", "Waiting for ever: The wfi at 0x00000000 waits for an interrupt, and none can come: mie "
      + "does not enable that of the timer, or no alarm is set."],
  ], told);
  const machine = machineOf(page, kit, `${WITH_HANDLER.replace("li t0, 0x100000", "mret")}li t1, 999
sw t1, (s1); sw zero, 4(s1); csrsi 0x300, 8; wfi${FINISH}`);
  machine.run(60, new Uint8Array(16384));
  report.same("what was executed of machine mode", ["csrrs", "csrrsi", "csrrw", "mret", "wfi"],
    machine.counts().map(({ name }) => name).filter((name) => /csr|mret|wfi|ecall/.test(name)).sort());
  report.cases("the text of a word", [
    [0x30529073, "csrrw x0, mtvec, x5"], [0x34202573, "csrrs x10, mcause, x0"],
    [0x30046073, "csrrsi x0, mstatus, 8"], [0x30200073, "mret"], [0x10500073, "wfi"],
    [0x7c029073, "csrrw x0, 0x7c0, x5"], [0x73, ""], [0x13, ""],
  ], page.textOfMachineMode);
}

/* The example of interrupts, with what its loop has counted in the place of digits, ends as under
 * rrs board. */
function asOnTheBoard(report, page, kit) {
  const { text } = page.EXAMPLES.find(({ id }) => id === "interrupts");
  const counting = text.replace("addi t1, s1, '0'", "andi t1, s0, 31; addi t1, t1, 'A'")
    .replace("main:", "main: li sp, 0x80010000");
  const machine = machineOf(page, kit, counting.replace(/^ +\.macro[^]*?\.endm\n/gm, ""), 0x80000000);
  const end = machine.run(1e5, new Uint8Array(16384));
  const folder = fs.mkdtempSync(path.join(os.tmpdir(), "traps"));
  try {
    const [source, program] = ["a.s", "a"].map((name) => path.join(folder, name));
    fs.writeFileSync(source, counting);
    execFileSync(RRS, ["as", "-Ttext", "0x80000000", "-o", program, source]);
    const printed = execFileSync(RRS, ["board", program], { stdio: ["ignore", "pipe", "ignore"] });
    report.same("what it prints", [printed.toString(), 5, "exit"],
      [machine.terminal.text(99), machine.terminal.printed, end.reason]);
  } finally {
    fs.rmSync(folder, { recursive: true });
  }
}

/** Tries machine mode. */
function tryTraps(report, page, kit) {
  report.begin("traps");
  findings(report, page, kit);
  said(report, page, kit);
  asOnTheBoard(report, page, kit);
}

module.exports = { tryTraps };
