"use strict";

// What programs for RARS have: their forms beside what they mean, calls, random numbers, a keyboard and
// a display, counters, and addresses.

/* Sources for RARS, each beside one with the same bytes. */
const MEANS = [
  [".eqv N 20\nli a0, N", "\nli a0, 20"],
  [".eqv N, 20 # so\nli a0, N # N\naddi a1, a0, N", "\nli a0, 20\naddi a1, a0, 20"],
  [".eqv R t2\n.eqv CLEAR add R, x0, x0\nCLEAR\nmv R, a0", "add t2, x0, x0\nmv t2, a0"],
  [".eqv N 3\n.data\nx: .word N, N\n.asciz \"N\"\n.text\nlw a0, N(sp)\nNN: j NN",
    ".data\nx: .word 3, 3\n.asciz \"N\"\n.text\nlw a0, 3(sp)\nNN: j NN"],
  [".eqv C 'a'\nli a0, C", "li a0, 'a'"],
  [".eqv T \"hi; you # all\"\n.data\n.asciz T", ".data\n.asciz \"hi; you # all\""],
  ["x: b x\nb x ; b x # b x", "x: j x\nj x ; j x"],
  ["b: j b", "b: j b"],
  [".macro done\nli a7, 10\necall\n.end_macro\ndone\ndone", "li a7, 10\necall\nli a7, 10\necall"],
  [".macro inc(%r)\naddi %r, %r, 1\n.end_macro\ninc(t0)\ninc (t1)\ninc t2",
    "addi t0, t0, 1\naddi t1, t1, 1\naddi t2, t2, 1"],
  [".macro set(%r, %v)\nli %r, %v\n.end_macro\nset(t0, -5)\nset t1 6\nset(t2,'x')\nset t3, ' '",
    "li t0, -5\nli t1, 6\nli t2, 'x'\nli t3, ' '"],
  [".macro set %r %v\nli %r, %v\n.end_macro\nset(a0, 1)", "li a0, 1"],
  // labels of a body are of each call
  [".macro down(%r)\nloop: addi %r, %r, -1\nbnez %r, loop\n.end_macro\ndown(t0)\ndown(t1)\n"
    + "loop: j loop", "1: addi t0, t0, -1\nbnez t0, 1b\n2: addi t1, t1, -1\nbnez t1, 2b\n"
    + "loop: j loop"],
  // texts, with what would part arguments
  [".macro say(%t)\n.data\nm: .asciz %t\n.text\nla a0, m\n.end_macro\nsay(\"a, b\")\nsay(\"c\\n\\\"\")",
    ".data\nx: .asciz \"a, b\"\n.text\nla a0, x\n.data\ny: .asciz \"c\\n\\\"\"\n.text\nla a0, y"],
  // macros that call others, are told apart by their parameters, and are given by name
  [".macro a(%x)\nli a0, %x\n.end_macro\n.macro b2(%x, %y)\na(%x)\na (%y)\n.end_macro\nb2(1, 2)",
    "li a0, 1\nli a0, 2"],
  [".macro p(%x)\nli a0, %x\n.end_macro\n.macro p(%x, %y)\nli a1, %x\np(%y)\n.end_macro\np(1)\np(2, 3)",
    "li a0, 1\nli a1, 2\nli a0, 3"],
  [".macro p(%x)\nmv a0, %x\n.end_macro\n.macro each(%r, %n, %what)\nli %r, 0\nl: %what(%r)\n"
    + "addi %r, %r, 1\nli t6, %n\nblt %r, t6, l\n.end_macro\neach(s0, 3, p)",
  "li s0, 0\n1: mv a0, s0\naddi s0, s0, 1\nli t6, 3\nblt s0, t6, 1b"],
  [".macro lo(%x)\nlui t0, %hi(%x)\naddi t0, t0, %lo(%x)\n.end_macro\nlo(0x12345)",
    "lui t0, %hi(0x12345)\naddi t0, t0, %lo(0x12345)"],
  [".eqv N 4\n.macro m(%x)\nli %x, N\n.end_macro\nm(a3)", "li a3, 4"],
  // what is no form of RARS stays
  [".macro m x\nli a0, \\x\n.endm\nm 5\n.rept 2\nnop\n.endr", "li a0, 5\nnop\nnop"],
  ["/* .eqv N 5\n b x */ nop # .macro m(%x)\n.ascii \"b .eqv\"", "nop\n.ascii \"b .eqv\""],
];

/* Mistakes, and where they stand in the source. */
const MISTAKES = [
  [".eqv N 5\n  li t9, N", 2, 6, "a register is wanted here: there is no t9, but t0 to t6"],
  [".eqv LONGER t0\naddi LONGER, LONGER, t1", 2, 22,
    "a number is wanted here: add takes three registers"],
  ["nop\n  b nowhere", 2, 5, "symbol is not defined: nowhere"],
  [".macro m(%x)\n  foo %x\n.end_macro\nm(5)", 2, 3, "no such instruction or directive: foo"],
];

function means(report, page, kit) {
  for (const [source, meant] of MEANS) {
    const [got, wanted] = [source, meant].map((text) => {
      const { bytes, mistakes } = page.assemble(text, 0, kit);
      return [Buffer.from(bytes).toString("hex"), mistakes.map(({ text: what }) => what)];
    });
    report.same(`what means ${source}`, wanted, got);
    report.same("that it is something, and has as many lines", [true, source.split("\n").length],
      [wanted[0] !== "", page.fromRars(source).text.split("\n").length]);
  }
  for (const [source, line, column, text] of MISTAKES) {
    const [first] = page.assemble(source, 0, kit).mistakes;
    report.same(`the mistake of ${source}`, [line, column, text],
      [first.line, first.column, first.text]);
  }
}

/* Runs a source with RARS's calls to its end. */
function ran(page, kit, text, more = {}, input = "") {
  const session = new page.Session(new page.Machine(kit));
  session.open({ name: "e", text, language: "assembly", calls: "rars", ...more });
  const { machine } = session;
  machine.terminal.type(input);
  machine.terminal.close();
  let end = null;
  for (let turn = 0; end === null && turn < 50; turn++) end = machine.run(10000, session.stops);
  return { machine, end, printed: machine.terminal.text(1000) };
}

const EXIT = "\nli a7, 10\necall\n";
const SPACE = "\nli a7, 11\nli a0, 32\necall\n";
const printing = (call, count) => `${call}\nli a7, 1\necall${SPACE}`.repeat(count);
const INT = "li a0, 0\nli a7, 41\necall";
const BELOW = (most) => `li a0, 0\nli a1, ${most}\nli a7, 42\necall`;
const SEED = "li a0, 0\nli a1, 42\nli a7, 40\necall\n";

/* What Java's Random gives by the seed 42: nextInt(), and nextInt(10). */
const JAVA_INTS = "-1170105035 234785527 -1360544799 205897768 ";
const JAVA_TENS = "0 3 8 4 0 ";

function randomNumbers(report, page, kit) {
  const told = (text, more) => ran(page, kit, text + EXIT, more).printed;
  report.same("numbers of a seed", JAVA_INTS, told(SEED + printing(INT, 4)));
  report.same("numbers below ten", JAVA_TENS, told(SEED + printing(BELOW(10), 5)));
  report.same("by the seed of a lesson", JAVA_INTS, told(printing(INT, 4), { seed: 42 }));
  const other = printing(INT.replace("a0, 0", "a0, 1"), 1);
  report.same("another generator", false, JAVA_INTS.startsWith(told(other, { seed: 42 })));
  report.same("which is a number further", told(other, { seed: 41 }), JAVA_INTS.split(" ")[0] + " ");
  const powers = told(SEED + printing(BELOW(16), 40)).trim().split(" ").map(Number);
  report.same("a power of two: its bits are the highest", [11, 0, true],
    [powers[0], powers[1], powers.every((each) => each >= 0 && each < 16)]);
  const { end } = ran(page, kit, BELOW(0));
  report.same("none below 0", "no number from 0 on is less than 0", end.why);
  const { machine } = ran(page, kit, SEED + printing(INT, 3) + EXIT);
  const seen = machine.terminal.text(1000);
  while (machine.stepBack());
  machine.run(10000, new Uint8Array(16384));
  report.same("there, back, and there again", [JAVA_INTS.split(" ").slice(0, 3).join(" "), seen],
    [seen.trim(), machine.terminal.text(1000)]);
}

function calls(report, page, kit) {
  const cwd = ".data\nb: .space 8\n.text\nla a0, b\nli a1, 8\nli a7, 17\necall\nla a0, b\nli a7, 4\necall\n"
    + "li a1, 1\nli a7, 17\necall\nli a7, 1\necall";
  report.same("the folder, and where there is no room for it", "/-1", ran(page, kit, cwd + EXIT).printed);
  const before = Date.now();
  const { machine: { kit: { x } } } = ran(page, kit, "li a7, 30\necall\nebreak");
  const time = x[11] * 2 ** 32 + x[10];
  report.same("the time", [true, true], [time >= before, time <= Date.now()]);
  const session = new page.Session(new page.Machine(kit));
  session.open({ name: "e", text: "li a0, 70\nli a7, 32\necall\nli a0, 5\nebreak", language: "assembly",
    calls: "rars" });
  const { machine } = session;
  report.same("a call that waits ends a slice", [null, 70, 3],
    [machine.run(100, session.stops), machine.asleep, machine.steps]);
  report.same("and the next goes on", ["fault", 0, 5],
    [machine.run(100, session.stops).reason, machine.asleep, machine.kit.x[10]]);
}

const ECHO = `li s0, 0xffff0000
1: lw t0, 0(s0)
 beqz t0, 9f
 lbu t1, 4(s0)
2: lw t0, 8(s0)
 andi t0, t0, 1
 beqz t0, 2b
 addi t1, t1, 1
 sb t1, 12(s0)
 j 1b
9: lw a0, 4(s0)${EXIT}`;

function keys(report, page, kit) {
  const { machine, printed } = ran(page, kit, ECHO, {}, "HAL");
  report.same("keys, and what the display shows", ["IBM", 0], [printed, machine.kit.x[10]]);
  while (machine.stepBack());
  report.same("and back", [0, 0], [machine.terminal.taken, machine.terminal.printed]);
  const { end } = ran(page, kit, "li s0, 0xffff0000\nlw t0, 0(s0)", { calls: "linux" });
  report.same("no keyboard with other calls", ["fault", page.FAULT.LOAD], [end.reason, end.kind]);
  report.same("no device beside it", page.FAULT.LOAD,
    ran(page, kit, "li s0, 0xffff0010\nlw t0, 0(s0)").end.kind);
}

function counters(report, page, kit) {
  const print = `\nli a7, 1\necall${SPACE}`;
  const text = `nop\nrdcycle a0${print}csrr a0, instret${print}csrr a0, cycleh${print}rdinstreth a0${print}`;
  const { machine, printed } = ran(page, kit, text + EXIT);
  report.same("counters", "1 7 0 0 ", printed);
  while (machine.stepBack());
  report.same("and back", [0, 0], [machine.steps, machine.kit.x[10]]);
  const told = (source, calls) => {
    const { machine: of, end } = ran(page, kit, source, { calls });
    return [page.explain(end, of, page.NAMES.abi).sentence, page.callsMeant(end, of)];
  };
  const mode = ": machine mode has this instruction. Choose machine mode here. Nothing was changed by it.";
  report.same("a CSR", [`The word at 0x00000000 is 0x30002573, csrrs a0, mstatus, zero${mode}`, "machine"],
    told("csrr a0, mstatus", "rars"));
  report.same("a counter that is written",
    [`The word at 0x00000000 is 0xc0051073, csrrw zero, cycle, a0${mode}`, "machine"],
    told("csrw cycle, a0", "linux"));
  report.same("extension A", [`The word at 0x00000000 is 0x00c525af, amoadd.w a1, a2, (a0)${mode}`,
    "machine"], told("amoadd.w a1, a2, (a0)", "linux"));
  report.same("no instruction", null, told("nop\n.word 0xffffffff", "linux")[1]);
}

const ATOMIC = `main: la a0, n
 li a1, 5
 amoadd.w a2, a1, (a0)
1: lr.w a3, (a0)
 addi a3, a3, 1
 sc.w a4, a3, (a0)
 bnez a4, 1b
 lw a5, (a0)
 li t0, 0x100000
 li t1, 0x5555
 sw t1, (t0)
.data
n: .word 7`;

function atomics(report, page, kit) {
  const { machine, end } = ran(page, kit, ATOMIC, { calls: "machine" });
  const { x } = machine.kit;
  report.same("extension A in machine mode", ["exit", 7, 13, 0, 13],
    [end.reason, x[12], x[13], x[14], x[15]]);
  while (machine.stepBack());
  report.same("and back", [0, 7, 0], [x[12], machine.kit.words[machine.program.length - 1],
    machine.steps]);
  const { end: refused } = ran(page, kit, "main: la a0, main\namoswap.w a1, a2, (a0)", { calls: "machine" });
  report.same("a store to an instruction", [page.FAULT.STORE, true], [refused.kind, refused.isCode]);
}

function addresses(report, page, kit) {
  const text = `.data\nx: .word 7\n.text\nmain: lui s0, 0x10010\nlw a0, (s0)\nli a7, 1\necall${SPACE}la a0, x`
    + `\nli a7, 34\necall\nli a0, 4\nli a7, 9\necall\nli a7, 34\necall\nmv a0, gp\necall${EXIT}`;
  report.same("data, heap and gp", "7 0x100100000x100400000x10008000",
    ran(page, kit, text, page.RARS_MEMORY).printed);
  report.same("where the mistake is", [4, 1], (({ mistakes: [{ line, column }] }) => [line, column])(
    page.assemble("nop\n.data\n.text\nfoo", page.RARS_MEMORY.base, kit, undefined, "", true)));
  report.same("in what is given", [0, 2], (({ mistakes: [{ line, ofGiven }] }) => [line, ofGiven])(
    page.assemble("nop", page.RARS_MEMORY.base, kit, undefined, "nop\nfoo\n", true)));
}

/** Tries what programs for RARS have. */
function tryRars(report, page, kit) {
  report.begin("rars");
  means(report, page, kit);
  randomNumbers(report, page, kit);
  calls(report, page, kit);
  keys(report, page, kit);
  counters(report, page, kit);
  atomics(report, page, kit);
  addresses(report, page, kit);
}

module.exports = { tryRars };
