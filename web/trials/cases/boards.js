"use strict";

// A board in the page: how it starts, what is typed into it, how it waits, and what is shown.

const { createHash } = require("node:crypto");

/* Prints "hi", then each byte that arrives, and ends behind a q, with status 7. */
const ECHO = `
        li s0, 0x10000000
        la s1, greeting
print:  lbu a0, 0(s1)
        beqz a0, echo
        sb a0, 0(s0)
        addi s1, s1, 1
        j print
echo:   lbu t0, 5(s0)
        andi t0, t0, 1
        beqz t0, echo
        lbu a0, 0(s0)
        sb a0, 0(s0)
        li t1, 113
        bne a0, t1, echo
        li t0, 0x100000
        li t1, 0x73333
        sw t1, 0(t0)
greeting: .string "hi\\n"
`;

/* Waits for a byte by wfi, prints it, and waits again where the UART asks for none. */
const WAIT = `
        li s0, 0x10000000
        li t0, 1
        sb t0, 1(s0)
        wfi
        lbu a0, 0(s0)
        sb a0, 0(s0)
        sb zero, 1(s0)
        wfi
`;

/* Waits for the alarm at 2,000,000, a fifth of a second, and ends. */
const SLEEP = `
        li t0, 0x2004000
        li t1, 2000000
        sw zero, 4(t0)
        sw t1, 0(t0)
        li t1, 128
        csrw mie, t1
        wfi
        li t0, 0x100000
        li t1, 0x5555
        sw t1, 0(t0)
`;

const typed = (text) => new TextEncoder().encode(text);

/* Opens what a text assembles to. */
function open(page, kit, board, text) {
  return board.open("it", kit.assemble(text, page.RAM_START).bytes);
}

/* How the board stands: what was printed, what ended it, and whether it runs and waits. */
const stands = ({ screen, ending, isRunning, isWaiting }) =>
  [screen.text, ending, isRunning, isWaiting];

async function echoes(report, page, kit, clock, board) {
  clock.tasks.length = 0;
  report.same("an image", "", open(page, kit, board, ECHO));
  const { kit: { x, pc, csrs } } = board;
  report.same("at reset", [0x80000000, 0, 0x81ff0000, 2023, 0, 0],
    [pc, x[10], x[11], csrs[page.CSR.profile], csrs[page.CSR.user], board.kit.time]);
  report.same("the tree in RAM", [0xd0, 0x0d, 0xfe, 0xed],
    [...board.kit.bytes.subarray(page.RAM_BYTES - page.TREE_ROOM).subarray(0, 4)]);
  board.step();
  report.same("a step", [1, 0x80000004, 0x10000000], [board.steps, board.kit.pc, x[8]]);
  board.run();
  report.same("what it prints", ["hi\n", "", true, false], stands(board));
  board.type(typed("abq"));
  report.same("what is typed is not read at once", 3, board.typed.length);
  await clock.next();
  report.same("what it read", ["hi\nabq", "It was powered off, with status 7.", false, false],
    stands(board));
  const { steps } = board;
  board.run();
  board.step();
  report.same("no step after the end", steps, board.steps);
  board.reset();
  report.same("booted again", ["", "", false, false, 0, 0x80000000],
    [...stands(board), board.steps, board.kit.pc]);
  board.type(typed("q"));
  board.run();
  report.same("the steps to the end", [34, "hi\nq"], [board.steps, board.screen.text]);
}

async function waits(report, page, kit, clock, board) {
  clock.tasks.length = 0;
  open(page, kit, board, WAIT);
  board.run();
  report.same("a wait for input", ["", "", true, true], stands(board));
  report.same("no slice is set for later", 0, clock.tasks.length);
  board.type(typed("z"));
  report.same("a wait that nothing ends", ["z", "It waits, and nothing can wake it.", false, false],
    stands(board));
  open(page, kit, board, WAIT);
  board.run();
  board.pause();
  board.type(typed("y"));
  report.same("typed while it is paused", ["", "", false, false, 1],
    [...stands(board), board.typed.length]);
}

async function sleeps(report, page, kit, clock, board) {
  open(page, kit, board, SLEEP);
  clock.tasks.length = 0;
  board.run();
  const [{ at }] = clock.tasks;
  report.same("the alarm comes in the host's time", 200, Math.round(at - clock.time));
  report.same("until then", ["", "", true, false, 2000000],
    [...stands(board), Number(board.kit.time)]);
  await clock.next();
  report.same("behind it", ["", "It was powered off, with status 0.", false, false], stands(board));
}

/* What a board says that comes to no handler, or traps in it, by its image. */
async function traps(report, page, kit, clock, board) {
  const nowhere = "A trap went to where mtvec points, 0x00000000, and no memory is there: ";
  const images = [
    // c.li a0, 0; c.addi a0, 1; no instruction
    [Uint8Array.of(0x01, 0x45, 0x05, 0x05, 0, 0), `${nowhere}illegal instruction at 0x80000004.`],
    [new Uint8Array(8), `${nowhere}illegal instruction at 0x80000000.`],
    ["nop; ecall", `${nowhere}ecall at 0x80000004.`],
    ["li t0, 0x40000000; lw t1, 0(t0)", `${nowhere}load fault at 0x80000004.`],
    ["la t0, 1f; csrw mtvec, t0; ecall; .align 2; 1: .word 0",
      "It traps for ever, in its own handler: illegal instruction at 0x80000010."],
  ];
  for (const [image, told] of images) {
    clock.tasks.length = 0;
    if (typeof image === "string") open(page, kit, board, image);
    else board.open("it", image);
    board.run();
    while (board.ending === "" && clock.tasks.length > 0) await clock.next();
    report.same("why it does not go on", ["", told, false, false], stands(board));
  }
  // what retires at times is no such trap
  clock.tasks.length = 0;
  open(page, kit, board, "la t0, 1f; csrw mtvec, t0; ecall; .align 2; 1: mret");
  board.run();
  await clock.next();
  report.same("a handler that returns", ["", "", true, false], stands(board));
  board.pause();
  open(page, kit, board, `li s0, 0x10000000; 1: lbu t0, 5(s0); andi t0, t0, 1; beqz t0, 1b; ecall`);
  board.type(typed("x"));
  board.run();
  while (board.ending === "" && clock.tasks.length > 0) await clock.next();
  report.same("behind what was typed the first trap is not told", `${nowhere.slice(0, -2)}.`, board.ending);
}

async function breakpoints(report, page, kit, clock, board) {
  clock.tasks.length = 0;
  open(page, kit, board, ECHO);
  board.stops = new Set([0x80000020, 0x8000002c]);
  board.run();
  report.same("before the echo", ["hi\n", "", false, false, true, 0x80000020],
    [...stands(board), board.isAtStop, board.kit.pc]);
  const { steps } = board;
  board.step();
  report.same("a step from there", [steps + 1, 0x80000024, false],
    [board.steps, board.kit.pc, board.isAtStop]);
  board.run();
  report.same("and around", [0x80000020, true], [board.kit.pc, board.isAtStop]);
  board.type(typed("q"));
  board.run();
  board.run();
  report.same("at the other", [0x8000002c, true, ""], [board.kit.pc, board.isAtStop, board.ending]);
  board.stops = new Set();
  board.run();
  while (board.ending === "" && clock.tasks.length > 0) await clock.next();
  report.same("without them", "It was powered off, with status 7.", board.ending);
}

/* An executable of one segment, which is these bytes: they stand in RAM, and their virtual address
 * is nowhere. The hart starts in the first, by its virtual address. */
function executableOf(page, bytes) {
  const file = new Uint8Array(148 + bytes.length);
  const segment = (virtual, physical) => [1, 148, virtual, physical, bytes.length, bytes.length, 5, 4];
  const header = [0x464c457f, 0x00010101, 0, 0, 0x00f30002, 1, page.RAM_START, 52, 0, 0, 0x00200034,
    0x00280003, 0, ...segment(page.RAM_START, page.RAM_START),
    ...segment(0x20000000, page.RAM_START + 0x1000),
    ...segment(page.RAM_START, page.RAM_START + 0x2000)];
  const view = new DataView(file.buffer);
  header.forEach((word, index) => view.setUint32(4 * index, word, true));
  file.set(bytes, 148);
  return file;
}

function loads(report, page, kit, board) {
  const { bytes } = kit.assemble(ECHO, page.RAM_START);
  report.same("an executable", "", board.open("elf", executableOf(page, bytes)));
  const there = (place) => Buffer.compare(
    Buffer.from(board.kit.bytes.subarray(place, place + bytes.length)), Buffer.from(bytes)) === 0;
  report.same("its segments, at their physical addresses", [true, true, true, 0x80000000],
    [...[0, 0x1000, 0x2000].map(there), board.kit.pc]);
}

/* What gcc with -march=rv32imac makes of `c.nop; _start: c.li a0, 5; c.j on; c.ebreak; on: c.addi a0,
 * 1; c.ebreak`, linked to 0x80000000, but for the sections. */
const SHORT_AT = 84;
const SHORT = Buffer.from(
  "7f454c460101010000000000000000000200f30001000000020000803400000000000000010000003400200001002800"
  + "00000000010000005400000000000080000000800c0000000c00000007000000020000000100154511a0029005050290",
  "hex");

/* How many bytes the device tree in RAM has, by its header. */
const treeBytes = (page, { kit: { data, ram } }) =>
  data.getUint32(ram + page.RAM_BYTES - page.TREE_ROOM + 4);

function compressed(report, page, kit, board) {
  const profile = () => board.kit.csrs[page.CSR.profile];
  report.same("an executable with compressed code, and its hart", ["", 2023, 0x80000002],
    [board.open("short", SHORT), profile(), board.kit.pc]);
  const told = [];
  for (let step = 0; step < 3; step++) {
    const { pc } = board.kit;
    told.push(board.kit.textAt(pc - page.RAM_START, pc));
    board.step();
  }
  report.same("its instructions, pc and a0",
    [["c.li x10, 5", "c.j 0x80000008", "c.addi x10, 1"], 0x8000000a, 6],
    [told, board.kit.pc, board.kit.x[10]]);
  board.step();
  board.step();
  report.same("its end", "A trap went to where mtvec points, 0x00000000, and no memory is there: "
    + "breakpoint at 0x8000000a.", board.ending);
  board.reset();
  report.same("its hart, booted again", [2023, 0x80000002], [profile(), board.kit.pc]);
  report.same("its code as raw bytes, and the hart", ["", 2023, 0x80000000],
    [board.open("raw", SHORT.subarray(SHORT_AT)), profile(), board.kit.pc]);
  report.same("its device tree", page.deviceTree(page.RAM_BYTES, true).length, treeBytes(page, board));
  for (let step = 0; step < 4; step++) board.step();
  report.same("where it is, and a0", [0x8000000a, 6], [board.kit.pc, board.kit.x[10]]);
  board.open("short", SHORT);
  const outside = Uint8Array.from(SHORT);
  outside[67] = 0x70;
  const wrong = Uint8Array.from(executableOf(page, SHORT));
  wrong[18] = 0;
  report.same("its hart behind files that are refused", [true, true, 2023],
    [board.open("outside", outside) !== "", board.open("wrong", wrong) !== "", profile()]);
  const { bytes } = kit.assemble("addi a0, a0, 1; lr.w a1, (a0)", page.RAM_START);
  report.same("without compressed code", ["", 2019, page.deviceTree(page.RAM_BYTES, false).length],
    [board.open("elf", executableOf(page, bytes)), profile(), treeBytes(page, board)]);
  const texts = [0, 4, 2, -4, page.RAM_BYTES].map((at) => board.kit.textAt(at, page.RAM_START + at));
  report.same("its instructions", ["addi x10, x10, 1", "lr.w x11, (x10)", "", "", ""], texts);
}

function refuses(report, page, board) {
  const long = new Uint8Array(page.RAM_BYTES - page.TREE_ROOM + 1);
  report.same("an image that is too long",
    "It has 33,488,897 bytes, and RAM has 33,488,896.", board.open("long", long));
  report.same("what was open", "it", board.name);
  const elf = Uint8Array.from([0x7f, 0x45, 0x4c, 0x46, ...new Array(60).fill(0)]);
  report.same("no executable", "It is no executable that lies within RAM, from 0x80000000 on.",
    board.open("elf", elf));
  const kernel = new Uint8Array(64);
  report.same("no image", false, page.isBoardImage(kernel));
  kernel.set(typed("RSC\x05"), 56);
  report.same("a kernel's image", true, page.isBoardImage(kernel));
  report.same("an executable below RAM", false, page.isBoardImage(elf));
  elf[27] = 0x80;
  report.same("one in RAM", true, page.isBoardImage(elf));
}

/* The bytes that `rrs board` hands over, as gdb reads them (tests/test_linux.py), with extension C
 * and without. */
const TREES = [
  [true, 1481, "7c87b9d857ef96105855ee42979895cf05bdfeaa6cc8dddf74196accf166fa90"],
  [false, 1477, "627a552b5ebd0acc31a3d2d29bfb8d4432361f395dabacde23e0ac361d237904"],
];

function trees(report, page) {
  for (const [hasCompressed, bytes, sha256] of TREES) {
    const tree = page.deviceTree(page.RAM_BYTES, hasCompressed);
    report.same("the device tree", { bytes, sha256 }, {
      bytes: tree.length, sha256: createHash("sha256").update(tree).digest("hex"),
    });
  }
}

function screens(report, page) {
  const screen = new page.Screen();
  report.cases("a screen", [
    ["a\r\nb", "a\nb"], ["abc\rx", "xbc"], ["ab\b\bx", "xb"], ["a\tb", "a       b"],
    ["abc\r\x1b[Kx", "x"], ["\x1b[1;32mgreen\x1b[0m", "green"], ["a\x1bcb", "ab"],
    ["\u00e4\u20ac", "\u00e4\u20ac"], ["a\x07b\x7fc", "abc"],
  ], (text) => {
    screen.clear();
    for (const byte of typed(text)) screen.print([byte]);
    return screen.text;
  });
  screen.clear();
  screen.print(typed("line\n".repeat(page.LINES_KEPT + 5)));
  report.same("the lines that are kept", page.LINES_KEPT, screen.lines.length);
}

function keys(report, page) {
  const key = (name, held = {}) => ({ key: name, ...held });
  report.cases("what is typed", [
    [key("a"), "a"], [key("A", { shiftKey: true }), "A"], [key("Enter"), "\r"],
    [key("Backspace"), "\x7f"], [key("Tab"), ""], [key("ArrowUp"), "\x1b[A"], [key("Escape"), "\x1b"],
    [key("c", { ctrlKey: true }), "\x03"], [key("D", { ctrlKey: true }), "\x04"],
    [key("v", { ctrlKey: true }), ""], [key("[", { ctrlKey: true }), "\x1b"],
    [key("a", { altKey: true }), ""], [key("a", { metaKey: true }), ""], [key("F5"), ""],
    [key("Shift", { shiftKey: true }), ""],
  ], page.typedBy);
}

async function tryBoards(report, page, kit, clock) {
  report.begin("boards");
  clock.time = 0;
  const board = new page.Board(kit.module);
  await echoes(report, page, kit, clock, board);
  await waits(report, page, kit, clock, board);
  await sleeps(report, page, kit, clock, board);
  await traps(report, page, kit, clock, board);
  await breakpoints(report, page, kit, clock, board);
  refuses(report, page, board);
  loads(report, page, kit, board);
  compressed(report, page, kit, board);
  trees(report, page);
  screens(report, page);
  keys(report, page);
  clock.tasks.length = 0;
}

module.exports = { tryBoards };
