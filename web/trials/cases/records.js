"use strict";

// The records of steps, and what the terminal keeps.

const { digest, machineWith } = require("./machine.js");
const w = require("./words.js");

const nowhere = new Uint8Array(0x10000 / 4);

/* What is kept of steps of the machine, the port and a call: what the library notes, in the order
 * of rrs.h, then the word that was executed, and the register's new value. */
function fieldsOfRecords(report, page, kit) {
  const { MADE_BY } = page;
  report.same("what makes a step", [0, 1, 2], [MADE_BY.MACHINE, MADE_BY.PORT, MADE_BY.CALL]);
  const port = 0x10000000;
  const words = [w.lui(6, 0x12345000), w.addi(8, 0, 0x700), w.sw(6, 8, 8), w.sh(6, 10, 8),
    w.lui(9, port), w.lb(7, 0, 9), w.addi(17, 0, 64), w.ecall];
  const machine = machineWith(page, kit, words);
  kit.x.set([0xfffffffd, 0x2000, 88, 5], 7);
  kit.last = 31;
  kit.words[0x708 / 4] = 0xfffffffe;
  machine.terminal.port = 0xff;
  machine.run(words.length, nowhere);
  const at = kit.records / 4;
  report.same("the records of steps", [
    [0, 31, 6, 0, 0, 0, 0, words[0], 0x12345000], [4, 6, 8, 0x2000, 0, 0, 0, words[1], 0x700],
    [8, 8, 0, 0, 0x708, 4, 0xfffffffe, words[2], 0], [12, 0, 0, 0, 0x70a, 2, 0x1234, words[3], 0],
    [16, 0, 9, 88, 0, 0, 0, words[4], port], [20, 9, 7, 0xfffffffd, 0, 0, 0, words[5], 0xffffffff],
    [24, 7, 17, 0, 0, 0, 0, words[6], 64], [28, 17, 10, 5, 0, 0, 0, words[7], 0xfffffff7],
  ], words.map((_, step) => [...kit.u32.subarray(at + 9 * step, at + 9 * step + 9)]));
  report.same("what has an extra", [[5, 1], [7, 2]],
    [...machine.history.extras].map(([step, { madeBy }]) => [step, madeBy]));
  machine.runBack(4, nowhere);
  const stored = machine.history.latestStore();
  machine.history.first = machine.steps;
  report.same("what the latest step stored, and where none is kept",
    [{ address: 0x70a, length: 2 }, null], [stored, machine.history.latestStore()]);
}

/* What is told of steps is what was told of each when it was the latest, and nothing is changed by
 * it: over a store to its own word, a load to x0, changes by hand, the port, and a call. */
function tellings(report, page, kit) {
  const words = [w.auipc(8, 0), w.lw(6, 28, 8), w.sw(6, 8, 8), w.lw(0, 16, 8), w.ebreak,
    w.lui(9, 0x10000000), w.sb(6, 0, 9), w.addi(5, 5, 1), w.addi(11, 8, 0x600), w.sb(6, 0, 11),
    w.addi(11, 8, 0x700), w.addi(17, 0, 63), w.addi(12, 0, 9), w.ecall, w.lb(5, 0, 11), w.ebreak];
  const machine = machineWith(page, kit, words, 0x80000000);
  machine.terminal.type("abcdefghi");
  const told = [];
  const states = [digest(machine)];
  let wrong = 0;
  while (machine.step() === null) {
    if (machine.steps === 4) machine.setMemory(0x80000010, w.addi(5, 5, 7), 4);
    if (machine.steps === 6) machine.setRegister(6, 0x44);
    states.push(digest(machine));
    told.unshift(machine.history.latest(1)[0]);
    if (digest(machine) !== states.at(-1)) wrong++;
  }
  report.same("the steps, and the states that were changed", [15, 0], [told.length, wrong]);
  report.same("what is told of all", told, machine.history.latest(99));
  report.same("and of the latest five", told.slice(0, 5), machine.history.latest(5));
  const fields = ({ word, address, value, readMask, writeMask }) =>
    [word, address, value, readMask, writeMask];
  report.same("the accesses of the first", [
    [words[0], 0, 0, 0, 0], [words[1], 0x8000001c, words[7], 15, 0],
    [words[2], 0x80000008, words[7], 0, 15], [words[3], 0x80000010, w.ebreak, 15, 0],
    [w.addi(5, 5, 7), 0, 0, 0, 0],
  ], told.slice(-5).reverse().map(fields));
  while (states.length > 0) {
    if (states.pop() !== digest(machine)) wrong++;
    machine.stepBack();
  }
  report.same("states that differ on the way back", 0, wrong);
}

/* More steps than there is room for: the oldest go, and their extras, and a step that is not made
 * takes none of the others. */
function manyRecords(report, page, kit) {
  const { STEPS_DROPPED } = page;
  report.same("how many steps are kept at least", 2097152, page.STEPS_KEPT);
  const most = page.STEPS_KEPT + STEPS_DROPPED;
  const words = [w.addi(17, 0, 64), w.addi(10, 0, 3), w.ecall, w.sw(5, 0x700, 0), w.ecall,
    ...w.li(5, most / 2 - 2), w.addi(5, 5, -1), w.b(1, 5, 0, -4), w.ecall, w.ebreak];
  const machine = machineWith(page, kit, words);
  const { history } = machine;
  const counts = () => machine.counts().map(({ name, count }) => [name, count]);
  const state = () => [[...kit.x], kit.pc, kit.last, counts()];
  machine.run(STEPS_DROPPED, nowhere);
  const early = state();
  const seen = () => [history.steps - most, history.length, history.first,
    [...history.extras.keys()]];
  machine.run(most - STEPS_DROPPED, nowhere);
  report.same("as many as there is room for", [0, most, 0, [2, 4]], seen());
  const end = machine.run(99, nowhere);
  report.same("some more, and an end",
    [page.FAULT.EBREAK, 4, page.STEPS_KEPT + 4, STEPS_DROPPED, [most + 3]], [end.kind, ...seen()]);
  report.same("the way back", ["oldest", 0], [machine.runBack(1e9, nowhere), history.length]);
  report.same("the oldest state, of no step that is kept", [early, null, []],
    [state(), history.latestStore(), history.latest(9)]);
  machine.setRegister(7, 1);
  report.same("a change there", [STEPS_DROPPED - most, 0, STEPS_DROPPED, []], seen());
  machine.run(5, nowhere);
  report.same("steps after a way back", [STEPS_DROPPED + 5 - most, 5, STEPS_DROPPED, []], seen());
  history.clear();
  report.same("records that are cleared", [-most, 0, 0, []], seen());
}

/* Steps whose number passes 2^32. */
function recordsPast32Bits(report, page, kit) {
  const machine = machineWith(page, kit, [w.addi(5, 5, 1), w.jal(0, -4)]);
  const { history } = machine;
  history.steps = history.first = 2 ** 32 - 5;
  const states = [];
  for (let made = 0; made < 10; made++) {
    states.push(digest(machine));
    machine.step();
  }
  report.same("steps past 2^32", [2 ** 32 + 5, 10], [history.steps, history.length]);
  report.same("what is told of them", Array.from({ length: 10 }, (_, at) => 2 ** 32 + 4 - at),
    history.latest(10).map(({ step }) => step));
  let wrong = 0;
  while (machine.stepBack()) if (digest(machine) !== states.pop()) wrong++;
  report.same("states that differ on the way back", [0, 0], [wrong, states.length]);
}

/* ---- the terminal */

const bytesOf = (text) => new TextEncoder().encode(text);

function printing(report, page) {
  const room = 1 << 20;
  const terminal = new page.Terminal();
  report.same("nothing printed", ["", 0, 0], [terminal.text(9), terminal.printed, terminal.lost]);
  terminal.print(bytesOf("a".repeat(1023)));
  terminal.print(bytesOf("bc"));
  report.same("what was printed", ["a".repeat(1023) + "bc", "abc"],
    [terminal.text(5000), terminal.text(3)]);
  const mark = terminal.mark();
  terminal.print(new Uint8Array(room));
  report.same("no more room", [room, 1025], [terminal.printed, terminal.lost]);
  terminal.print(bytesOf("xyz"));
  report.same("still no room", [room, 1028], [terminal.printed, terminal.lost]);
  terminal.restore(mark);
  report.same("before that", [1025, 0, "bc"],
    [terminal.printed, terminal.lost, terminal.text(2)]);
  terminal.storeToPort(0x64);
  report.same("the port", [0x64, "bcd"], [terminal.port, terminal.text(3)]);
  terminal.restore(mark);
  report.same("the port, before that", [0, "bc"], [terminal.port, terminal.text(2)]);
  const full = new page.Terminal();
  full.print(new Uint8Array(room).fill(65));
  report.same("as many as there is room for", [room, 0], [full.printed, full.lost]);
}

function letters(report, page) {
  const shown = (bytes, most) => {
    const terminal = new page.Terminal();
    terminal.print(Uint8Array.from(bytes));
    return terminal.text(most);
  };
  const text = "aé€😀z";
  report.cases("the last bytes of a text", [
    [12, text], [11, text], [10, "é€😀z"], [9, "€😀z"], [8, "€😀z"], [7, "😀z"], [6, "😀z"],
    [5, "😀z"], [4, "z"], [3, "z"], [2, "z"], [1, "z"], [0, ""],
  ], (most) => shown(bytesOf(text), most));
  report.same("a byte order mark", "\ufeffa", shown([0xef, 0xbb, 0xbf, 0x61], 9));
  report.same("bytes that are no text", "\ufffda", shown([0x80, 0x61], 9));
  report.same("a line's end", "a\r\nb\tc", shown(bytesOf("a\r\nb\tc"), 99));
}

function typing(report, page) {
  const terminal = new page.Terminal();
  report.same("nothing typed", true, terminal.isEmpty);
  terminal.type("ab\n");
  terminal.type("é");
  const read = (most, take) => {
    const given = terminal.read(most);
    const { taken } = terminal;
    if (take) terminal.taken += given.length;
    return [[...given], taken];
  };
  report.same("one line at most", [[97, 98, 10], 0], read(100, false));
  const mark = terminal.mark();
  report.same("the same once more", [[97, 98, 10], 0], read(1, true));
  report.same("the next", [[0xc3, 0xa9], 3], read(100, true));
  report.same("all is taken", true, terminal.isEmpty);
  terminal.restore(mark);
  report.same("before that", [false, [97, 98, 10]], [terminal.isEmpty, read(9, false)[0]]);
  terminal.taken = 5;
  terminal.held = 5;
  terminal.close();
  report.same("after the end", [false, []], [terminal.isEmpty, read(9, true)[0]]);
  terminal.reset();
  report.same("after a reset", [true, false, 0, ""],
    [terminal.isEmpty, terminal.isClosed, terminal.input.length, terminal.text(9)]);
  terminal.type("ab\ncd\n");
  report.same("a read behind a line that was taken", [[97, 98, 10], [99, 100, 10]],
    [[...terminal.takeLine()], read(9, true)[0]]);
  terminal.reset();
  terminal.type("x".repeat(300));
  report.same("256 bytes at most", [256, 0], [read(1000, false)[0].length, terminal.taken]);
}

/** Tries the records of steps, and the terminal. */
function tryRecords(report, page, kit) {
  report.begin("records");
  for (const part of [fieldsOfRecords, tellings, manyRecords, recordsPast32Bits]) {
    part(report, page, kit);
  }
  report.begin("terminal");
  for (const part of [printing, letters, typing]) part(report, page);
}

module.exports = { tryRecords };
