"use strict";

// The calls of RARS and of Venus, by the tables in their manuals.

const { digest, machineWith } = require("./machine.js");
const w = require("./words.js");

const [A0, A1, A7] = [10, 11, 17];
const AT = 0x2000;
const SIZE = 0x10000;

/* A machine before an ecall of an environment, with a text at AT. */
function beforeCall(page, kit, environment, registers, { typed = "", isClosed = false } = {}) {
  const machine = machineWith(page, kit, [w.ecall, 0, 0]);
  machine.environment = page.ENVIRONMENTS[environment];
  kit.bytes.set(new TextEncoder().encode("Grüße\n\0."), AT);
  kit.bytes.fill(0xff, SIZE - 4);
  for (const [register, value] of Object.entries(registers)) {
    kit.x[register] = value;
  }
  kit.last = 5;
  machine.terminal.type(typed);
  if (isClosed) machine.terminal.close();
  return machine;
}

/* What comes of a call: why it ends the program or waits, or a0, what was printed, how much input
 * was taken, the register that was written, and what is said of the step; and whether a step back
 * takes all of it back. */
function outcome(page, kit, environment, registers, input) {
  const machine = beforeCall(page, kit, environment, registers, input);
  const before = digest(machine);
  const end = machine.step();
  if (end !== null) return end.reason === "refused" ? end.why : end;
  const [record] = machine.history.latest(1);
  const seen = [kit.x[A0], machine.terminal.text(99), machine.terminal.taken, kit.last,
    page.effectOf(record, page.NAMES.abi), kit.pc];
  machine.stepBack();
  return digest(machine) === before ? seen : "the step back is not exact";
}

/* A call that prints, with a0 as it was. */
const prints = (a0, text, name) => [a0, text, 0, 0, name, 4];

function rars(report, page, kit) {
  const call = (a7, a0, a1 = 0) => ({ [A7]: a7, [A0]: a0, [A1]: a1 });
  const number = '"x" is no number from -2147483648 to 2147483647. The line is dropped: another '
    + "can be typed";
  const answers = (a0, taken, name) =>
    [a0, "", taken, A0, `${name}, a0 = 0x${a0.toString(16).padStart(8, "0")}`, 4];
  for (const [registers, typed, wanted] of [
    [call(1, 0xffffffd6), "", prints(0xffffffd6, "-42", "PrintInt")],
    [call(1, 7), "", prints(7, "7", "PrintInt")],
    [call(4, AT), "", prints(AT, "Grüße\n", "PrintString")],
    [call(4, AT + 8), "", prints(AT + 8, "", "PrintString")],
    [call(4, SIZE - 4), "", "no byte of memory from 0x0000fffc on is 0"],
    [call(4, SIZE), "", "no byte of memory from 0x00010000 on is 0"],
    [call(4, 0xffffffff), "", "no byte of memory from 0xffffffff on is 0"],
    [call(5, 0), "", { reason: "waiting" }],
    [call(5, 0), "-7\n8\n", answers(0xfffffff9, 3, "ReadInt")],
    [call(5, 0), " +12 \n", answers(12, 6, "ReadInt")],
    [call(5, 0), "2147483647\n", answers(0x7fffffff, 11, "ReadInt")],
    [call(5, 0), "-2147483648\n", answers(0x80000000, 12, "ReadInt")],
    [call(5, 0), "x\n", number], [call(5, 0), "2147483648\n", number.replace("x", "2147483648")],
    [call(5, 0), "\n", number.replace("x", "")], [call(5, 0), "1 2\n", number.replace("x", "1 2")],
    [call(10, 3), "", { reason: "exit", status: 0 }],
    [call(11, 0x141), "", prints(0x141, "A", "PrintChar")],
    [call(12, 0), "", { reason: "waiting" }], [call(12, 0), "ab\n", answers(97, 1, "ReadChar")],
    [call(34, 0xabc), "", prints(0xabc, "0x00000abc", "PrintIntHex")],
    [call(35, 5), "", prints(5, `${"0".repeat(29)}101`, "PrintIntBinary")],
    [call(36, 0xffffffff), "", prints(0xffffffff, "4294967295", "PrintIntUnsigned")],
    [call(93, 0x103), "", { reason: "exit", status: 3 }],
    [call(63, 0), "", { reason: "fault", kind: page.FAULT.ECALL, address: 0, word: 0 }],
  ]) report.same(`RARS ${registers[A7]}`, wanted, outcome(page, kit, "rars", registers, { typed }));
  for (const a7 of [5, 12]) {
    report.same("after the end of input", "the input has ended",
      outcome(page, kit, "rars", call(a7, 0), { isClosed: true }));
  }
}

/* Lines to memory: at most a1 - 1 bytes of one, and a 0. */
function rarsStrings(report, page, kit) {
  const before = [0x47, 0x72, 0xc3, 0xbc, 0xc3, 0x9f, 0x65, 10, 0];
  for (const [a1, typed, stored, taken] of [
    [9, "ab\ncd\n", [97, 98, 10, 0, 0xc3, 0x9f, 0x65, 10, 0], 3],
    [3, "abcd\nef\n", [97, 98, 0, 0xbc, 0xc3, 0x9f, 0x65, 10, 0], 5],
    [1, "ab\n", [0, 0x72, 0xc3, 0xbc, 0xc3, 0x9f, 0x65, 10, 0], 0],
    [0, "ab\n", before, 0], [0xffffffff, "", before, 0],
  ]) {
    const registers = { [A7]: 8, [A0]: AT, [A1]: a1 };
    const machine = beforeCall(page, kit, "rars", registers, { typed });
    const first = digest(machine);
    const end = machine.step();
    report.same(`ReadString with room for ${a1}`, [null, stored, taken, 0],
      [end, [...kit.bytes.subarray(AT, AT + 9)], machine.terminal.taken, kit.last]);
    machine.stepBack();
    report.same("and back", true, digest(machine) === first);
  }
  report.same("a read that waits", { reason: "waiting" },
    outcome(page, kit, "rars", { [A7]: 8, [A0]: AT, [A1]: 9 }, {}));
  report.same("a read with no room", "memory does not have 9 bytes from 0x0000fff8 on",
    outcome(page, kit, "rars", { [A7]: 8, [A0]: SIZE - 8, [A1]: 9 }, { typed: "a\n" }));
}

function venus(report, page, kit) {
  const call = (a0, a1) => ({ [A0]: a0, [A1]: a1 });
  for (const [registers, wanted] of [
    [call(1, 0xffffffd6), prints(1, "-42", "print_int")],
    [call(4, AT), prints(4, "Grüße\n", "print_string")],
    [call(10, 9), { reason: "exit", status: 0 }], [call(17, 9), { reason: "exit", status: 9 }],
    [call(11, 0x4a), prints(11, "J", "print_character")],
    [call(34, 0xabc), prints(34, "0x00000ABC", "print_hex")],
    [call(9, 8), [12, "", 0, A0, "sbrk, a0 = 0x0000000c", 4]],
    [call(9, 0x7fffffff), "there is no room for 2,147,483,647 bytes more"],
    [call(93, 0), { reason: "fault", kind: page.FAULT.ECALL, address: 0, word: 0 }],
  ]) report.same(`Venus ${registers[A0]}`, wanted, outcome(page, kit, "venus", registers, {}));
}

/* Memory that a program asks for, from the end of its words on. */
function moreMemory(report, page, kit) {
  const machine = beforeCall(page, kit, "rars", { [A7]: 9 });
  const seen = [];
  for (const bytes of [5, 4, 0, SIZE - 12 - 12, 1, -4 >>> 0]) {
    kit.pc = 0;
    kit.x[A0] = bytes;
    const end = machine.step();
    seen.push(end === null ? kit.x[A0] : end.why);
  }
  report.same("memory asked for again and again", [12, 20, 24, 24,
    "there is no room for 1 bytes more", "there is no room for -4 bytes more"], seen);
  machine.reset();
  report.same("after a reset", 12, machine.heap);
}

/* The break of Linux's calls. */
function breaks(report, page, kit) {
  const machine = new page.Machine(kit);
  machine.load(new Uint32Array(20).fill(0x73), 0, 1 << 20, true);
  const seen = [0, 0x80000, 0x8000c, 0x7ffff, 0xc0001, 0xc0000].map((address) => {
    kit.x[A7] = 214;
    kit.x[A0] = address;
    machine.step();
    return kit.x[A0];
  });
  report.same("the answers of brk", [0x80000, 0x80000, 0x8000c, 0x8000c, 0x8000c, 0xc0000], seen);
  for (let back = 0; back < 4; back++) machine.stepBack();
  report.same("the break, four steps back", 0x80000, machine.break);
  machine.run(1, new Uint8Array(1 << 18));
  machine.reset();
  report.same("after a reset", 0x80000, machine.break);
}

/* The random bytes of Linux's calls, which a step back takes back: the first ones that SplitMix64
 * gives from 0. */
function randoms(report, page, kit) {
  const first = [0xaf, 0xcd, 0x1d, 0x7b, 0x39, 0xa8, 0x20, 0xe2];
  const registers = { [A7]: 278, [A0]: AT, [A1]: 8, 12: 0 };
  report.same("random bytes", [8, "", 0, A0, "getrandom, a0 = 0x00000008", 4],
    outcome(page, kit, "linux", registers));
  const machine = beforeCall(page, kit, "linux", registers);
  const given = () => [machine.step(), [...kit.bytes.subarray(AT, AT + 8)]];
  report.same("the first of them", [null, first], given());
  machine.stepBack();
  report.same("and again", [null, first], given());
  Object.assign(kit, { pc: 0 });
  kit.x[A0] = AT;
  report.same("others by the next call", false, given()[1].join() === first.join());
}

function tables(report, page) {
  const numbers = ({ calls }) => Object.keys(calls).map(Number);
  const { linux, rars: ofRars, venus: ofVenus } = page.ENVIRONMENTS;
  report.same("the numbers of the calls", [
    [29, 57, 62, 63, 64, 66, 79, 80, 93, 94, 160, 169, 172, 174, 175, 176, 177, 214, 278, 291,
      403],
    [1, 4, 5, 8, 9, 10, 11, 12, 17, 30, 32, 34, 35, 36, 40, 41, 42, 93],
    [1, 4, 9, 10, 11, 17, 34]],
  [linux, ofRars, ofVenus].map(numbers));
  report.same("the registers with the number", [A7, A7, A0],
    [linux, ofRars, ofVenus].map(({ number }) => number));
  report.same("calls in a sentence",
    "1 (print_int), 4 (print_string), 9 (sbrk), 10 (exit), 11 (print_character), 17 (exit2) and "
    + "34 (print_hex)", page.callsOf(ofVenus));
}

/* What the page says of a call that was refused, and of one that it does not know. */
function sentences(report, page, kit) {
  const machine = beforeCall(page, kit, "venus", { [A0]: 4, [A1]: SIZE });
  report.same("a call that is refused", {
    heading: "Call refused", kind: "end",
    sentence: "The ecall at 0x00000000 could not be served: no byte of memory from 0x00010000 on "
      + "is 0.",
  }, page.explain(machine.step(), machine, page.NAMES.abi));
  kit.x[A0] = 2;
  report.same("a call of no table", "The ecall at 0x00000000 asks for system call 2 (x10). This "
    + "page serves 1 (print_int), 4 (print_string), 9 (sbrk), 10 (exit), 11 (print_character), 17 "
    + "(exit2) and 34 (print_hex), as Venus has them. Nothing was changed by it.",
  page.explain(machine.step(), machine, page.NAMES.number).sentence);
}

/** Tries the calls of other environments. */
function tryCalls(report, page, kit) {
  report.begin("calls");
  for (const part of [
    tables, rars, rarsStrings, venus, moreMemory, breaks, randoms, sentences,
  ]) {
    part(report, page, kit);
  }
}

module.exports = { tryCalls };
