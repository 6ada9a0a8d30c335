"use strict";

// What a person changes by hand, the calls that a program is in, and names of registers; the lines of
// a text that is changed, and what is kept.

const { digest, machineWith } = require("./machine.js");
const { opened } = require("./sessions.js");
const w = require("./words.js");

const WORD = "A number is wanted: 0x and hexadecimal digits, 0b and binary ones, or decimal ones "
  + "from -2147483648 to 4294967295.";
const BYTE = "A number is wanted: 0x and hexadecimal digits, 0b and binary ones, or decimal ones "
  + "from -128 to 255.";

function values(report, page) {
  report.cases("the value of a text, of four bytes", [
    ["0", 0], ["10", 10], ["-1", 0xffffffff], ["4294967295", 0xffffffff], ["4294967296", NaN],
    ["-2147483648", 0x80000000], ["-2147483649", NaN], ["0xFFFFFFFF", 0xffffffff], ["0x10", 16],
    ["0b101", 5], ["0b102", NaN], ["", NaN], ["1.5", NaN], ["1e3", NaN], ["x", NaN], ["0x", NaN],
    ["0x100000000", NaN], ["--1", NaN],
  ], (text) => page.parseValue(text, 4));
  report.cases("and of one", [
    ["255", 255], ["256", NaN], ["-128", 128], ["-129", NaN], ["0xff", 255], ["0x100", NaN],
  ], (text) => page.parseValue(text, 1));
  report.cases("the number of a register", [
    ["zero", 0], ["x0", 0], ["ra", 1], ["sp", 2], ["x31", 31], ["t6", 31], ["fp", 8], ["s0", 8],
    ["x32", undefined], ["pc", undefined], ["", undefined], ["x01", undefined], ["A0", undefined],
  ], page.registerNamed);
  report.cases("a text with the names of calls", [
    ["addi x10, x0, -1", "addi a0, zero, -1"], ["lw x31, 12(x2)", "lw t6, 12(sp)"],
    ["lui x1, 0x12345000", "lui ra, 0x12345000"], ["xor x3, x30, x11", "xor gp, t5, a1"],
    ["ecall", "ecall"],
  ], (text) => page.withNames(text, page.NAMES.abi));
  report.same("and with their numbers", "sw x1, 0(x2)",
    page.withNames("sw x1, 0(x2)", page.NAMES.number));
}

/* A change is taken back with the step before it, and steps after it begin with it. */
function changesThereAndBack(report, page, kit) {
  const words = [w.addi(5, 5, 1), w.sw(5, 0, 8), w.addi(6, 5, 0), w.ecall];
  const machine = machineWith(page, kit, words);
  kit.x[8] = 0x2000;
  const states = [digest(machine)];
  machine.step();
  states.push(digest(machine));
  machine.setRegister(5, 100);
  machine.setRegister(5, 200);
  machine.setMemory(0x2004, 0x12345678, 4);
  machine.setMemory(0x2005, 0xff, 1);
  machine.setMemory(0x2000, 9, 4);
  report.same("what was changed", [200, 0x1234ff78], [kit.x[5], kit.words[0x801]]);
  machine.step();
  machine.step();
  report.same("steps after it", [200, 200], [kit.words[0x800], kit.x[6]]);
  machine.setPc(0);
  machine.stepBack();
  report.same("the pc, a step back", [8, 0], [kit.pc, kit.x[6]]);
  machine.stepBack();
  report.same("before the store", [9, 200, 0x1234ff78],
    [kit.words[0x800], kit.x[5], kit.words[0x801]]);
  machine.stepBack();
  report.same("before the change", states[0], digest(machine));
  machine.step();
  report.same("and once more there", states[1], digest(machine));
  machine.stepBack();
  machine.setRegister(5, 7);
  machine.step();
  machine.stepBack();
  report.same("a change before the first step stays", [7, 0], [kit.x[5], machine.steps]);
  machine.reset();
  report.same("and is gone after a reset", 0, kit.x[5]);
}

function changesOfSessions(report, over) {
  const session = opened(over, "13 go: 13 13 beef: 13", { base: 0x1000 });
  const { kit } = session.machine;
  const where = "Memory goes from 0x00001000 to 0x00010fff.";
  report.cases("a change, and what is said of it", [
    [["sp", "-1", 4], ["", "sp = 0xffffffff."]], [["x5", "0b11", 1], ["", "t0 = 0x00000003."]],
    [["fp", "5", 4], ["", "s0 = 0x00000005."]], [["pc", "0x1004", 4], ["", "pc = 0x00001004."]],
    [["go", "7", 4], ["", "[0x00001004] = 0x00000007."]],
    [["beef", "7", 4], ["", "[0x0000100c] = 0x00000007."]],
    [["1009", "7", 1], ["", "[0x00001009] = 0x07."]],
    [[" 0x1010 ", " 7 ", 4], ["", "[0x00001010] = 0x00000007."]],
    [["x0", "1", 4], ["x0 is always 0."]], [["zero", "1", 4], ["zero is always 0."]],
    [["A0", "x", 4], [WORD]], [["a0", "x", 4], [WORD]], [["1008", "256", 1], [BYTE]],
    [["1009", "1", 4], ["A word has an address that is a multiple of 4."]],
    [["fff", "1", 4], [`fff is no register, label or address. ${where}`]],
    [["11000", "1", 4], [`11000 is no register, label or address. ${where}`]],
    [["", "1", 4], [`That is no register, label or address. ${where}`]],
  ], ([place, text, bytes]) => {
    const before = session.notice;
    const mistake = session.change(place, text, bytes);
    const { sentence, notice: { heading } } = session;
    if (mistake) return session.notice === before ? [mistake] : ["something was said"];
    return heading === "Changed" ? ["", sentence] : [heading];
  });
  report.same("what was changed", [0xffffffff, 3, 5, 0x1004, 7, 0x713, 7, 7],
    [kit.x[2], kit.x[5], kit.x[8], kit.pc, ...kit.words.subarray(1, 5)]);
  session.names = over.page.NAMES.number;
  session.change("t0", "1", 4);
  report.same("by the names that were chosen", "x5 = 0x00000001.", session.sentence);
  session.run();
  session.change("a0", "1", 4);
  report.same("a change pauses a run", [false, 1], [session.isRunning, kit.x[10]]);
}

/* What was there where the machine stood last. */
async function sinceTheLastStop(report, over) {
  const session = opened(over, [w.addi(5, 5, 1), w.addi(6, 6, 1), w.jal(0, -8)]);
  const since = () => [5, 6].map((register) =>
    session.machine.kit.x[register] - session.before.x[register]);
  report.same("nothing, at first", [0, 0], since());
  session.step();
  report.same("a step", [1, 0], since());
  session.step();
  report.same("and the next", [0, 1], since());
  session.toggleBreakpoint(2);
  session.run();
  report.same("a run", [1, 1], since());
  session.stepBack();
  report.same("a step back", [0, -1], since());
  session.machine.setMemory(0, 5, 4);
  report.same("a word of memory", [5, w.addi(5, 5, 1)],
    [session.machine.kit.words[0], session.before.words[0]]);
  session.reset();
  report.same("nothing, after a reset", [0, 0], since());
}

function keptBreakpoints(report, over) {
  const session = opened(over, "13 a: 13 13 b: 13 13 c: 13");
  for (const index of [0, 2, 4, 5]) session.toggleBreakpoint(index);
  const stops = () => [...session.stops.entries()].filter(([, stop]) => stop).map(([at]) => at);
  session.open({ name: "p", text: "13 13 13 a: 13 13 d: 13 13 c: 13", lineNow: () => 0 });
  report.same("breakpoints behind their labels", [0, 4, 6, 7], stops());
  session.open({ name: "p", text: "13", lineNow: () => 0 });
  report.same("with no label of theirs", [0, 4, 6, 7], stops());
  session.open({ name: "p", text: "13" });
  report.same("of another program", [], stops());
}

/* Where the lines of a text come from that was changed at one place. */
function linesThatMove(report, page) {
  report.cases("where lines come from", [
    [["a\nb", "a\nb"], [1, 2]],
    [["a\nb", "a\n\nb"], [1, 0, 2]],
    [["a\nb", "\na\nb"], [0, 1, 2]],
    [["a\nb", "a1\nb"], [1, 2]],
    [["ab\nc", "a\nb\nc"], [1, 0, 2]],
    [["a\nb\nc", "ab\nc"], [1, 3]],
    [["a\nb\nc", "a\nc"], [1, 3]],
    [["a\nb", "x\ny\na\nb"], [0, 0, 1, 2]],
    [["a\na", "a\na\na"], [1, 2, 0]],
    [["a\nb\nc", "a\nx\nc"], [1, 2, 3]],
  ], ([before, after]) =>
    page.originsAfter(before.split("\n").map((_, at) => at + 1), before, after));
}

/* What two tabs did of an exercise, as one. */
function merging(report, page) {
  const merged = (kept, own) => {
    const [{ tried, tries, isSolved }] = page.mergedExercises([kept], [own]);
    return [tried?.text, tries.map(({ text }) => text).join(" "), isSolved];
  };
  const tried = (text, at) => ({ text, at });
  report.cases("what is merged", [
    [[{ tried: tried("k", 5), tries: [tried("a", 1)], isSolved: true },
      { tried: tried("o", 3), tries: [tried("a", 1), tried("b", 2)] }], ["k", "a b", true]],
    [[{ tried: tried("k", 3), tries: [tried("c", 3)] },
      { tried: tried("o", 5), tries: [tried("a", 1), tried("d", 4)], isSolved: true }], ["o", "a c d", true]],
    [[{ tries: [] }, { tried: tried("o") }], ["o", "", false]],
    [[{ tried: tried("k", 1), tries: [] }, {}], ["k", "", false]],
    [[{ tries: [tried("a", 1)] }, { tries: [tried("a", 2), tried("b", 3), tried("a", 4)] }],
      [undefined, "a b a", false]],
  ], ([kept, own]) => merged(kept, own));
  const many = Array.from({ length: 60 }, (_, at) => ({ ...tried(`${at}`, at), right: at === 3 ? 2 : 1 }));
  report.same("how many tries are kept: the best one, and the latest", [50, "3", "11", "59"], (([{ tries }]) =>
    [tries.length, tries[0].text, tries[1].text, tries.at(-1).text])(page.mergedExercises([], [{ tries: many }])));
  report.same("exercises that are kept alone stay", [2, "k"], ((all) => [all.length, all[1].tried.text])(
    page.mergedExercises([{ tries: [] }, { tried: tried("k", 1), tries: [] }], [])));
}

/* A storage with room for so many letters, as a browser has it. */
function storageOf(page, most) {
  const storage = new page.ShortStorage([["other", "stays"]]);
  storage.setItem = (key, text) => {
    const others = [...storage].filter(([each]) => each !== key);
    const size = others.reduce((sum, [, { length }]) => sum + length, text.length);
    if (size > most) throw new Error("full");
    storage.set(key, text);
  };
  return storage;
}

function keeping(report, page) {
  const storage = storageOf(page, 4000);
  const kept = new page.Keeping(() => storage);
  const names = () => kept.all("programs").map(({ name }) => name).join();
  const entry = (name, text = "nop") => ({ name, text, language: "assembly" });
  kept.put("programs", "1", entry("a"));
  kept.put("programs", "2", entry("b"));
  kept.put("programs", "1", entry("a", "li a0, 1"));
  report.same("the latest first, each once", "a,b", names());
  report.same("a name that is free", ["c", "a 2", "b 2"], ["c", "a", "b"].map((name) =>
    kept.freeName(name)));
  report.same("what there is no room for", [0, "a,b"], [
    kept.put("programs", "3", entry("c", "x".repeat(4000))), names()]);
  storage.set("rrs.program.4", "no JSON");
  storage.set("rrs.program.5", '{"name":"no text"}');
  report.same("what is damaged", "a,b", names());
  const exported = kept.exported();
  kept.remove("programs", "1");
  report.same("one is taken away", "b", names());
  report.same("what is read from a file", [{ programs: 2, lessons: 0, lost: 0 }, "a,b"], [
    kept.imported(exported), names()]);
  kept.put("programs", "1", entry("a", "other"));
  kept.imported(exported);
  report.same("of a program that is another here", [["a 2", "li a0, 1"], ["a", "other"], ["b", "nop"]],
    kept.all("programs").map(({ name, text }) => [name, text]).sort());
  report.cases("a file of it that is none", [["", null], ["{}", null], ['{"rrs kept":2}', null],
    ['{"rrs kept":1,"programs":5}', null]], (text) => kept.imported(text));
  kept.clear();
  report.same("what is left of all", [["other", "stays"]], [...storage]);
  storage.set("other", "x".repeat(4000));
  report.same("a storage that is full, and one that is none", [true, false], [
    new page.Keeping(() => storage).isLasting, new page.Keeping(() => { throw new Error("none"); }).isLasting]);
}

function frames(report, page, kit) {
  const call = (offset, rd = 1) => w.jal(rd, offset);
  const ret = (rs = 1) => w.jalr(0, rs, 0);
  const push = w.addi(2, 2, -16);
  const pop = w.addi(2, 2, 16);
  // 0 calls 12, which calls 24 by t0, which calls 40 by a register, which returns
  const words = [call(12), w.ebreak, w.ebreak, push, call(8, 5), w.ebreak, w.addi(6, 0, 40),
    w.jalr(1, 6, 0), pop, ret(), w.addi(7, 7, 1), ret()];
  const machine = machineWith(page, kit, words, 0, true);
  const seen = [];
  for (let made = 0; made < 6; made++) {
    seen.push(page.framesOf(machine).map(({ from, entry, back, sp }) => [from, entry, back, sp]));
    machine.step();
  }
  const top = 0x10000;
  const outer = [0, 12, 4, top];
  const inner = [16, 24, 20, top - 16];
  report.same("the calls that a program is in", [
    [], [outer], [outer], [inner, outer], [inner, outer], [[28, 40, 32, top - 16], inner, outer],
  ], seen);
  machine.step();
  report.same("after a return", [inner, outer],
    [page.framesOf(machine).map(({ from, entry, back, sp }) => [from, entry, back, sp])].flat());
  report.cases("what a jump does", [
    [w.jal(0, 8), ""], [w.jal(1, 8), "call"], [w.jal(5, 8), "call"], [w.jalr(0, 1, 0), "return"],
    [w.jalr(0, 5, 0), "return"], [w.jalr(0, 6, 0), ""], [w.jalr(1, 1, 0), "call"],
    [w.addi(1, 1, 0), ""], [w.b(0, 1, 1, 8), ""],
  ], page.kindOfJump);
  const last = machineWith(page, kit, [...Array(16383).fill(w.ebreak), call(-65532)], 0xffff0000);
  kit.pc = 0xfffffffc;
  last.step();
  report.same("a call by the last word", [0xfffffffc, 0], [page.framesOf(last)[0]]
    .flatMap(({ from, back }) => [from, back]));
  deepCalls(report, page, kit);
  followed(report, page, kit);
}

/* What is known of calls and remarks, as one text. */
const callsOf = (page, machine) => JSON.stringify([page.framesOf(machine), page.remarksOf(machine)]);

/* A program of calls that change s0 and read t0, and a loop that goes on. */
const CALLING = `main: li s1, 0
1: mv a0, s1; andi a0, a0, 7; li t0, 3; call f; add a1, a1, t0; addi s1, s1, 1; j 1b
f: addi sp, sp, -16; sw ra, 12(sp); mv s0, a0; beqz a0, 2f; addi a0, a0, -1; call f
2: lw ra, 12(sp); addi sp, sp, 16; ret`;

/* Frames and remarks are those that all the steps give, wherever the steps go, and no remark is lost
 * where the steps that it is of have no record any more. */
function followed(report, page, kit) {
  const session = new page.Session(new page.Machine(kit));
  session.open({ name: "p", text: CALLING, language: "assembly", hasStack: true });
  const { machine } = session;
  const stops = new Uint8Array(16384);
  const after = new Map();
  for (const steps of [3, 20000, 20001, 40000, 65536]) {
    machine.run(steps - machine.steps, stops);
    after.set(steps, callsOf(page, machine));
  }
  report.same("remarks there", true, after.get(65536).includes('"kind":"kept"'));
  for (const steps of [40000, 20001, 20000, 3, 20001, 3, 40000, 65536]) {
    const { length } = machine.history;
    if (steps < length) machine.runBack(length - steps, stops);
    else for (; machine.steps < steps;) machine.step();
    report.same(`calls and remarks at ${steps}`, after.get(steps), callsOf(page, machine));
  }
  while (machine.steps < page.RECORDS + 9) machine.run(page.RECORDS + 9 - machine.steps, stops);
  const { history } = machine;
  const kinds = () => page.remarksOf(machine).map(({ kind }) => kind);
  report.same("steps that have no record", [page.STEPS_DROPPED, ["lost", "kept"]],
    [history.first, kinds()]);
  machine.runBack(5, stops);
  session.change("s0", "77", 4);
  while (machine.runBack(99999, stops) === null);
  report.same("remarks whose cause has no record", [page.STEPS_DROPPED, ["lost", "kept"]],
    [machine.steps, kinds()]);
}

/* Very many calls, of which the outermost are lost, and a deep recursion, which keeps each. */
function deepCalls(report, page, kit) {
  const endless = machineWith(page, kit, [w.jal(1, 0)]);
  for (let made = 0; made < 150000; made++) endless.step();
  report.same("a recursion without end", 150000 - 65536, page.framesOf(endless).length);
  const deep = machineWith(page, kit, [w.addi(2, 2, -16), w.jal(1, -4)], 0, true);
  for (let made = 0; made < 2 * 3000; made++) deep.step();
  const kept = page.framesOf(deep);
  const top = 0x10000;
  report.same("the calls of a deep one", [3000, top - 16 * 3000, top - 16],
    [kept.length, kept[0].sp, kept.at(-1).sp]);
}

/** Tries changes by hand, what changed since the last stop, kept breakpoints, and frames. */
async function tryChanges(report, page, kit, clock) {
  report.begin("changes");
  const over = { page, kit, clock };
  values(report, page);
  changesThereAndBack(report, page, kit);
  changesOfSessions(report, over);
  await sinceTheLastStop(report, over);
  keptBreakpoints(report, over);
  linesThatMove(report, page);
  report.begin("keeping");
  merging(report, page);
  keeping(report, page);
  report.begin("frames");
  frames(report, page, kit);
}

module.exports = { tryChanges };
