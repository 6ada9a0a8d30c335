"use strict";

// Guards of exercises: calls of functions, what a program may not have and has to do, what its
// functions keep, the part that is given, and the copy for a class.

const { Report } = require("./report.js");

const PARSED = [
  ["call: f(1, -2, 0x10, list) = 5", [["f", ["1", "-2", "0x10", "list"], "5"]]],
  ["call: f() = -1", [["f", [], "-1"]]],
  ["call: f(1) = 1\ncall: f(2) = 2", [["f", ["1"], "1"], ["f", ["2"], "2"]]],
];

const call = "a call and what it leaves in a0 stand here, as factorial(5) = 120, with up to 8 numbers "
  + "or labels";
const REFUSED = [
  ["call: f(1)", 2, call], ["call: f = 1", 2, call], ["call: f(1 2) = 3", 2, call],
  ["call: f(1,2,3,4,5,6,7,8,9) = 3", 2, call], ["call: f(1) = a0", 2, call],
  ["register: a0 = 1\nforbid: Mul", 3, "names of instructions stand here, as mul, div"],
  ["register: a0 = 1\nforbid: mul div", 3, "names of instructions stand here, as mul, div"],
  ["register: a0 = 1\nrequire: calls f", 3, "a call or an instruction stands here, as call "
    + "factorial, call factorial 4 times, or lw"],
  ["register: a0 = 1\nconvention: psABI", 3, "the convention can be kept"],
  ["register: a0 = 1\nrandom: x", 3, "the seed of random numbers is a number"],
  ["register: a0 = 1\nrequired: call f", 3, '"required" is almost "require:", which begins its '
    + "line, in small letters. A text begins with another word"],
  ["register: a0 = 1\nCall f(1) = 2", 3, '"Call" is almost "call:", which begins its line, in small '
    + "letters. A text begins with another word"],
  ["case: a\nlimit: 5\nlimit: 6\nregister: a0 = 1", 4, "line 3 says the limit already. A case begins "
    + 'with its line "case:" or "hidden case:"'],
  ["register: a0 = 1\nlanguage: words\ngiven:\n13\nprogram:\n13", 4,
    "this needs a program of assembly"],
  ["language: words\ncall: f(1) = 1", 3, "this needs a program of assembly"],
  ["register: a0 = 1\ngiven:\nnop\nmemory: n = 1\nprogram:", 5, '"memory:" stands above the line '
    + '"program:", behind which all is the program'],
];

function parsed(report, page) {
  const first = (lines) => page.parseLesson(`exercise: e\n${lines}`).exercises[0];
  report.cases("calls", PARSED, (lines) =>
    first(lines).cases[0].made.map(({ label, args, result }) => [label, args, result]));
  report.cases("what is wrong with a guard", REFUSED.map(([lines, line, why]) =>
    [`exercise: e\n${lines}`, `Line ${line}: ${why}`]),
  (text) => Report.refused(() => page.parseLesson(text)));
  const { limit, cases: [one, two], given, program, required, seed, base } = first(
    "limit: 50\nrandom: 7\nmemory: RARS\nrequire: call f\ncase: a\ncall: f(1) = 1\ncase: b\nlimit: 9\n"
    + "require: call f 3 times\ncall: f(1) = 1\ngiven:\n\nmain: nop\n\nprogram:\nf: ret\ngiven: nop");
  report.same("what is of the exercise, and of a case", [
    50, undefined, 9, "main: nop\n", "f: ret\ngiven: nop\n", ["call f"], [], ["call f 3 times"], 7,
    0x10000000,
  ], [limit, one.limit, two.limit, given, program, required.map(({ text }) => text),
    one.required, two.required.map(({ text }) => text), seed, base]);
  report.cases("texts that are none", [
    ["All: a"], ["Calling: f(1) = 1"], ["Call it f(1)."], ["Seeds: 5"], ["Forbidden are loops."],
  ].map(([text]) => [text, [text]]), (text) => page.parseLesson(
    `exercise: b\n${text}\nregister: a0 = 1`).exercises[0].about.map((each) => each.text));
}

const RULES = `exercise: e
forbid: mul, div
require: call f
require: lw
convention: kept
case: a
require: call f 2 times
call: f(1) = 1
hidden case: b
require: call g
call: f(1) = 1
given:
main: nop
program:
`;

function rules(report, page) {
  report.same("what is told of guards", "The program has no mul, div. It has to call f itself, and to "
    + "execute lw, and to call f 2 times. Functions keep s0 to s11, gp, tp and sp. This part is "
    + "given, and stands before your program:", page.rulesOf(page.parseLesson(RULES).exercises[0]));
  report.same("where there are none", "", page.rulesOf(page.parseLesson(
    "exercise: e\nregister: a0 = 1").exercises[0]));
}

const CLASS = `lesson: L
exercise: One
input: "1"
case: a
output: "1"
hidden case: b
input: "secret"
output: "3"
limit: 77
require: call secret
hint: Stays.
calls: rars
case: c
output: "2"
hidden case: d
memory: n = 12345
call: secret(5) = 6
program:
n: .word 1
limit: .word 1
exercise: Two
register: a0 = 1
`;

function classCopy(report, page) {
  const copy = page.withoutHidden(CLASS);
  report.same("the copy for a class", CLASS.split("\n").filter((_, at) =>
    ![5, 6, 7, 8, 9, 14, 15, 16].includes(at)).join("\n"), copy);
  const { exercises: [one] } = page.parseLesson(copy);
  report.same("its cases", [["a", "c"], ["Stays."], "rars"],
    [one.cases.map(({ title }) => title), one.hints, one.calls]);
  report.same("hidden cases alone", 'Line 2: "e" has hidden cases alone: give it an open one',
    Report.refused(() => page.withoutHidden(
      "lesson: a\nexercise: e\nhidden case: b\nregister: a0 = 1")));
}

/* What is told of programs by the cases of an exercise. */
const judging = (page, kit) => {
  const session = new page.Session(new page.Machine(kit));
  return async (lines, text) => {
    const { exercises: [exercise] } = page.parseLesson(`exercise: e\n${lines}`);
    try {
      const all = await page.judge(session, exercise, { text, language: "assembly" });
      return [page.rightOf(all), all.map(({ misses }) => misses.get(page.NAMES.abi).join(" "))];
    } catch (error) {
      if (!(error instanceof page.ProgramError)) throw error;
      return error.message;
    }
  };
};

const F = "call: f(5) = 10";
const NOTHING = [1, [""]];
const miss = (text) => [0, [text]];
const KEPT = (name, before, after) => miss(`f leaves ${name} changed: it was ${before}, and is `
  + `${after} at the return.`);
const JUDGED = [
  // a call: its arguments, its result, and how it ends
  [F, "f: add a0, a0, a0; ret", NOTHING],
  [F, "f: li a0, 9; ret", miss("f(5) is 9 (0x00000009), and 10 (0x0000000a) is expected.")],
  ["call: f(1,2,3,4,5,6,7,8) = 36", "f: add a0, a0, a1; add a0, a0, a2; add a0, a0, a3; add a0, a0, a4\n"
    + "add a0, a0, a5; add a0, a0, a6; add a0, a0, a7; ret", NOTHING],
  ["memory: n = 7, 8\ncall: f(n, 2) = 15", "f: lw t0, (a0); lw t1, 4(a0); add a0, t0, t1; ret\n"
    + ".data\nn: .word 0, 0", NOTHING],
  [F, "g: ret", miss("The program has no label f.")],
  ["call: f(n) = 1", "f: ret", miss("The program has no label n.")],
  [F, "f: add a0, a0, t0; ret", miss("f(5) is 1515847690 (0x5a5a000a), and 10 (0x0000000a) is "
    + "expected.")],
  [`calls: rars\n${F}`, "f: li a7, 10; ecall", miss("f(5) did not return. It ended by: Exit. The "
    + "program ended by the ecall at 0x00000004, with status 0.")],
  [F, "f: ebreak", miss("f(5) did not return. It ended by: Breakpoint instruction. The program asked "
    + "to stop, by the ebreak at 0x00000000. Nothing was changed by it.")],
  [`limit: 9\n${F}`, "f: j f", miss("It has not ended after 9 steps.")],
  ["limit: 50\ncase: a\nlimit: 9\ncall: f(5) = 10", "f: j f", miss("It has not ended after 9 steps.")],
  ["output: \"ab\"\ncalls: rars\ncall: f(97) = 11", "f: li a7, 11; ecall; addi a0, a0, 1; ecall\n"
    + "li a0, 11; ret", NOTHING],
  // each call begins anew, and the first one that misses something is told
  ["call: f(1) = 1\ncall: f(2) = 1", "f: lw a0, n; addi a0, a0, 1; sw a0, n, t0; ret\n.data\n"
    + "n: .word 0", NOTHING],
  ["call: f(1) = 1\ncall: f(2) = 2\ncall: f(3) = 3", "f: li a0, 1; ret",
    miss("f(2) is 1 (0x00000001), and 2 (0x00000002) is expected.")],
  // what a program may not have: by its name, by what it becomes, and where it makes it itself
  [`forbid: mul\n${F}`, "f: slli a0, a0, 1; ret", NOTHING],
  [`forbid: mul\n${F}`, "f: li t0, 2\n mul a0, a0, t0; ret",
    miss("Line 2: mul may not stand in this program.")],
  [`forbid: mul\n${F}`, "# mul\nf: /* mul */ slli a0, a0, 1; ret # mul\nmul_: ret", NOTHING],
  [`forbid: li\n${F}`, "f: li a0, 10; ret", miss("Line 1: li may not stand in this program.")],
  [`forbid: addi\n${F}`, "f: li a0, 10; ret", miss("Line 1: addi may not stand in this program.")],
  [`forbid: .word\n${F}`, "f: slli a0, a0, 1; ret\n.data\nn: .word 1",
    miss("Line 3: .word may not stand in this program.")],
  [`forbid: mul\n${F}`, ".macro m\n mul a0, a0, t0\n.endm\nf: li t0, 2; m; ret",
    miss("Line 2: mul may not stand in this program.")],
  [`forbid: mul\n${F}`, "f: li t0, 2\n .word 0x02550533\n ret",
    miss("The program executes mul, which it may not.")],
  [`forbid: mul\n${F}`, "f: li t0, 2; la t1, n; jr t1\n.data\nn: .word 0x02550533, 0x8067",
    miss("The program executes mul, which it may not.")],
  [`forbid: mul\ncall: f(5) = 25\ngiven:\nsquare: mul a0, a0, a0; ret\nprogram:\n`,
    "f: mv t0, ra; call square; jr t0", NOTHING],
  // what it has to do
  [`require: call g\n${F}`, "f: mv t0, ra; call g; jr t0\ng: add a0, a0, a0; ret", NOTHING],
  [`require: call g\n${F}`, "f: add a0, a0, a0; ret\ng: ret",
    miss("The program does not call g itself.")],
  [`require: call g\n${F}`, "f: add a0, a0, a0; ret", miss("The program does not call g itself.")],
  [`require: call f\n${F}`, "f: add a0, a0, a0; ret", miss("The program does not call f itself.")],
  [`require: call f 2 times\n${F}`, "f: blez a0, 1f; addi sp, sp, -4; sw ra, (sp); addi a0, a0, -1\n"
    + "call f; addi a0, a0, 2; lw ra, (sp); addi sp, sp, 4\n1: ret", NOTHING],
  [`require: call f 6 times\n${F}`, "f: blez a0, 1f; addi sp, sp, -4; sw ra, (sp); addi a0, a0, -1\n"
    + "call f; addi a0, a0, 2; lw ra, (sp); addi sp, sp, 4\n1: ret",
  miss("The program does not call f 6 times, but 5.")],
  [`require: call g\n${F}`, "f: la t1, g; mv t0, ra; jalr t1; jr t0\ng: add a0, a0, a0; ret", NOTHING],
  [`require: call g\n${F}\ngiven:\nh: mv t0, ra; call g; jr t0\nprogram:\n`,
    "f: mv t2, ra; call h; jr t2\ng: add a0, a0, a0; ret",
    miss("The program does not call g itself.")],
  [`require: lw\n${F}`, "f: add a0, a0, a0; ret", miss("The program does not execute lw.")],
  [`require: lw\n${F}`, "f: lw a0, n; ret\n.data\nn: .word 10", NOTHING],
  // what functions keep
  [`convention: kept\n${F}`, "f: li s0, 1; li a0, 10; ret", KEPT("s0", "0x5a5a0008", "0x00000001")],
  [F, "f: li s0, 1; li a0, 10; ret", NOTHING],
  [`convention: kept\n${F}`, "f: addi sp, sp, -16; li a0, 10; ret",
    miss("sp is 16 bytes lower where f returns than where it was called.")],
  [`convention: kept\n${F}`, "f: li tp, 1; li a0, 10; ret", KEPT("tp", "0x5a5a0004", "0x00000001")],
  [`convention: kept\n${F}`, "f: li t0, 1; li a7, 3; li a0, 10; ret", NOTHING],
  [`convention: kept\n${F}`, "f: mv t1, s3; li s3, 1; mv s3, t1; li a0, 10; ret", NOTHING],
  ["convention: kept\nregister: a0 = 1", "main: li a0, 1; call g; ebreak\ng: li s1, 7; ret",
    miss("g leaves s1 changed: it was 0x00000000, and is 0x00000007 at the return.")],
  ["convention: kept\nregister: a0 = 1", "main: li s1, 1; li a0, 1; ebreak", NOTHING],
  // what is given
  ["register: a0 = 10\ngiven:\nmain: li a0, 5\n call f\n ebreak\nprogram:\n",
    "f: add a0, a0, a0; ret", NOTHING],
  ["register: a0 = 10\ngiven:\nmain: li a0, 5\n call f\n ebreak\nprogram:\n", "g: ret",
    "What is given uses f: the program needs this label."],
  ["register: a0 = 10\ngiven:\nmain: li a0, 5\n call f\n ebreak\nprogram:\n",
    "f: ret\n_start: li a0, 10; ebreak", "Line 2: what is given begins the program, at main: no label "
    + "_start can stand here"],
  ["register: a0 = 10\ngiven:\nmain: li a0, 5\n call f\n ebreak\nprogram:\n",
    ".macro call x\n li a0, 10\n.endm\nf: li a0, 7; ret",
    miss("a0 is 7 (0x00000007), and 10 (0x0000000a) is expected.")],
  ["register: a0 = 10\ngiven:\nmain: li a0, 5\n call f\n ebreak\n.data\nprogram:\n",
    "f: add a0, a0, a0; ret\nfoo a0", "Line 2: no such instruction or directive: foo"],
  ["register: a0 = 10\ngiven:\nmain: li a0, 5\n call f\n ebreak\n.data\nprogram:\n",
    "f: add a0, a0, a0; ret", NOTHING],
];

async function judged(report, page, kit) {
  const told = judging(page, kit);
  for (const [lines, text, wanted] of JUDGED) {
    report.same(`what is missed of ${lines} by ${text}`, wanted, await told(lines, text));
  }
}

/* The state in which a call of a case begins, by Reset too, and how it ends. */
function started(report, page, kit) {
  const session = new page.Session(new page.Machine(kit));
  const { cases: [{ made: [made] }], given } = page.parseLesson(
    "exercise: e\ncall: f(3, n) = 3\ngiven:\nmain: call f\n ebreak\nn: .word 1\nprogram:\n").exercises[0];
  session.open({ name: "e", text: "f: li a1, 9\n ret", language: "assembly", call: made, given });
  const { machine, machine: { kit: { x } } } = session;
  const seen = () => [kit.pc, x[10], x[11], x[1], x[2], x[8], x[31], kit.words.at(-1), machine.steps];
  const first = [16, 3, 12, 0xfffc, 0xfff0, 0x5a5a0008, 0x5a5a001f, 0x100073, 0];
  report.same("where a call begins", first, seen());
  const end = machine.run(10, session.stops);
  const { heading, sentence, kind } = page.explain(end, machine, page.NAMES.abi);
  report.same("how it ends", ["Returned", "f(3, n) has returned: a0 is 3 (0x00000003).", "done", 2],
    [heading, sentence, kind, machine.steps]);
  while (machine.stepBack());
  report.same("and back", first, seen());
  machine.step();
  session.reset();
  report.same("by Reset", first, seen());
  report.same("the lines of what is given, and of the program", [0, 0, 0, 1, 2],
    [0, 2, 3, 4, 5].map((index) => session.sources.get(index).line));
  session.open({ name: "e", text: "f: ret", language: "assembly", call: null });
  report.same("no call", [0, 0, null], [kit.pc, x[10], machine.called]);
}

const IN_LESSON = [
  ["forbid: mull\nregister: a0 = 1", "Line 2: mull is no instruction"],
  ["require: lww\nregister: a0 = 1", "Line 2: lww is no instruction"],
  ["forbid: mul, li, .word\nrequire: lw\nregister: a0 = 1", undefined],
  ["register: a0 = 1\ngiven:\n\n nop\n foo a0\nprogram:\nnop", "Line 6: What is given has a "
    + "mistake on its line 2: no such instruction or directive: foo"],
  ["register: a0 = 1\ngiven:\n call f\nprogram:\n", undefined],
  ["memory: n = 1\nregister: a0 = 1\ngiven:\nn: .word 0\nprogram:\nnop", undefined],
];

function refused(report, page, kit) {
  const session = new page.Session(new page.Machine(kit));
  report.cases("lessons by their guards", IN_LESSON, (lines) => Report.refused(() =>
    page.refuseMemory(page.parseLesson(`exercise: e\n${lines}`), session)));
}

/** Tries guards of exercises. */
async function tryGuards(report, page, kit) {
  report.begin("guards");
  parsed(report, page);
  rules(report, page);
  classCopy(report, page);
  await judged(report, page, kit);
  started(report, page, kit);
  refused(report, page, kit);
}

module.exports = { tryGuards };
