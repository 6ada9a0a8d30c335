"use strict";

// Lessons, and the calling convention, by programs of assembly.

const { Report } = require("./report.js");

const plain = (about) => about.map(({ text }) => text).join("|");

const LESSON = `lesson: Loops
Each exercise is a loop.

exercise: The sum
Add the numbers
at numbers.
register: a0 = 6
register: a1 = -1
output: "6\\n"
output: "end"
calls: rars
memory: 256 KiB
stack: at the end
language: assembly
program:

    nop
lesson: no line of the lesson

exercise: Words
output: ""
language: words
program:
13
`;

function lessons(report, page) {
  const { title, about, exercises: [sum, words, ...others] } = page.parseLesson(LESSON);
  report.same("the lesson", ["Loops", "Each exercise is a loop.", 0],
    [title, plain(about), others.length]);
  report.same("the first exercise", ["The sum", "Add the numbers at numbers.", "6\nend",
    [[10, 6], [11, 0xffffffff]], "rars", 262144, true, "assembly",
    "    nop\nlesson: no line of the lesson\n"],
  [sum.title, plain(sum.about), sum.cases[0].output, sum.cases[0].registers, sum.calls, sum.size,
    sum.hasStack, sum.language,
    sum.program]);
  report.same("the second", ["Words", "", "", [], "linux", 65536, false, "words", "13\n"],
    [words.title, plain(words.about), words.cases[0].output, words.cases[0].registers, words.calls,
      words.size,
      words.hasStack, words.language, words.program]);
  const none = "the exercise expects nothing: no output, no register and no call";
  report.cases("what is wrong with a lesson", [
    ["lesson: a", "The lesson has no exercise."], ["lesson: a\nexercise: b", `Line 2: ${none}`],
    ["lesson: a\nexercise: b\nprogram:\nnop\nexercise: c\noutput: \"\"", `Line 2: ${none}`],
    ["exercise: b\ncase: c\nregister: a0 = 1\nhidden case: d\ninput: \"5\"\nprogram:\nnop",
      `Line 4: ${none.replace("exercise", "case")}`],
    ["exercise: b\noutput: 5", 'Line 2: the output stands in quotation marks, as "31\\n"'],
    ["exercise: b\noutput: abc", 'Line 2: the output stands in quotation marks, as "31\\n"'],
    ["exercise: b\nregister: a0", "Line 2: a register and a number stand here, as a0 = 31"],
    ["exercise: b\nregister: a8 = 1", "Line 2: a8 is no register"],
    ["exercise: b\nregister: b0 = x", "Line 2: b0 is no register"],
    ["exercise: b\nregister: a0 = x", "Line 2: a register and a number stand here, as a0 = 31"],
    ["exercise: b\ncalls: dos", "Line 2: the calls are linux, rars, venus, machine"],
    ["exercise: b\nlanguage: c", "Line 2: the language is assembly or words"],
    ["exercise: b\nmemory: 5", "Line 2: the memory is one of 64 KiB, 256 KiB, 1 MiB, RARS, or "
      + "label = numbers"],
    ["exercise: b\nstack: 5", "Line 2: the stack can start at the end"],
    ["lesson: a\ncalls: rars",
      "Line 2: calls: stands behind the line exercise: that it belongs to"],
    ["exercise: b\nlesson: a", "Line 2: a lesson has one title, before its first exercise"],
    ...["Output", "outptu", "outpu", "outputs", "autput", " output", "output "].map((word) =>
      [`exercise: b\nregister: a0 = 1\n${word}: "5"`, `Line 3: "${word.trim()}" is almost `
        + '"output:", which begins its line, in small letters. A text begins with another word']),
  ], (text) => Report.refused(() => page.parseLesson(text)));
  report.cases("texts that say nothing", [
    ["Task: print 5."], ["Note: see output: below."], ["The output: 5"], ["put: 5"], ["out: 5"],
    ["oputtu: 5"], ["outputting: 5"], ["worst case: 5"], ["in this case: 5"], ["output"], ["s: 1"], [": 1"],
  ].map(([text]) => [text, text]), (text) => plain(page.parseLesson(
    `exercise: b\n${text}\nregister: a0 = 1`).exercises[0].about));
  report.cases("whether a text is a lesson", [
    [LESSON, true], ["\n  lesson: a", true], ["# lesson: a", false], ["nop", false], ["", false],
    ["lesson", false],
  ], (text) => page.isLesson(text));
}

const CASES = `lesson: Cases
exercise: Sums
One \`line\`
goes on.

    li a0, 5
      nop

Another.
hint: First.
hint: Second.
limit: 2,000 steps
register: s0 = 7
case: one
input: "1\\n"
input: "2\\n"
memory: list = 1, -2, 0x10
output: "3"
hidden case: two
memory: name = "Ada\\u0000"
register: a0 = 9
output: ""
program:
nop
`;

function cases(report, page) {
  const { exercises: [{ about, hints, limit, cases: [one, two, ...others] }] } =
    page.parseLesson(CASES);
  report.same("paragraphs and code", [
    [false, "One `line` goes on."], [true, "li a0, 5\n  nop"], [false, "Another."],
  ], about.map(({ isCode, text }) => [isCode, text]));
  report.same("hints and the limit", [["First.", "Second."], 2000], [hints, limit]);
  const seen = ({ title, isHidden, input, memory, output, registers }) => [title, isHidden, input,
    memory.map(({ label, bytes }) => [label, [...bytes]]), output, registers];
  report.same("the first case", ["one", false, "1\n2\n",
    [["list", [1, 0, 0, 0, 254, 255, 255, 255, 16, 0, 0, 0]]], "3", [[8, 7]]], seen(one));
  report.same("the second", ["two", true, "", [["name", [65, 100, 97, 0]]], "", [[8, 7], [10, 9]],
    0], [...seen(two), others.length]);
  const { cases: [own, other] } = page.parseLesson(`exercise: b
register: a0 = 1
register: a1 = 2
case:
memory: name = "a\\0\\\\0"
case:
register: a0 = 3`).exercises[0];
  report.same("what a case has in the place of what each has", [
    [[10, 1], [11, 2]], [[11, 2], [10, 3]], [97, 0, 92, 48],
  ], [own.registers, other.registers, [...own.memory[0].bytes]]);
  report.cases("what is wrong with a case", [
    ["input: 5", 'the input stands in quotation marks, as "5\\n"'],
    ["memory: list = x", "numbers or a text stand behind the label, as list = 1, 2, -3 or "
      + 'name = "Ada"'],
    ["limit: 0", "the limit is a number of steps up to 100,000,000"],
    ["limit: many", "the limit is a number of steps up to 100,000,000"],
    ...["time limit: 500", "step limit: 500", "steps: 500"].map((line) => [line, `"${line.slice(0, -5)}"`
      + ' is almost "limit:", which begins its line, in small letters. A text begins with another word']),
    ["Case: one", '"Case" is almost "case:", which begins its line, in small letters. A text begins '
      + "with another word"],
    ...["hidden", "Hidden case", "case hidden", "hidden-case", "hiden case"].map((word) =>
      [`${word}: one`, `"${word}" is almost "hidden case:", which begins its line, in small letters. A `
        + "text begins with another word"]),
  ].map(([line, why]) => [`exercise: b\nregister: a0 = 1\n${line}`, `Line 3: ${why}`]),
  (text) => Report.refused(() => page.parseLesson(text)));
  const { exercises } = page.parseLesson(page.FIRST_LESSON);
  report.same("the lesson to begin with", [2, [2, 1, 0], [[false, true], [false, true]]], [
    exercises.length, [exercises[0].cases.length, exercises[0].hints.length, exercises[1].hints.length],
    exercises.map((each) => each.cases.map(({ isHidden }) => isHidden))]);
  report.cases("what stands above the line lesson:", [
    ["# Week 5\nlesson: a\nexercise: b\nregister: a0 = 1\n", page.IS_BELOW], ["nop", undefined],
    ["Week 5\nexercise: b\nregister: a0 = 1\nprogram:\n", page.IS_MISSING], ["exercise: b", undefined],
    ["lesson: a\nexercise: b", undefined], ["# handed in:\n", undefined],
    [page.handedIn({ title: "L", exercises: [{ title: "e" }] }), page.IS_HANDED_IN],
  ], (text) => Report.refused(() => page.refuseHeading(text)));
}

/* Lines of an exercise that lose a case, or what is compared in it, and what is told of them. */
const isAlmost = (word, meant) => `"${word}" is almost "${meant}:", which begins its line, in `
  + "small letters. A text begins with another word";
const isText = (line) => "no line of a case begins so, and the text of an exercise stands above "
  + `the first of these lines, which is line ${line}`;
const isTwice = (what, line) => `line ${line} says ${what} already. A case begins with its line `
  + '"case:" or "hidden case:"';
const isUnused = (what) => `each case says ${what} anew, so this line says nothing. A case begins `
  + 'with its line "case:" or "hidden case:"';
const LOST = [
  // a text stands above the lines that say something
  ["register: a0 = 1\njust one\nmemory: n = 0", 3, isText(2)],
  ["case: a\nregister: a0 = 1\nsecret: b\nregister: a0 = 2", 4, isText(2)],
  ["hint: a\n\n    nop\nregister: a0 = 1", 4, isText(2)],
  // a case says a thing once
  ["case: a\nregister: a0 = 1\nregister: x10 = 2", 4, isTwice("a0", 3)],
  ["case: a\nregister: a0 = 1\nmemory: n = 0\nmemory: n = 1", 5, isTwice("the memory at n", 4)],
  ["output: \"\"\ninput: \"1\"\noutput: \"2\"", 4, isTwice("the output", 2)],
  ["input: \"1\"\noutput: \"\"\ninput: \"2\"", 4, isTwice("the input", 2)],
  ["register: a0 = 1\nlimit: 5\nlimit: 9\ncase: a", 4, isTwice("the limit of all cases", 3)],
  ["calls: rars\ncalls: venus\nregister: a0 = 1", 3, isTwice("the calls", 2)],
  ["language: words\nlanguage: words\nregister: a0 = 1", 3, isTwice("the language", 2)],
  ["memory: 64 KiB\nmemory: 1 MiB\nregister: a0 = 1", 3, isTwice("the memory", 2)],
  // what is of each case is so of one at least
  ["register: a0 = 1\ncase: b\nregister: a0 = 2", 2, isUnused("a0")],
  ["memory: n = 1\ncase: b\nmemory: n = 2\nregister: a0 = 2", 2, isUnused("the memory at n")],
  ["output: \"a\"\ncase: b\noutput: \"b\"\ncase: c\noutput: \"c\"", 2, isUnused("the output")],
  // what is mistyped
  ...[
    ["case (hidden): just one", "case (hidden)", "hidden case"], ["test: a", "test", "case"],
    ["hidden test: a", "hidden test", "hidden case"], ["Case 2: a", "Case 2", "case"],
    ["steps: 200", "steps", "limit"], ["limit 200 steps", "limit", "limit"],
    ["max steps = 9", "max steps", "limit"], ["register a1 = 5", "register", "register"],
    ["register a1: 5", "register", "register"], ["memory n = 5", "memory", "memory"],
    ['input "5"', "input", "input"], ['output = "5"', "output", "output"],
    ["exercise 2: a", "exercise 2", "exercise"],
  ].map(([line, word, meant]) => [`${line}\nregister: a0 = 1`, 2, isAlmost(word, meant)]),
  // what stands in the program, and not above it
  ...[
    ["hidden case: a", "hidden case"], ['output: "5"', "output"], ['input: "5"', "input"],
    ["register: a0 = 5", "register"], ["memory: n = 5", "memory"],
  ].map(([line, word]) => [`register: a0 = 1\nprogram:\n${line}`, 4,
    `"${word}:" stands above the line "program:", behind which all is the program`]),
];

/* Whether the programs of lessons have room for the memory of their cases. */
function rooms(report, page, kit) {
  const session = new page.Session(new page.Machine(kit));
  const exercise = (memory, program) => `exercise: e\nregister: a0 = 1\ncase: a\nhidden case: b\n`
    + `memory: n = ${memory}\nprogram:\n${program}\n`;
  const why = (text) => `Line 5: the program to begin with ${text}`;
  report.cases("memory for a case", [
    [exercise("1", "nop"), why("has no label n")], [exercise("1", "n: nop"), undefined],
    [exercise("1", ""), undefined], [exercise("1", "# nothing"), undefined],
    [exercise("1", "foo"), undefined], [exercise("1, 2", ".zero 65528\nn: .word 1"), undefined],
    [exercise('"abcdefghi"', ".zero 65528\nn: .word 1"),
      why("has 8 bytes of memory from the label n on, and the case puts 9 there")],
    [exercise("1, 2, 3", ".zero 65528\nn: .word 1").replace("case: a", "memory: 1 MiB\ncase: a"),
      undefined],
    [page.FIRST_LESSON, undefined],
  ], (text) => Report.refused(() => page.refuseMemory(page.parseLesson(text), session)));
}

/* What is told of what a case has a program begin with. */
function given(report, page) {
  report.cases("what a case has", [
    ["", ""], ['input: "5\\n"', 'The case has the input "5\\n".'],
    ["memory: n = 1, 0x2\nmemory: m = \"a\"", 'The case has n = 1, 0x2, and m = "a".'],
    ['memory: n = 1\ninput: "5"', 'The case has the input "5", and n = 1.'],
  ], (text) => page.givenIn(page.parseLesson(`exercise: e\nregister: a0 = 1\n${text}`)
    .exercises[0].cases[0]));
}

/* What stands at a label before the program starts, when it is opened and by Reset. */
function firstMemory(report, page, kit) {
  const session = new page.Session(new page.Machine(kit));
  const { exercises: [{ cases: [{ memory }] }] } = page.parseLesson(
    "exercise: e\nregister: a0 = 1\nmemory: n = 5, 6\nmemory: m = 9\nmemory: none = 9");
  const text = "lw a0, n; ebreak\n.data\nn: .word 1, 2, 3";
  const open = (more) => session.open({ name: "e", text, language: "assembly", ...more });
  const words = () => {
    const offset = session.places.get("n").offset / 4;
    return [...session.machine.kit.words.slice(offset, offset + 3)];
  };
  const seen = [];
  open({ memory });
  seen.push(words());
  session.machine.kit.words.fill(0);
  session.reset();
  seen.push(words());
  open({});
  seen.push(words());
  report.same("the memory of a case, by Reset too, and where none is said",
    [[5, 6, 3], [5, 6, 3], [1, 2, 3]], seen);
}

/* The lines that Help shows: all that there are, which are a lesson as they stand. */
function told(report, page) {
  const lines = page.LINES_TOLD.map(([line]) => line);
  report.same("the words of the lines that are told",
    ["lesson", "exercise", "given", "program", ...Object.keys(page.SAYS)].sort(),
    [...new Set(lines.map((line) => line.split(":")[0]))].sort());
  const { exercises: [exercise] } = page.parseLesson(lines.join("\n"));
  const { title, calls, language, size, hasStack, limit, hints, cases: [one] } = exercise;
  report.same("what they say", [
    "TITLE", "rars", "assembly", 1 << 18, true, 5000, ["TEXT"], "31\n", "5\n", [[10, 31]], 12,
  ], [title, calls, language, size, hasStack, limit, hints, one.output, one.input, one.registers,
    one.memory[0].bytes.length]);
  const { exercises: [bare] } = page.parseLesson("exercise: e\nregister: a0 = 1");
  report.same("what stands where nothing is said", ["linux", "assembly", 1 << 16, false, 1000000],
    [bare.calls, bare.language, bare.size, bare.hasStack, bare.limit]);
  const text = page.parseLesson('exercise: e\nregister: a0 = 1\nmemory: n = "Ada"').exercises[0];
  report.same("no 0 behind a text", [65, 100, 97], [...text.cases[0].memory[0].bytes]);
}

function verdicts(report, page) {
  const misses = (...all) => ({ misses: new Map([[page.NAMES.abi, all]]) });
  const two = [{}, {}];
  const untried = (of) => `Run the program, or check it${of}: what comes out is compared.`;
  for (const [exercise, isChecking, wanted] of [
    [{ cases: [{}] }, false, ["", untried("")]],
    [{ cases: two }, false, ["", untried(" with 2 cases")]],
    [{ cases: two, isSolved: true }, false, ["", `Solved before. ${untried(" with 2 cases")}`]],
    [{ cases: two, isSolved: true }, true, ["", "It is being checked."]],
    [{ cases: two, mistake: "Line 9: no such" }, false,
      ["end", "Not checked: line 9 has a mistake."]],
    [{ cases: two, mistake: "It is long." }, false, ["end", "Not checked. It is long."]],
    [{ cases: two, told: [misses(), misses()] }, false, ["done", "Solved."]],
    [{ cases: two, told: [misses(), misses("a")] }, false, ["end", "1 of 2 cases are right."]],
    [{ cases: [{}], told: [misses("a.", "b.")] }, false, ["end", "a. b."]],
    [{ cases: [{}], told: [{ ...misses("a."), given: "b." }] }, false, ["end", "a. b."]],
    [{ cases: [{}], told: [{ ...misses("a."), given: "b.", isHidden: true }] }, false,
      ["end", "0 of 1 cases are right."]],
    [{ cases: [{}], told: [{ ...misses(), given: "b." }] }, false, ["done", "Solved."]],
    [{ cases: two, told: [misses(), misses("a")], tries: [{ right: 2, of: 2 }, { right: 1, of: 2 }] },
      false, ["end", "1 of 2 cases are right. The best of your 2 tries has 2 of 2 right."]],
    [{ cases: two, told: [misses(), misses("a")], tries: [{ right: 1, of: 2 }, { right: 1, of: 2 }] },
      false, ["end", "1 of 2 cases are right."]],
    [{ cases: two, told: Object.assign([misses("x"), misses("x")], { guards: ["No mul.", "No div."] }) },
      false, ["end", "No mul. No div."]],
  ]) {
    report.same("a verdict", wanted, page.verdictOf(exercise, isChecking, page.NAMES.abi));
  }
}

/* Of two checks, which have one machine, that which was begun last goes on. */
async function overtaken(report, page, clock) {
  const view = Object.assign(Object.create(page.LessonView.prototype), { turn: 2 });
  const goOn = [];
  clock.tasks.length = 0;
  for (const turn of [1, 2]) view.pause(turn).then(() => goOn.push(turn));
  await clock.next();
  await clock.next();
  report.same("which check goes on", [2], goOn);
}

function lost(report, page) {
  report.cases("what would be lost", LOST.map(([lines, line, why]) =>
    [`exercise: e\n${lines}`, `Line ${line}: ${why}`]),
  (text) => Report.refused(() => page.parseLesson(text)));
  report.cases("what is not lost", [
    ["case: a\nregister: a0 = 1\ncase: b\nregister: a0 = 2"],
    ["output: \"1\"\noutput: \"2\"\n\n\n"],
    ["register: a0 = 1\ncase: a\ncase: b\nregister: a0 = 2"],
    ["input: \"1\"\ncase: a\ninput: \"2\"\noutput: \"3\""],
    ["Step 1: read.\nMemory layout:\nregister a0 is read, output of steps 1 and 2\noutput: \"\""],
    ["register: a0 = 1\nprogram:\noutput: .word 5\ncase: nop\nlimit: .byte 1\nregister: li a0, 5"],
  ].map(([lines]) => [`exercise: e\n${lines}`, undefined]),
  (text) => Report.refused(() => page.parseLesson(text)));
}

const TWICE = `exercise: Twice
calls: rars
limit: 500
register: a1 = 5
memory: n = 5
case:
input: "4\\n"
output: "8"
hidden case: more
input: "-1\\n"
output: "-2"
program:
`;

/* What is missed of programs in the cases of an exercise. */
async function judged(report, page, kit) {
  const session = new page.Session(new page.Machine(kit));
  const { exercises: [exercise] } = page.parseLesson(TWICE);
  const told = async (text) => {
    const all = await page.judge(session, exercise, { text, language: "assembly" });
    report.same("what the cases have", ['The case has the input "4\\n", and n = 5.',
      'The case has the input "-1\\n", and n = 5.'], all.map((each) => each.given));
    return [page.rightOf(all), all.map(({ misses }) => misses.get(page.NAMES.abi).join(" "))];
  };
  const end = "; li a7, 1; ecall; la a1, n; lw a1, (a1); li a7, 10; ecall\n.data\nn: .word 0";
  const both = (why) => [0, [why, why]];
  for (const [text, wanted] of [
    [`li a7, 5; ecall; add a0, a0, a0${end}`, [2, ["", ""]]],
    [`li a0, 8${end}`, [1, ["", 'The output is "8", and "-2" is expected.']]],
    ["nop\nl: j l\n.data\nn: .word 0", both("It has not ended after 500 steps.")],
    ["nop", both("The program has no label n.")],
    ["nop\n.zero 65530\nn: .byte 1", both("The program has 2 bytes of memory from the label n "
      + "on, and the case puts 4 there.")],
    ["li a7, 5; ecall; li a7, 5; ecall\n.data\nn: .word 0", both("It ended by: Call refused. The "
      + "ecall at 0x0000000c could not be served: the input has ended.")],
  ]) report.same(`what is missed by ${text.slice(0, 20)}`, wanted, await told(text));
  const wrong = await told("foo a0").catch((error) => error.message);
  report.same("a program that can't be read", "Line 1: no such instruction or directive: foo", wrong);
  exercise.tries = [{ text: "a: nop\n", right: 0, of: 2 }, { text: "b\n\n|c", right: 2, of: 2 }];
  const text = page.handedIn({ title: "Lesson", exercises: [{ title: "One" }, exercise] });
  report.same("what is handed in", "handed in: Lesson\n\nexercise 1: One\n\nexercise 2: Twice\n"
    + "try: 0 of 2 right\n| a: nop\ntry: 2 of 2 right\n| b\n| \n| |c\n", text);
  const tries = [
    { text: "a: nop\n", right: 0, of: 2 }, { text: "b\n\n|c\n", right: 2, of: 2 },
  ];
  report.same("and what is read of it", [[], tries, null],
    [page.triesIn(text, 1), page.triesIn(text, 2), page.triesIn("nop", 1)]);
}

async function handedInLinks(report, page) {
  const lesson = page.parseLesson(LESSON);
  lesson.exercises[1].tries =
    [{ text: "13\n", right: 1, of: 1 }, { text: "17\n", right: 0, of: 1 }];
  const link = await page.encodeHandedIn(lesson);
  for (const [hash, number] of [[link, 1], [`${link}&exercise=2`, 2]]) {
    const got = await page.decodeLesson(hash);
    const [first, second] = got.lesson.exercises;
    report.same(`what is handed in by ${hash.slice(-11)}`, [
      number, link, undefined, false, { text: "17\n", language: "words" }, true, 2,
    ], [got.number, got.lesson.link, first.tried, first.isSolved, second.tried, second.isSolved,
      second.tries.length]);
  }
  const plainLink = await page.encodeLesson(LESSON);
  report.same("a link that hands nothing in", [undefined, null, undefined], [
    (await page.decodeLesson(plainLink)).lesson.handedIn, await page.handedInBy(plainLink),
    (await page.decodeLesson(plainLink)).lesson.link]);
  report.same("the text of a link", page.handedIn(lesson),
    await page.handedInBy(`https://school/rrs.html${link}`));
  report.same("a link that is damaged", "The link is damaged: its program can't be read.",
    await page.handedInBy("#handed-in=!").catch((error) => error.message));
}

async function links(report, page) {
  const link = await page.encodeLesson(LESSON);
  report.same("the letters of a link", true, /^#lesson=[\w-]+$/.test(link));
  const { lesson: whole } = await page.decodeLesson(await page.encodeLesson(page.FIRST_LESSON));
  report.same("whether a link has the hidden cases", [[false, true], [false, true]],
    whole.exercises.map((each) => each.cases.map(({ isHidden }) => isHidden)));
  const followed = async (hash) => {
    try {
      const found = await page.decodeLesson(hash);
      return found && [found.lesson.exercises.length, found.number];
    } catch (error) {
      return error.message;
    }
  };
  const no = "The lesson has no exercise of this number.";
  for (const [hash, wanted] of [
    [link, [2, 1]], [`${link}&exercise=2`, [2, 2]], [`${link}&exercise=3`, no],
    [`${link}&exercise=0`, no], [`${link}&exercise=x`, no], ["", null], ["#program=AA", null],
    ["#lesson=!", "The link is damaged: its program can't be read."],
  ]) report.same(`the link ${hash.slice(-20)}`, wanted, await followed(hash));
}

/* A machine that ran a source to its end. */
function ran(page, kit, text) {
  const machine = new page.Machine(kit);
  const { words, entry } = page.parseAssembly(text, 0, 65536, kit);
  machine.load(words, 0, 65536, true, entry);
  machine.run(1e5, new Uint8Array(16384));
  return machine;
}

function checks(report, page, kit) {
  const machine = ran(page, kit, `li a0, 1; la a1, x; li a2, 2; li a7, 64; ecall; li a0, 6
li a7, 93; ecall
x: .ascii "6\\n"`);
  const misses = (exercise) =>
    page.missesOf({ registers: [], ...exercise }, machine, page.NAMES.abi);
  report.cases("what is missed", [
    [{ output: "6\n" }, []],
    [{ registers: [[10, 6]] }, []],
    [{ output: "6\n", registers: [[10, 6]] }, []],
    [{ output: "6" }, ['The output is "6\\n", and "6" is expected. They differ in the newline at '
      + "the end alone."]],
    [{ output: "6\n\n" }, ['The output is "6\\n", and "6\\n\\n" is expected. They differ in the '
      + "newline at the end alone."]],
    [{ output: "\n6" }, ['The output is "6\\n", and "\\n6" is expected.']],
    [{ output: `y${"x".repeat(80)}` },
      [`The output is "6\\n", and "…${"x".repeat(80)}" is expected.`]],
    [{ registers: [[10, 5]] }, ["a0 is 6 (0x00000006), and 5 (0x00000005) is expected."]],
    [{ registers: [[10, 0xffffffff]] },
      ["a0 is 6 (0x00000006), and -1 (0xffffffff) is expected."]],
  ], misses);
}

function convention(report, page, kit) {
  const names = { 0: "main", 8: "f", 16: "g" };
  const nameOf = (address) => names[address] ?? page.hex(address);
  const told = (text) => page.remarksOf(ran(page, kit, text))
    .map((remark) => page.sentenceOf(remark, page.NAMES.abi, nameOf));
  const f = (body) => `main: jal f\nebreak\nf: ${body}`;
  report.cases("what is told of a program", [
    [f("ret"), []], [f("addi s0, s0, 1; ret"), ["f leaves s0 changed: it was 0x00000000, and is "
      + "0x00000001 at the return."]],
    [f("addi s0, s0, 1; addi s0, s0, -1; ret"), []],
    [f("addi sp, sp, -16; ret"),
      ["sp is 16 bytes lower where f returns than where it was called."]],
    [f("addi sp, sp, 4; ret"), ["sp is 4 bytes higher where f returns than where it was called."]],
    [f("addi sp, sp, -16; addi sp, sp, 16; ret"), []], [f("li t0, 5; li a5, 5; li ra, 4; ret"), []],
    ["li t1, 1\njal 1f\nmv a0, t1\nebreak\n1: ret", ["t1 is read at f, and the call of g before "
      + "may have changed it."]],
    ["li t1, 1\njal 1f\nli t1, 2\nmv a0, t1\nebreak\n1: ret", []],
    ["jal 1f\nmv a2, a0\nmv a3, a1\nmv a4, s1\nebreak\n1: ret", []],
    ["li t1, 1\nli s1, 3\n2: jal 1f\nmv a0, t1\naddi s1, s1, -1\nbnez s1, 2b\nebreak\n1: ret",
      ["t1 is read at 0x0000000c, and the call of 0x0000001c before may have changed it. (3 "
        + "times)"]],
    ["li t1, 1\nli s1, 2\n2: jal 1f\nmv a0, t1\naddi s1, s1, -1\nbnez s1, 2b\nebreak\n1: ret",
      ["t1 is read at 0x0000000c, and the call of 0x0000001c before may have changed it. (2 "
        + "times)"]],
    [f("mv s1, ra; jal 1f; mv ra, s1; ret; 1: ret"), ["f leaves s1 changed: it was 0x00000000, and "
      + "is 0x00000004 at the return."]],
    ["jal 1f\nebreak\n1: jal 2f\nbnez a0, 3f\nli a0, 1\nret\n3: ebreak\n2: ret", ["The return at "
      + "0x00000014 uses the ra that the call of 0x0000001c left: ra has to be saved before a "
      + "call."]],
    ["jal t0, 1f\nebreak\n1: addi sp, sp, -16; jr t0", []],
    // arguments that a function with a variable number of them saves, and one that is lost
    ["jal g\njal f\nebreak\nf: sw a2, (s1); sw a7, (s1); ret\ng: ret\n.data\nx: .word 0", []],
    ["la s1, x\njal f\nebreak\nf: mv s0, ra; jal g; sw a2, (s1); jr s0\ng: ret\n.data\nx: .word 0",
      ["a2 is read at 0x00000018, and the call of 0x00000020 before may have changed it."]],
  ], told);
  const many = `li t1, 1\n${"jal f\nmv a0, t1\n".repeat(25)}ebreak\nf: ret`;
  report.same("how many remarks are kept", 20, page.remarksOf(ran(page, kit, many)).length);
  // by the psABI: those that a function keeps, and those in which it returns its value
  const kept = [2, 3, 4, 8, 9, ...Array.from({ length: 10 }, (_, at) => 18 + at)];
  for (let number = 1; number < 32; number++) {
    const wanted = kept.includes(number) ? "kept" : [10, 11].includes(number) ? "none" : "lost";
    // the return address is written by the call itself
    const write = number === 1 ? "nop" : `li x${number}, 2`;
    const text = `li x${number}, 1\njal f\nadd a0, x${number}, x0\nebreak\nf: ${write}; jr ra`;
    const kinds = page.remarksOf(ran(page, kit, text)).map(({ kind }) => kind);
    report.same(`what is told of x${number}`, wanted === "none" ? [] : [wanted], kinds);
  }
  report.cases("how many registers a word reads", [
    [0x00c58533, 2], [0x00058513, 1], [0x00a12023, 2], [0x00052503, 1], [0x00b50463, 2],
    [0x00008067, 1], [0x0000006f, 0], [0x12345537, 0], [0x73, 0],
  ], (word) => page.READS[word & 0x7f]);
}

/** Tries lessons and the calling convention. */
async function tryLessons(report, page, kit, clock) {
  report.begin("lessons");
  lessons(report, page);
  cases(report, page);
  lost(report, page);
  given(report, page);
  firstMemory(report, page, kit);
  told(report, page);
  rooms(report, page, kit);
  verdicts(report, page);
  await overtaken(report, page, clock);
  await judged(report, page, kit);
  await links(report, page);
  await handedInLinks(report, page);
  checks(report, page, kit);
  report.begin("convention");
  convention(report, page, kit);
}

module.exports = { tryLessons };
