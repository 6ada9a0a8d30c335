"use strict";

// What is handed in, graded: names, the best and the latest try, equal programs, and the table.

const LESSON = `lesson: Week 1
exercise: Twice
case: five
call: f(5) = 10
hidden case: more
call: f(-1) = -2
program:
f: ret

exercise: Zero, or not
register: a0 = 0
program:
ebreak
`;

const RIGHT = "f: add a0, a0, a0\nret\n";
const HALF = "f: li a0, 10\nret\n";

function texts(report, page) {
  const lesson = page.parseLesson(LESSON);
  lesson.exercises[0].tries = [{ text: RIGHT, right: 1, of: 1 }, { text: HALF, right: 1, of: 1 }];
  const text = page.handedIn(lesson, "  Ada \n Lovelace ");
  report.same("the head of what is handed in", ["handed in: Week 1", "by: Ada Lovelace", ""],
    text.split("\n").slice(0, 3));
  report.cases("who has handed in what", [
    [text, { title: "Week 1", name: "Ada Lovelace" }],
    [page.handedIn(lesson), { title: "Week 1", name: "" }],
    ["handed in: A\r\nby:  B\r\n", { title: "A", name: "B" }], ["nop", null], ["", null],
    ["handed in:\nexercise 1: by: me", { title: "", name: "" }],
  ], (given) => page.headOf(given));
  report.same("the tries", [[RIGHT, HALF], []],
    [1, 2].map((number) => page.triesIn(text, number).map((each) => each.text)));
  report.cases("the lesson of what is handed in", [
    [text, ""], ["nop", ""], [page.handedIn({ title: "Week 2", exercises: [] }, "B"),
      'handed in of another lesson: "Week 2", and not "Week 1"'],
  ], (given) => page.whyOther(given, lesson));
  const tries = (...all) => all.map((right) => ({ right, of: 3 }));
  report.cases("the best try", [
    [tries(), [-1, ""]], [tries(0), [0, "best 0 of 3, latest 0 of 3"]],
    [tries(1, 3, 2), [1, "best 3 of 3, latest 2 of 3"]],
    [tries(2, 2), [0, "best 2 of 3, latest 2 of 3"]],
  ], (all) => [page.bestOf(all), page.triesTold(all)]);
}

const PROGRAM = `main: li t0, 0x10   # a comment
loop: addi t0, t0, -1
  bnez t0, loop; la a0, text
.data
text: .asciz "Hi # you"
`;

function equals(report, page, kit) {
  const isEqual = (other) => page.plainSource(PROGRAM, kit) === page.plainSource(other, kit);
  report.cases("whether a program is equal", [
    [PROGRAM, true],
    ["/* mine */ start:\n li s3, 16\nagain:\naddi x19,x19,-1\nbnez s3 , again\nla t5, message\n.data\n"
      + "message:\n  .asciz \"Hi # you\" // so", true],
    [PROGRAM.replace("-1", "-2"), false], [PROGRAM.replace("Hi", "hi"), false],
    [PROGRAM.replace("bnez t0", "bnez t1"), false], [PROGRAM.replace("bnez", "beqz"), false],
    [PROGRAM.replace("bnez t0, loop", "bnez t0, main"), false], [`${PROGRAM}nop\n`, false],
    [PROGRAM.replaceAll("t0", "a0"), false],
  ], isEqual);
  report.same("a label of the assembler's", true, page.plainSource(".L1: j .L1", kit)
    === page.plainSource("a: j a", kit));
}

async function graded(report, page, kit) {
  const session = new page.Session(new page.Machine(kit));
  const lesson = page.parseLesson(LESSON);
  const exercises = lesson.exercises.map((exercise, at) => [exercise, at + 1]);
  const handed = (name, title, ...tries) => {
    const parts = tries.map((text) => `try: 1 of 1 right\n${text.replace(/^(?=.)/gm, "| ")}`);
    return { file: `${name}.txt`, text: `handed in: ${title}\nby: ${name}\n\nexercise 1: Twice\n`
      + parts.join("") };
  };
  const given = [
    handed("Eva", "Week 1", RIGHT, HALF), handed("=cmd", "Week 1", "foo\n"), handed("bob", "Week 1"),
    handed("Ada 10", "Week 1", "g: mv t0, ra\nadd t1, a0, a0 # own\nf: slli a0, a0, 1\nret\n"),
    handed("Ada 9", "Week 1", "h: mv s0, ra\nadd s1, a2, a2\nf: slli a2, a2, 1\nret\n"),
    handed("Zoe", "Week 2", RIGHT), handed("bob", "Week 1", "f: ret\n"),
    // who has changed nothing has copied nothing
    handed("Ida", "Week 1", "f: ret\n"), { file: "some/dir/max.s", text: RIGHT },
  ];
  const rows = [];
  for (const each of given) rows.push(await page.gradeOne(session, lesson, exercises, each));
  page.finishRows(rows, exercises, kit);
  report.same("the table", [
    "name,file,1 Twice: five,1 Twice: more,1 latest,1 best,\"2 Zero, or not: case 1\",2 latest,2 best,"
      + "latest,best,notes",
    "'=cmd,=cmd.txt,0,0,0,0,,,,0,0,", "Ada 9,Ada 9.txt,0,0,0,0,,,,0,0,1 as Ada 10",
    "Ada 10,Ada 10.txt,1,1,2,2,,,,2,2,1 as Ada 9",
    "bob,bob.txt,,,,,,,,0,0,the name stands on several lines",
    "bob,bob.txt,0,0,0,0,,,,0,0,the name stands on several lines", "Eva,Eva.txt,1,0,1,2,,,,1,2,",
    "Ida,Ida.txt,0,0,0,0,,,,0,0,",
    "max,some/dir/max.s,,,,,,,,0,0,a source belongs to one exercise",
    'Zoe,Zoe.txt,,,,,,,,0,0,"handed in of another lesson: ""Week 2"", and not ""Week 1"""', "",
  ].map((line) => line.replace("'=cmd,=cmd", "'=cmd,'=cmd")), page.csvOf(rows, exercises).split("\n"));
  const one = await page.gradeOne(session, lesson, [exercises[0]], given.at(-1));
  report.same("a source of one exercise", ["max", "", [1, 1]],
    [one.name, one.note, one.results[0].tries[0].points]);
}

/** Tries what is handed in, and how it is graded. */
async function tryGrading(report, page, kit) {
  report.begin("grading");
  texts(report, page);
  equals(report, page, kit);
  await graded(report, page, kit);
}

module.exports = { tryGrading };
