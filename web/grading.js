"use strict";

// What is handed in of a lesson, and how a class is graded: points by case, the best and the latest try,
// and which programs are equal. Nothing here knows the page.

/* ---- what is handed in: a text with each try, the lines of which begin with | */

/* The second line of what is handed in, and how long a name may be. */
const HANDED_IN_BY = "by:";
const MOST_OF_NAME = 80;

/** A name, as it stands in a line. */
const nameIn = (text) => text.replace(/\s+/g, " ").trim().slice(0, MOST_OF_NAME);

/** A text of a lesson with what was tried of each exercise, by one who has a name. */
function handedIn({ title, exercises }, name = "") {
  const parts = [`${HANDED_IN} ${title}`, ...name === "" ? [] : [`${HANDED_IN_BY} ${nameIn(name)}`]];
  for (const [at, { title: of, tries = [] }] of exercises.entries()) {
    parts.push("", `exercise ${at + 1}: ${of}`);
    for (const { text, right, of: all } of tries) {
      const lines = text.replace(/\n$/, "").split("\n").map((line) => `| ${line}`);
      parts.push(`try: ${right} of ${all} right`, ...lines);
    }
  }
  return `${parts.join("\n")}\n`;
}

/** The lesson's title and the name in a text that was handed in, or null where it is none. */
function headOf(text) {
  if (!text.startsWith(HANDED_IN)) return null;
  const [first, second = ""] = text.split(/\r?\n/);
  const name = second.startsWith(HANDED_IN_BY) ? nameIn(second.slice(HANDED_IN_BY.length)) : "";
  return { title: first.slice(HANDED_IN.length).trim(), name };
}

/** The tries of an exercise, by its number, in a text that was handed in, or null where it is none. */
function triesIn(text, number) {
  if (!text.startsWith(HANDED_IN)) return null;
  const tries = [];
  let here = 0;
  for (const line of text.split(/\r?\n/)) {
    const begun = /^exercise (\d+):/.exec(line);
    const [, right, of] = /^try: (\d+) of (\d+) right$/.exec(line) ?? [];
    if (begun) here = Number(begun[1]);
    else if (here === number && of) tries.push({ text: "", right: Number(right), of: Number(of) });
    else if (here === number && line.startsWith("|") && tries.length > 0) {
      tries.at(-1).text += `${line.slice(2)}\n`;
    }
  }
  return tries;
}

/** The number of the best of some tries, the first one where several are, or -1. */
const bestOf = (tries) => tries.reduce((best, { right }, at) =>
  (best < 0 || right > tries[best].right ? at : best), -1);

/** What is told of the tries of an exercise: the best and the latest one, as `best 3 of 3, latest 1 of
 * 3`, or "". */
function triesTold(tries) {
  if (tries.length === 0) return "";
  const told = ({ right, of }) => `${right} of ${of}`;
  return `best ${told(tries[bestOf(tries)])}, latest ${told(tries.at(-1))}`;
}

/** What stands behind # in a link that hands a lesson in: the lesson, and what was tried of it. */
async function encodeHandedIn(lesson, name) {
  return encodedHandedIn(lesson, handedIn(lesson, name));
}

/** What stands behind # in a link to a lesson, with a text that was handed in of it. */
async function encodedHandedIn(lesson, text) {
  return `${await encodeLesson(lesson.text)}&handed-in=${await packed(text)}`;
}

/** The text that was handed in by a link, or null where there is none in it. Throws a ProgramError. */
async function handedInBy(link) {
  const given = new URLSearchParams(link.slice(link.indexOf("#") + 1)).get("handed-in");
  return given === null ? null : unpacked(given);
}

/* Gives the exercises of a lesson what was handed in by a link. */
async function takeHandedIn(lesson, hash) {
  const text = await handedInBy(hash);
  if (text === null) return;
  giveHandedIn(lesson, text);
  lesson.link = hash.replace(/&exercise=\d+$/, "");
}

/** Gives the exercises of a lesson what was handed in of it. */
function giveHandedIn(lesson, text) {
  lesson.handedIn = text;
  for (const [at, exercise] of lesson.exercises.entries()) {
    exercise.tries = triesIn(text, at + 1) ?? [];
    exercise.isSolved = exercise.tries.some(({ right, of }) => right === of);
    const { language } = exercise;
    if (exercise.tries.length > 0) exercise.tried = { text: exercise.tries.at(-1).text, language };
  }
}

/* ---- grades */

/** Why a text that was handed in is none of a lesson, or "". */
function whyOther(text, { title }) {
  const other = headOf(text)?.title;
  return other === undefined || other === title ? ""
    : `handed in of another lesson: "${shortened(other, 60)}", and not "${shortened(title, 60)}"`;
}

/* What comes of a try of an exercise: how many cases are right, of each whether it is, and what is told,
 * or why it can't be read. */
async function gradeTry(session, exercise, text, pause) {
  const of = exercise.cases.length;
  try {
    const told = await judge(session, exercise, { text, language: exercise.language }, pause);
    const points = told.map(({ misses }) => Number(misses.get(NAMES.abi).length === 0));
    return { text, right: rightOf(told), of, points, told, mistake: "" };
  } catch (error) {
    if (!(error instanceof ProgramError)) throw error;
    return { text, right: 0, of, points: Array(of).fill(0), told: null, mistake: error.message };
  }
}

/** Grades the tries of an exercise, `{ text }`, as judging gives them points: each text once. Answers
 * them in their order. */
async function gradeTries(session, exercise, tries, pause) {
  const graded = new Map();
  for (const { text } of tries) {
    if (graded.has(text)) continue;
    graded.set(text, await gradeTry(session, exercise, text, pause));
  }
  return tries.map(({ text }) => graded.get(text));
}

/** Grades what one has handed in, a text, or a source of one exercise: `{ name, file, note, results }`,
 * where a result has the number of its exercise and its graded tries. `exercises` are `[exercise,
 * number]` of each. */
async function gradeOne(session, lesson, exercises, { file, text }, pause) {
  const head = headOf(text);
  const plain = file.replace(/^.*[\\/]/, "").replace(/(\.handed-in)?\.[^.]*$/, "");
  const row = { name: head?.name || plain, file, note: whyOther(text, lesson), results: [] };
  if (head === null && exercises.length > 1) row.note = "a source belongs to one exercise";
  for (const [exercise, number] of row.note === "" ? exercises : []) {
    const tries = triesIn(text, number) ?? [{ text }];
    row.results.push({ number, tries: await gradeTries(session, exercise, tries, pause) });
  }
  return row;
}

/* ---- programs that are equal */

/* A part of a source: a text, a character, a word, or a sign. Comments are left out. */
const PARTS_OF_SOURCE =
  /(?:#|\/\/)[^\n]*|"(?:[^"\\\n]|\\.)*"?|'(?:[^'\\\n]|\\.)'?|[%\\.]?[A-Za-z_$][\w.$]*|\d\w*|\S/g;

/* The name of a register, of an instruction, a directive, or a number, as each program has it; and a
 * name that a program chooses by when it comes first. */
function plainPart(part, names, kit) {
  if (/^(["']|\.(?!L))/.test(part) || namesOf(kit).has(part)) return part;
  if (/^\d/.test(part)) return Number.isNaN(Number(part)) ? part : String(Number(part));
  if (!/^[%\\.A-Za-z_$]/.test(part)) return part;
  const number = registerNamed(part);
  const key = number === undefined ? `name ${part}` : `register ${number}`;
  if (!names.has(key)) names.set(key, `${number === undefined ? "n" : "r"}${names.size}`);
  return names.get(key);
}

/** A source without what does not make it another program: comments, blanks, and which names and
 * registers it has. Two sources are equal but for these where this is equal. */
function plainSource(text, kit) {
  const names = new Map();
  const parts = withoutBlocks(text).split("\n").flatMap((line) =>
    [...line.match(PARTS_OF_SOURCE) ?? [], ";"]);
  // a label ends a line, as a sign between statements does
  return parts.filter((part) => !/^(#|\/\/|,$)/.test(part))
    .map((part) => (/^[:;]$/.test(part) ? `${part}\n` : plainPart(part, names, kit)))
    .join(" ").replaceAll(";", "").split("\n").map((line) => line.trim()).filter((line) => line)
    .join("\n");
}

/** Says of each row which others have an equal program, in `equal`: of an exercise the names, where the
 * latest tries are equal but for names, comments and registers, and are not what it begins with. */
function findEqual(rows, exercises, kit) {
  for (const row of rows) row.equal = [];
  for (const [{ program }, number] of exercises) {
    const begun = plainSource(program, kit);
    const byText = new Map();
    for (const row of rows) {
      const latest = row.results.find((result) => result.number === number)?.tries.at(-1);
      const plain = latest === undefined ? "" : plainSource(latest.text, kit);
      if (plain === "" || plain === begun) continue;
      byText.set(plain, [...byText.get(plain) ?? [], row]);
    }
    for (const same of byText.values()) {
      for (const row of same.length > 1 ? same : []) {
        const others = same.filter((other) => other !== row).map(({ name }) => name);
        row.equal.push({ number, others });
      }
    }
  }
}

/* ---- the table of a class */

/* How many of those are named whose programs are equal. */
const MOST_NAMED = 5;

/** The sums of a row: of the latest tries, of the best ones, and of all cases. */
function sumsOf({ results }) {
  const sum = (of) => results.reduce((all, { tries }) => all + of(tries), 0);
  return {
    latest: sum((tries) => tries.at(-1)?.right ?? 0),
    best: sum((tries) => tries[bestOf(tries)]?.right ?? 0),
  };
}

/** What is told of a row beside its points: why it has none, whose programs are equal, and that a name
 * stands twice. */
function notesOf(row, rows) {
  const numbers = new Map();
  for (const { number, others } of row.equal) {
    const more = others.length - MOST_NAMED;
    const named = others.slice(0, MOST_NAMED).join(", ") + (more > 0 ? ` and ${more} more` : "");
    numbers.set(named, [...numbers.get(named) ?? [], number]);
  }
  const equal = [...numbers].map(([named, all]) => `${all.join(", ")} as ${named}`);
  const isTwice = rows.filter(({ name }) => name === row.name).length > 1;
  return [row.note, isTwice ? "the name stands on several lines" : "", ...equal]
    .filter((note) => note);
}

/** Sorts rows by name, and says of each which are equal. */
function finishRows(rows, exercises, kit) {
  rows.sort((one, other) => one.name.localeCompare(other.name, "en", { numeric: true })
    || one.file.localeCompare(other.file, "en"));
  findEqual(rows, exercises, kit);
  return rows;
}

/* A cell: between quotation marks where it has to be, and no formula. */
function cellOf(value) {
  const text = String(value).replace(/^[=+\-@\t]/, "'$&");
  return /[",\n]/.test(text) ? `"${text.replaceAll('"', '""')}"` : text;
}

/** The table of a class as text, a line for each: its name and file; of each exercise the points of the
 * latest try by case, the right cases of the latest and of the best; the sums; and notes. */
function csvOf(rows, exercises) {
  const heads = exercises.flatMap(([{ title, cases }, number]) => [
    ...cases.map((each, at) => `${number} ${title}: ${each.title || `case ${at + 1}`}`),
    `${number} latest`, `${number} best`,
  ]);
  const cellsOf = (row) => exercises.flatMap(([{ cases }, number]) => {
    const tries = row.results.find((result) => result.number === number)?.tries ?? [];
    const points = tries.at(-1)?.points ?? Array(cases.length).fill("");
    return [...points, tries.at(-1)?.right ?? "", tries[bestOf(tries)]?.right ?? ""];
  });
  const lines = rows.map((row) => {
    const { latest, best } = sumsOf(row);
    return [row.name, row.file, ...cellsOf(row), latest, best, notesOf(row, rows).join("; ")];
  });
  return [["name", "file", ...heads, "latest", "best", "notes"], ...lines]
    .map((cells) => `${cells.map(cellOf).join(",")}\n`).join("");
}
