"use strict";

// A source of assembly, which the kit assembles (docs/ASSEMBLY.md), and what of its text stands
// where. Nothing here knows the page.

/* ---- block comments */

/* What hides `/*`, and what begins with it. */
const HIDDEN = /"(?:[^"\\\n]|\\.)*"?|'(?:[^'\\\n]|\\.)'?|(?:#|\/\/)[^\n]*|\/\*[^]*?(?:\*\/|$)/g;

/* A source with blanks in the place of its block comments, as the kit reads it. */
const withoutBlocks = (text) => text.replace(HIDDEN, (part) =>
  (part.startsWith("/*") ? part.replace(/[^\n]/g, " ") : part));

/* ---- lines and their parts */

/* A line down to its labels and statements: `{ isLabel, start, end, until }`, where the text of one
 * goes on `until` a comment of its own. A quoted text hides what would end them, and a comment ends
 * the line. */
function partsOf(line) {
  const parts = [];
  let start = 0;
  const end = (at, isLabel, until = at) => {
    parts.push({ isLabel, start, end: at, until });
    start = at + 1;
  };
  for (let at = 0; at < line.length; at++) {
    const letter = line[at];
    if (letter === '"') at = endOfString(line, at);
    else if (letter === "'") at += line[at + 1] === "\\" ? 3 : 2;
    else if (letter === ":") end(at, true);
    else if (letter === ";") end(at, false);
    else if (letter === "#" || line.startsWith("//", at)) {
      end(at, false, line.length);
      return parts;
    }
  }
  end(line.length, false);
  return parts;
}

function endOfString(line, at) {
  let next = at + 1;
  while (next < line.length && line[next] !== '"') next += line[next] === "\\" ? 2 : 1;
  return next;
}

/* The texts of the statements of a line. */
const statementsIn = (line) => partsOf(line)
  .filter(({ isLabel, start, end }) => !isLabel && line.slice(start, end).trim() !== "")
  .map(({ start, until }) => line.slice(start, until).trim());

/* Whether a statement is a directive that lays bytes out elsewhere than where it stands. */
const isCommon = (text) => /^\.l?comm\b/.test(text);

/* The texts of as many statements as the kit tells of a line: those of the line in their order, and
 * anew for each time that a macro or a repetition makes it. Where the kit tells of some of them
 * alone, each has the text of the line. */
function textsOf(line, count) {
  const texts = statementsIn(line);
  const areAll = texts.length === 1 || count % texts.length === 0 && !texts.some(isCommon);
  return Array.from({ length: count }, (_, at) =>
    (areAll ? texts[at % texts.length] : line.trim()));
}

/* The statements that the kit tells, each with its text. */
function withTexts(told, lines) {
  const ofLines = new Map();
  for (const statement of told) {
    const ofLine = ofLines.get(statement.line);
    if (ofLine) ofLine.push(statement);
    else ofLines.set(statement.line, [statement]);
  }
  for (const [line, ofLine] of ofLines) {
    const texts = textsOf(lines[line - 1], ofLine.length);
    ofLine.forEach((statement, at) => { statement.text = texts[at]; });
  }
  return told;
}

/* The character of a line in which a byte of it stands, both counted from 1. */
function columnOf(line, byte) {
  const before = new TextEncoder().encode(line).subarray(0, byte - 1);
  // as a stream, in which a character that is not complete is none yet
  return new TextDecoder("utf-8", { ignoreBOM: true }).decode(before, { stream: true }).length + 1;
}

/* What stands before a source: the part that is given, and where RARS has its data. */
const beforeOf = (given, isRars) => (isRars ? RARS_DATA : "")
  + (given === "" ? "" : `${given.replace(/\n$/, "")}\n.text\n`);

/* A mistake in what stands before a source, on one of its lines. */
function mistakeOfGiven(line, text) {
  const [, name] = /^symbol is not defined: ([^\s;]+)/.exec(text) ?? [];
  const what = name === undefined ? `What is given has a mistake on its line ${line}: ${text}`
    : `What is given uses ${name}: the program needs this label.`;
  return { line: 0, column: 1, text: what, ofGiven: line, isLabel: name !== undefined };
}

/* A label by which the program would begin elsewhere than where what is given has it begin. */
function mistakesOfEntry(labels, before) {
  const own = labels.find(({ name, line }) => name === "_start" && line > before);
  const given = labels.find(({ name, line }) => name === "main" && line <= before);
  return own && given ? [{
    line: own.line - before, column: 1,
    text: "what is given begins the program, at main: no label _start can stand here",
  }] : [];
}

/** Assembles a source from an address on: `{ size, entry, bytes, statements, labels, mistakes }`. A
 * statement has its line, its text, its address and its size, and a label its name and its address;
 * local labels are left out. Where there are mistakes, each with its line, column and text, or more
 * bytes than a memory has, there are no bytes. Null where there is too little room for it. What is
 * `given` stands before it, and its statements have the line 0. With `isRars` data has its address. */
function assemble(text, base, kit, mostRoom, given = "", isRars = false) {
  const start = beforeOf(given, isRars);
  const before = start.split("\n").length - 1;
  const source = start + text;
  const rewritten = fromRars(source);
  const made = kit.assemble(rewritten.text, base, mostRoom);
  if (made === null) return null;
  const lines = rewritten.text.split("\n");
  const columnIn = (line, byte) =>
    rewritten.columnOf(line, columnOf(lines[line - 1], byte));
  const ahead = isRars ? RARS_DATA.split("\n").length - 1 : 0;
  const mistakes = made.mistakes.map(({ line, column, text: what }) => (line > before
    ? { line: line - before, column: columnIn(line, column), text: what }
    : mistakeOfGiven(line - ahead, what)));
  return {
    ...made,
    statements: withTexts(made.statements, withoutBlocks(source).split("\n"))
      .filter(({ size }) => size > 0)
      .map((each) => ({ ...each, line: Math.max(0, each.line - before) })),
    labels: made.labels.filter(({ name }) => !/^[0-9]/.test(name)),
    mistakes: mistakes.length > 0 ? mistakes : mistakesOfEntry(made.labels, before),
  };
}
