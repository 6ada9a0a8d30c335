"use strict";

// What is known of a text of assembly before it is read: whether it is one, and its colours.

/* The pseudo-instructions that no instruction has the name of. */
const PSEUDO = [
  "nop", "li", "la", "lla", "mv", "not", "neg", "seqz", "snez", "sltz", "sgtz", "sgt", "sgtu",
  "zext.b", "beqz", "bnez", "blez", "bgez", "bltz", "bgtz", "bgt", "ble", "bgtu", "bleu", "j", "jr",
  "ret", "call", "tail", "jump", "unimp",
];

/* The names with which statements begin that are no directives. */
function namesOf(kit) {
  kit.names ??= new Set([...kit.instructionNames(), ...PSEUDO]);
  return kit.names;
}

/** Whether a text is a source of assembly, and no words: a line of it begins, behind labels, with a
 * directive, or with the name of an instruction and operands. */
function isAssembly(text, kit) {
  const names = namesOf(kit);
  return withoutBlocks(text).split("\n").some((line) => {
    const [, name, rest] = /^(?:\s*[\w.$]+:)*\s*([\w.$]*)\s*([^#;/]?)/.exec(line);
    if (name.startsWith(".")) return !name.endsWith(":");
    // a lone add is a word of three digits too
    return names.has(name) && (rest !== "" || !WORD.test(name));
  });
}

/* ---- colours */

/* What is coloured in a source: comments, strings, labels, directives, and numbers. */
const COLOURED = new RegExp([
  /(?<comment>\/\*[^]*?(?:\*\/|$)|(?:#|\/\/)[^\n]*)/,
  /(?<string>"(?:[^"\\\n]|\\.)*"?|'(?:[^'\\\n]|\\.)'?)/,
  /(?<label>[\w.$]+:)/, /(?<directive>\.[A-Za-z][\w.]*)/, /(?<word>[A-Za-z_$][\w.$]*)/,
  /(?<number>\d\w*)/,
].map(({ source }) => source).join("|"), "g");

/* Where the block comment begins that a place of a source is in, or the place if it is in none. */
function startOfBlock(text, place) {
  for (const { index, 0: part } of text.matchAll(HIDDEN)) {
    if (index >= place) break;
    if (index + part.length > place) return index;
  }
  return place;
}

/** The parts of a source that have a colour: `{ start, end, kind }`, in order. Of those that lie
 * between two places, each the beginning of a line. */
function colouredIn(text, kit, from = 0, to = text.length) {
  const names = namesOf(kit);
  const found = [];
  COLOURED.lastIndex = startOfBlock(text, from);
  for (const { index, 0: part, groups } of text.matchAll(COLOURED)) {
    if (index >= to) break;
    const [[kind]] = Object.entries(groups).filter(([, value]) => value !== undefined);
    const own = kind !== "word" ? kind : names.has(part) ? "name"
      : registerNamed(part) !== undefined ? "register" : "";
    if (own) found.push({ start: index, end: index + part.length, kind: own });
  }
  COLOURED.lastIndex = 0;
  return found;
}
