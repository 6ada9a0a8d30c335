"use strict";

// Programs as people give them: words as text, files, and links.

/** Why a text is no program: the number of its line, and what is wrong there. A source of assembly
 * may have other mistakes too. */
class ProgramError extends Error {
  constructor(line, text, mistakes = line ? [{ line, column: 1, text }] : []) {
    super(line ? `Line ${line}: ${text}` : text);
    this.line = line;
    this.mistakes = mistakes;
  }
}

/* What a text can be. */
const LANGUAGES = {
  assembly: "assembly",
  words: "words of hexadecimal digits",
  halves: "half-words of hexadecimal digits",
};

/* What is told of the parts of a text, by how many bytes a part has. */
const PART_NAMES = { 2: "half-word", 4: "word" };

const IN_ENGLISH = new Intl.NumberFormat("en");
const numbered = (count) => IN_ENGLISH.format(count);

/* The most bytes of a text of words, in a file, a link or the editor. */
const MOST_TEXT = 1 << 23;
const TOO_LONG = `A text of words has ${numbered(MOST_TEXT)} bytes at most, and this one has more.`;
const NO_ROOM = "There is not enough memory to assemble it.";

/* What stands in a text: blanks and commas, comments up to the end of their line, and parts. A part
 * is labels and a word. No pattern looks at a character more than twice. */
const BLANKS = /[\s,]*/y;
const COMMENT = /(?:#|;|\/\/)[^\r\n]*/y;
const PART = /\/?[^\s,#;/]*/y;
const LABEL = /[A-Za-z_.$][\w.$]*:/y;
const WORD = /^(0x)?([0-9a-f]{1,8})$/i;
const LINE_END = /\r\n|\r|\n/;

/* Where what a pattern finds at a place of a text ends. Where it finds nothing, that place. */
function endOf(pattern, text, at) {
  pattern.lastIndex = at;
  return pattern.test(text) ? pattern.lastIndex : at;
}

/** The number that 1 to 8 hexadecimal digits are, with or without 0x, or NaN. */
function parseHex(text) {
  const word = WORD.exec(text);
  return word ? parseInt(word[2], 16) : NaN;
}

/* What a value can be, by how many bytes it has. */
const VALUE_WANTED = {
  4: "A number is wanted: 0x and hexadecimal digits, 0b and binary ones, or decimal ones from "
    + "-2147483648 to 4294967295.",
  1: "A number is wanted: 0x and hexadecimal digits, 0b and binary ones, or decimal ones from -128 "
    + "to 255.",
};

/** The value of some bytes that a number of digits is, as a text writes it, or NaN. */
function parseValue(text, bytes) {
  if (!/^(0x[0-9a-f]{1,8}|0b[01]{1,32}|-?[0-9]{1,10})$/i.test(text)) return NaN;
  const value = Number(text);
  const most = 2 ** (8 * bytes);
  return value < -most / 2 || value >= most ? NaN : (value + most) % most;
}

/** Reads words of hexadecimal digits, with or without 0x, apart by blanks, commas or lines. A
 * comment begins with #, ; or //, and a name with : is a label of the next word. Answers the words,
 * the labels by the number of their word, the comments likewise by the first word of their line,
 * and where each label stands: its word and its place in the text. Or throws a ProgramError. With a
 * `unit` of 2 half-words stand in the place of words. */
function parseWords(text, unit = 4) {
  const program = { words: [], labels: new Map(), comments: new Map(), places: new Map(), unit };
  let firstOfLine = 0;
  for (let at = 0; at < text.length;) {
    const start = endOf(BLANKS, text, at);
    if (LINE_END.test(text.slice(at, start))) firstOfLine = program.words.length;
    at = endOf(COMMENT, text, start);
    if (at > start) addComment(text.slice(start, at), firstOfLine, program);
    else at = parsePart(text, start, program);
  }
  return program;
}

function addComment(comment, firstOfLine, { words, comments }) {
  const said = comment.replace(/^(#|;|\/\/)/, "").trim();
  if (said && words.length > firstOfLine) comments.set(firstOfLine, said);
}

/* Reads the part at a place of the text, and answers where it ends. */
function parsePart(text, at, program) {
  const end = endOf(PART, text, at);
  const part = text.slice(at, end);
  let from = 0;
  for (let to = endOf(LABEL, part, 0); to > from; to = endOf(LABEL, part, from)) {
    addLabel(part.slice(from, to - 1), text, at, program);
    from = to;
  }
  if (from === part.length) return end;
  const { unit } = program;
  const word = parseHex(part.slice(from));
  if (!(word < 256 ** unit)) {
    const shown = shortened(part.slice(from), 20);
    throw new ProgramError(
      lineAt(text, at), `"${shown}" is no ${PART_NAMES[unit]} of 1 to ${2 * unit} hexadecimal digits`);
  }
  if (program.words.length === MOST_BYTES / unit) {
    const most = numbered(MOST_BYTES);
    throw new ProgramError(0, `It has more than ${most} bytes, and a memory has no more.`);
  }
  program.words.push(word);
  return end;
}

/* Adds a label of the next word, which stands at a place of the text. */
function addLabel(name, text, at, { words, labels, places, unit }) {
  const index = words.length;
  const first = places.get(name);
  if (first) {
    const line = lineAt(text, first.at);
    throw new ProgramError(
      lineAt(text, at), `the label ${shortened(name, 20)} stands on line ${line} too`);
  }
  places.set(name, { index, offset: unit * index, at });
  if (labels.has(index)) labels.get(index).push(name);
  else labels.set(index, [name]);
}

/** The number of the line that a place of a text is on. */
function lineAt(text, at) {
  return text.slice(0, at).split(LINE_END).length;
}

/** A text, or its first characters where there are more than `most`. */
function shortened(text, most) {
  return text.length > most ? `${text.slice(0, most)}…` : text;
}

/** Whether a text has more bytes than one of words may have. */
function isTooLong(text) {
  return text.length > MOST_TEXT || new TextEncoder().encode(text).length > MOST_TEXT;
}

/** Reads a program whose words fit `size` bytes, or throws a ProgramError. It starts at its first
 * word. With a label `_start` it starts there, as a process of Linux does. */
function parseProgram(text, size, unit = 4) {
  if (isTooLong(text)) throw new ProgramError(0, TOO_LONG);
  const program = parseWords(text, unit);
  if (program.words.length === 0) throw new ProgramError(0, `There is no ${PART_NAMES[unit]} in it.`);
  refuseLarger(unit * program.words.length, size);
  const start = program.places.get("_start");
  return {
    ...program, sources: new Map(), entry: start?.offset ?? 0, isProcess: start !== undefined,
  };
}

/* Refuses a program that has more bytes than its memory. */
function refuseLarger(bytes, size) {
  if (bytes <= size) return;
  throw new ProgramError(
    0, `It has ${numbered(bytes)} bytes, and the memory has ${numbered(size)}.`);
}

/** Reads a source of assembly for `size` bytes of memory from `base` on, or throws a ProgramError.
 * Beside what `parseProgram` answers: of each word at which a statement begins its line and text,
 * and where the program starts, in bytes from `base` on. One with compressed instructions has
 * half-words in the place of words. */
function parseAssembly(text, base, size, kit, mostRoom, given) {
  if (isTooLong(text)) throw new ProgramError(0, TOO_LONG);
  const made = assemble(text, base, kit, mostRoom, given, isOfRars({ base, size }));
  if (made === null) throw new ProgramError(0, NO_ROOM);
  if (made.mistakes.length > 0) {
    const [{ line, text: what }] = made.mistakes;
    throw new ProgramError(line, what, made.mistakes);
  }
  if (made.size === 0) throw new ProgramError(0, "There is no statement in it.");
  refuseLarger(made.size, size);
  const isShort = ({ text, address, size }) => !isDirective(text) && (address % 4 || size % 4);
  const unit = made.statements.some(isShort) ? 2 : 4;
  const bytes = new Uint8Array(Math.ceil(made.size / 4) * 4);
  bytes.set(made.bytes);
  const words = unit === 2 ? new Uint16Array(bytes.buffer) : new Uint32Array(bytes.buffer);
  const entry = made.entry - base;
  return {
    words,
    unit,
    comments: new Map(),
    ...placesOf(made.labels, base, unit),
    sources: sourcesOf(made.statements, base, unit),
    code: codeOf(made.statements, base, words.length, unit),
    entry: entry % unit === 0 ? entry : 0,
  };
}

/* Whether a statement is a directive, or ends with one. */
const isDirective = (text) => /(^|[;:]\s*)\./.test(text);

/* The labels by the word in which they stand, and the place of each: its word, and how many bytes
 * it is behind the first address. */
function placesOf(all, base, unit) {
  const labels = new Map();
  const places = new Map();
  for (const { name, address } of all) {
    const offset = address - base;
    const index = Math.floor(offset / unit);
    places.set(name, { index, offset });
    if (labels.has(index)) labels.get(index).push(name);
    else labels.set(index, [name]);
  }
  return { labels, places };
}

/* The line and the text of the statement that begins in a word. Where an instruction is made of
 * several words, each behind the first has no text. */
function sourcesOf(statements, base, unit) {
  const sources = new Map();
  for (const { line, text, address, size } of statements) {
    const index = Math.floor((address - base) / unit);
    const before = sources.get(index);
    const all = before ? `${before.text}; ${text}` : text;
    sources.set(index, { line: before?.line ?? line, text: all });
    if (!text.startsWith(".") && size > 4) sources.set(index + 4 / unit, { line, text: "" });
  }
  return sources;
}

/* Of each word whether it is an instruction, and no data. */
function codeOf(statements, base, count, unit) {
  const code = new Uint8Array(MOST_BYTES / unit);
  for (const { text, address, size } of statements) {
    if (isDirective(text)) continue;
    const first = Math.floor((address - base) / unit);
    code.fill(1, first, Math.min(count, first + Math.ceil(size / unit)));
  }
  return code;
}

/** Reads a program in one of LANGUAGES, behind what is given of it, or throws a ProgramError. */
function readProgram(text, language, base, size, kit, mostRoom, given = "") {
  return language === "assembly" ? parseAssembly(text, base, size, kit, mostRoom, given)
    : parseProgram(text, size, language === "halves" ? 2 : 4);
}

/* What a text has no byte of: control characters, but for tabs and the ends of lines and pages. */
const NO_TEXT = /[\0-\x08\x0e-\x1f\x7f]/;

/* The text with no control characters that bytes are in an encoding, or null. */
function decoded(bytes, encoding) {
  try {
    const text = new TextDecoder(encoding, { fatal: true }).decode(bytes);
    return NO_TEXT.test(text) ? null : text;
  } catch {
    return null;
  }
}

/** The text that a file's bytes are, or null: in UTF-8, or in UTF-16 with its mark. */
function textIn(bytes) {
  const mark = bytes[0] << 8 | bytes[1];
  return decoded(bytes, { 0xfffe: "utf-16le", 0xfeff: "utf-16be" }[mark] ?? "utf-8");
}

/* The text in the code page of western Windows that bytes are, where it is assembly or a lesson, or
 * null. Other bytes can be read so too. */
function westernIn(bytes, kit) {
  const text = decoded(bytes, "windows-1252");
  return text !== null && (isAssembly(text, kit) || isLesson(text)) ? text : null;
}

/** Why a file of some bytes is not even read, or "". */
function mistakeOfSize(size) {
  if (size === 0) return "is empty.";
  const most = numbered(MOST_TEXT);
  return size > MOST_TEXT ? `has ${numbered(size)} bytes, and a program ${most} at most.` : "";
}

/** The text of the program that the bytes of a file that is no executable are, by what they hold: a
 * text of words, or else raw bytes for a memory of `room` bytes. Throws a ProgramError. */
function textOfFile(bytes, room, kit) {
  const text = textIn(bytes) ?? westernIn(bytes, kit);
  if (text !== null) return text;
  if (bytes.length > room) {
    throw new ProgramError(0, `It has ${numbered(bytes.length)} bytes, and the memory has `
      + `${numbered(room)}. A larger memory can be chosen under More.`);
  }
  return textOfBytes(bytes);
}

/** The text of a file's bytes as words, lowest byte first, the last one filled up with zeros. */
function textOfBytes(bytes) {
  const words = new Uint32Array(Math.ceil(bytes.length / 4));
  new Uint8Array(words.buffer).set(bytes);
  return textOfWords(words, new Map());
}

function hexOf(word, digits = 8) {
  return word.toString(16).padStart(digits, "0");
}

/* ---- links: the text, deflated, in base64 with the letters that an address may have */

/* How many bytes of a link are unpacked at once. They give 1 MiB at most. */
const PIECE = 1024;

/* A stream of bytes, a piece at a time. */
function streamOf(bytes) {
  let at = 0;
  return new ReadableStream({
    pull(controller) {
      if (at < bytes.length) controller.enqueue(bytes.subarray(at, at + PIECE));
      else controller.close();
      at += PIECE;
    },
  });
}

/* What bytes become by a stream. Where that is more than `most` bytes it throws a ProgramError, and
 * leaves the rest of them. */
async function piped(bytes, through, most) {
  const reader = streamOf(bytes).pipeThrough(through).getReader();
  const parts = [];
  for (let length = 0; ;) {
    const { done, value } = await reader.read();
    if (done) return new Uint8Array(await new Blob(parts).arrayBuffer());
    length += value.length;
    parts.push(value);
    if (length > most) {
      await reader.cancel();
      throw new ProgramError(0, TOO_LONG);
    }
  }
}

/* A text, packed for a link. */
async function packed(text) {
  const bytes = await piped(
    new TextEncoder().encode(text), new CompressionStream("deflate-raw"), Infinity);
  let letters = "";
  for (const byte of bytes) letters += String.fromCharCode(byte);
  return btoa(letters).replaceAll("+", "-").replaceAll("/", "_").replaceAll("=", "");
}

/** What stands behind # in a link to a program. */
async function encodeLink({ text, language, base, size, hasStack, calls = "linux" }) {
  const stack = hasStack ? "&stack=1" : "";
  const served = calls === "linux" ? "" : `&calls=${calls}`;
  const read = language === "assembly" ? "&language=assembly" : "";
  const memory = `base=0x${hexOf(base)}&size=${size}${stack}`;
  return `#${memory}${served}${read}&program=${await packed(text)}`;
}

/** The bytes that are packed in base64, of which there may be so many. */
function inflated(base64, most) {
  const held = Uint8Array.from(atob(base64), (letter) => letter.charCodeAt(0));
  return piped(held, new DecompressionStream("deflate-raw"), most);
}

/* The text that is packed in a link. Throws a ProgramError. */
async function unpacked(given) {
  try {
    const bytes = await inflated(given.replaceAll("-", "+").replaceAll("_", "/"), MOST_TEXT);
    return new TextDecoder("utf-8", { fatal: true, ignoreBOM: true }).decode(bytes);
  } catch (error) {
    if (error instanceof ProgramError) throw error;
    throw new ProgramError(0, "The link is damaged: its program can't be read.");
  }
}

/** The program that stands behind # in a link, or null where none does. Throws a ProgramError. */
async function decodeLink(hash) {
  const fields = new URLSearchParams(hash.replace(/^#/, ""));
  const given = fields.get("program");
  if (given === null) return null;
  const text = await unpacked(given);
  const size = fields.get("size") ?? String(PAGE_BYTES);
  return {
    text,
    language: fields.get("language") ?? "words",
    base: parseHex(fields.get("base") ?? "0"),
    size: /^\d+$/.test(size) ? Number(size) : NaN,
    hasStack: fields.get("stack") === "1",
    calls: fields.get("calls") ?? "linux",
  };
}
