"use strict";

// What programs for RARS have: forms that the assembler does not read, rewritten to those that it
// does, line by line, so that a mistake stands where it was made; addresses of memory; a keyboard and
// a display at addresses; random numbers. Nothing here knows the page.

/* The memory of RARS: its data at 0x10010000, behind which heap and stack lie. The instructions lie
 * below it, and not at 0x00400000: a machine here has one memory. */
const RARS_MEMORY = { base: 0x10000000, size: 1 << 20, hasStack: true };
const RARS_PLACES = { gp: 0x10008000, data: 0x10010000, heap: 0x10040000 };

/** Whether a memory is that of RARS. */
const isOfRars = ({ base, size }) => base === RARS_MEMORY.base && size === RARS_MEMORY.size;

/* What has the data begin where RARS has it. */
const RARS_DATA = ".data\n.balign 0x10000\n.text\n";

/* Whether a source may have a form of RARS. */
const MAY_BE_RARS = /\.eqv\b|\.end_macro\b|\.macro\b[^\n]*[%(]|(^|[;:])[ \t]*b[ \t]/m;

/* What hides a name, or is one. */
const NAMES_IN = /"(?:[^"\\]|\\.)*"?|'(?:[^'\\]|\\.)'?|(?:#|\/\/).*|[%\\]?[A-Za-z_.$][\w.$]*/g;

/** A line with other texts in the place of some of its parts, `{ start, end, text }`, in order; and
 * `backOf`, which column of the line a column of the new one is, both from 0. */
function editedLine(line, edits) {
  let [text, at] = ["", 0];
  const pieces = [];
  for (const edit of edits) {
    text += line.slice(at, edit.start);
    pieces.push({ from: text.length, until: text.length + edit.text.length, ...edit });
    text += edit.text;
    at = edit.end;
  }
  const backOf = (column) => {
    const piece = pieces.findLast(({ from }) => from <= column);
    if (piece === undefined) return column;
    return column < piece.until ? piece.start : column - piece.until + piece.end;
  };
  return { text: text + line.slice(at), backOf };
}

/* The statement that is the only one of a line, without what stands before it, or "". */
function onlyStatement(line) {
  const parts = partsOf(line).filter(({ isLabel }) => !isLabel);
  return parts.length === 1 ? line.slice(parts[0].start, parts[0].end).trim() : "";
}

/* ---- names that stand for a text */

/* The line without what it says by .eqv, and with the texts of names that were said above. */
function withoutNames(line, texts) {
  const edits = [];
  for (const { 0: name, index } of line.matchAll(NAMES_IN)) {
    const end = index + name.length;
    if (texts.has(name) && !/^\s*:/.test(line.slice(end))) {
      edits.push({ start: index, end, text: texts.get(name) });
    }
  }
  const [, begun, name] = /^(.*?)\.eqv\s+([A-Za-z_.$][\w.$]*)/.exec(line) ?? [];
  if (name === undefined || !/^(\s*[\w.$]+:)*\s*$/.test(begun)) return editedLine(line, edits);
  const place = begun.length + /^\.eqv\s+/.exec(line.slice(begun.length))[0].length + name.length;
  const said = editedLine(line, edits.filter(({ start }) => start >= place));
  const value = onlyStatement(said.text).replace(/^\.eqv\s+[\w.$]+\s*,?\s*/, "");
  if (value === "") return editedLine(line, []);
  texts.set(name, value);
  return editedLine(line, [{ start: begun.length, end: line.length, text: "" }]);
}

/* ---- macros */

/** The macros of lines that are written as RARS has them: of each its name, its parameters, the
 * labels of its body, and the numbers of its first and its last line. */
function macrosOfRars(lines) {
  const macros = [];
  let open = null;
  lines.forEach((line, at) => {
    const statement = onlyStatement(line);
    const [, name, rest] = /^\.macro\s+([\w.$]+)\s*(.*)$/.exec(statement) ?? [];
    if (name !== undefined && open === null) {
      const parameters = [...rest.matchAll(/%[A-Za-z_]\w*/g)].map(([each]) => each.slice(1));
      open = { name, parameters, labels: new Set(), first: at, isRars: /[%(]/.test(rest) };
    } else if (open !== null && /^\.end(m|_macro|macro)\b/.test(statement)) {
      const isRars = open.isRars || statement.startsWith(".end_macro");
      if (isRars) macros.push({ ...open, last: at });
      open = null;
    } else if (open !== null) {
      for (const { isLabel, start, end } of partsOf(line)) {
        const label = line.slice(start, end).trim();
        if (isLabel && /^[A-Za-z_$]/.test(label)) open.labels.add(label);
      }
    }
  });
  // RARS tells macros of one name apart by how many parameters they have
  const isFirst = (each) => macros.find(({ name }) => name === each.name) === each;
  return macros.map((each) => ({
    ...each, own: isFirst(each) ? each.name : `${each.name}_${each.parameters.length}`,
  }));
}

/* The arguments of a call, which commas or blanks part. */
const argumentsIn = (text) => [...text.replace(/^\(([^]*)\)$/, "$1").matchAll(
  /"(?:[^"\\]|\\.)*"?|'(?:[^'\\]|\\.)'?|[^\s,]+/g)].map(([each]) => each);

/* An argument, as the assembler takes it: between quotation marks where it has blanks, or is one of
 * a macro that is around the call. */
const argumentFor = (text) => (/^"/.test(text) || !/[\s,\\'%]/.test(text) ? text : `"${text}"`);

/* The edits of a statement that is a call of one of the macros, or of the one that a parameter names,
 * or a branch as RARS writes it. */
function editsOfStatement(line, { start, end }, macros) {
  const [, blanks, name, rest] = /^(\s*)(\\?[\w.$]+)([^]*)$/.exec(line.slice(start, end)) ?? [];
  if (name === undefined) return [];
  const from = start + blanks.length;
  const named = name.startsWith("\\") ? [{ own: name, parameters: [] }]
    : macros.filter((each) => each.name === name);
  if (named.length === 0) {
    return name === "b" && rest.trim() !== "" ? [{ start: from, end: from + 1, text: "j" }] : [];
  }
  const given = argumentsIn(rest.trim());
  const { own } = named.find(({ parameters }) => parameters.length === given.length) ?? named[0];
  const text = `${own} ${given.map(argumentFor).join(", ")}`.trim();
  return [{ start: from, end, text }];
}

/* The edits of names in the body of a macro: its parameters, and its labels, which each call has for
 * itself. A parameter that is a text stands between quotation marks again. */
function editsOfBody(line, { parameters, labels }) {
  const edits = [];
  for (const { 0: name, index } of line.matchAll(NAMES_IN)) {
    const end = index + name.length;
    if (labels.has(name)) edits.push({ start: index, end, text: `${name}_M\\@` });
    if (!name.startsWith("%") || !parameters.includes(name.slice(1))) continue;
    const isText = /\.(ascii|asciz|string)\s[^"]*$/.test(line.slice(0, index));
    const text = `\\${name.slice(1)}`;
    edits.push({ start: index, end, text: isText ? `"${text}"` : text });
  }
  return edits;
}

/* A line with its macros as the assembler reads them. */
function withMacros(line, at, macros) {
  const inside = macros.find(({ first, last }) => first <= at && at <= last);
  const begins = line.indexOf(".macro");
  if (inside?.first === at) {
    const text = `.macro ${inside.own} ${inside.parameters.map((each) => `${each}:req`).join(", ")}`;
    return editedLine(line, [{ start: begins, end: line.length, text: text.trim() }]);
  }
  if (inside?.last === at) {
    const { index, 0: word } = /\.end_?m(acro)?/.exec(line) ?? { index: 0, 0: "" };
    return editedLine(line, [{ start: index, end: index + word.length, text: ".endm" }]);
  }
  const body = inside ? editedLine(line, editsOfBody(line, inside)) : editedLine(line, []);
  const edits = partsOf(body.text).filter(({ isLabel }) => !isLabel)
    .flatMap((part) => editsOfStatement(body.text, part, macros));
  const { text, backOf } = editedLine(body.text, edits);
  return { text, backOf: (column) => body.backOf(backOf(column)) };
}

/** A source with the forms of RARS as the assembler reads them: its `text`, which has as many lines,
 * and `columnOf`, which column of a line of the source a column of it is, both from 1. */
function fromRars(source) {
  if (!MAY_BE_RARS.test(source)) return { text: source, columnOf: (line, column) => column };
  const texts = new Map();
  const named = withoutBlocks(source).split("\n").map((line) => withoutNames(line, texts));
  const macros = macrosOfRars(named.map(({ text }) => text));
  const lines = named.map(({ text }, at) => withMacros(text, at, macros));
  return {
    text: lines.map(({ text }) => text).join("\n"),
    columnOf: (line, column) =>
      named[line - 1].backOf(lines[line - 1].backOf(column - 1)) + 1,
  };
}

/* ---- a keyboard and a display at addresses */

/* The words of RARS's keyboard and display: whether a key is there, the key, whether the display takes
 * a byte, and that byte. */
const KEYS = {
  CONTROL: 0xffff0000, KEY: 0xffff0004, DISPLAY_CONTROL: 0xffff0008, DISPLAY: 0xffff000c,
};

const hasKey = ({ taken, input }) => taken < input.length;

/* What a load of one of these words reads. A key is taken by it. */
function loadedKey(terminal, address) {
  if (address === KEYS.CONTROL) return Number(hasKey(terminal));
  if (address === KEYS.DISPLAY_CONTROL) return 1;
  return address === KEYS.KEY && hasKey(terminal) ? terminal.takeBytes(1)[0] : 0;
}

/** Serves an access to the keyboard or the display. Answers null where it is made, or undefined where
 * there is none at its address. */
function serveKeys(machine, { address }, word) {
  const { kit, terminal, history } = machine;
  if (!Object.values(KEYS).includes(address)) return undefined;
  const { kind, bytes, value: stored } = kit.request(word);
  const mark = terminal.mark();
  const isLoad = kind === ACCESS.LOAD;
  const value = isLoad ? loadedKey(terminal, address) : stored;
  history.noteWritten(kit.decode(word).rd);
  kit.complete(word, value);
  if (!isLoad && address === KEYS.DISPLAY) terminal.print(Uint8Array.of(value & 0xff));
  const mask = (1 << bytes) - 1;
  const masks = { readMask: isLoad ? mask : 0, writeMask: isLoad ? 0 : mask };
  machine.keep(word, { madeBy: MADE_BY.PORT, access: { address, value, ...masks }, mark });
  return null;
}

/* ---- counters */

/* The CSRs that any program may read here: how many steps it has made, in two halves. */
const COUNTERS = { 0xc00: 1, 0xc02: 1, 0xc80: 2 ** 32, 0xc82: 2 ** 32 };

/** Whether a word reads one of the counters, as rdcycle and csrr do, and writes none. */
const isCounterRead = (word) => (word & 0xff07f) === 0x2073 && Object.hasOwn(COUNTERS, word >>> 20);

/** Serves a read of a counter. */
function serveCounter(machine, word) {
  const { kit, history } = machine;
  const rd = word >>> 7 & 31;
  history.noteWritten(rd);
  if (rd !== 0) kit.x[rd] = Math.floor(machine.steps / COUNTERS[word >>> 20]);
  kit.pc += 4;
  kit.last = rd;
  machine.keep(word, { access: NO_ACCESS });
  return null;
}

/* ---- calls */

const BITS_48 = (1n << 48n) - 1n;

/* The state of 48 bits in which a generator of random numbers starts by a seed, as Java's does, which
 * RARS has. */
const seeded = (seed) => (BigInt(seed | 0) ^ 0x5deece66dn) & BITS_48;

/* The next bits, 32 at most, of the generator of a number. One that was given no seed has that of the
 * lesson, and its number added. */
function nextBits(machine, stream, bits) {
  const before = machine.streams.get(stream) ?? seeded(machine.seed + stream);
  const state = before * 0x5deece66dn + 11n & BITS_48;
  machine.streams = new Map(machine.streams).set(stream, state);
  return Number(state >> BigInt(48 - bits)) | 0;
}

/* RandSeed(a0, a1): the generator a0 starts anew. */
function seedCall(machine) {
  const { x } = machine.kit;
  machine.streams = new Map(machine.streams).set(x[REGISTER.A0], seeded(x[REGISTER.A1]));
}

/* RandInt(a0): any number. */
const anyNumberCall = (machine) => nextBits(machine, machine.kit.x[REGISTER.A0], 32);

/* RandIntRange(a0, a1): a number from 0 up to a1, and less than that. */
function numberBelowCall(machine) {
  const [stream, below] = [machine.kit.x[REGISTER.A0], machine.kit.x[REGISTER.A1] | 0];
  if (below <= 0) return { reason: "refused", why: `no number from 0 on is less than ${below}` };
  const next = () => nextBits(machine, stream, 31);
  let bits = next();
  if ((below & below - 1) === 0) return Number(BigInt(below) * BigInt(bits) >> 31n);
  // the last numbers, of which there are not all, are left out
  while (bits - bits % below + below - 1 >= 2 ** 31) bits = next();
  return bits % below;
}

/* Time: milliseconds since 1970, the low half in a0, and the high one in a1. */
function millisecondsCall(machine, extra) {
  const now = Date.now();
  extra.changes.push(machine.kit.noteRegister(REGISTER.A1));
  machine.kit.x[REGISTER.A1] = Math.floor(now / 2 ** 32);
  return now % 2 ** 32;
}

/* Sleep(a0): a run in the page waits. */
function sleepCall(machine) {
  machine.asleep = machine.kit.x[REGISTER.A0];
}

/* GetCWD(a0, a1): the name of the folder, which is that of a machine without files. */
function folderCall(machine, extra) {
  const [address, room] = [machine.kit.x[REGISTER.A0], machine.kit.x[REGISTER.A1] | 0];
  if (room < 2) return -1;
  if (machine.countMapped(address, 2) < 2) {
    return { reason: "refused", why: `memory does not have 2 bytes from ${hex(address)} on` };
  }
  machine.storeBytes(address, [0x2f, 0], extra);
  return undefined;
}
