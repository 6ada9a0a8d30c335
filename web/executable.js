"use strict";

// Executables in the ELF format, as C compilers make them, that become programs of the page.

/* What is wrong with a file, by the number of the refusal. */
const ELF_REFUSALS = {
  1: () => "it does not begin as an ELF file does",
  2: () => "the file ends within the ELF header",
  3: (n) => `e_ident[EI_CLASS] is ${n}, not 1 (32 bits)`,
  4: (n) => `e_ident[EI_DATA] is ${n}, not 1 (lowest byte first)`,
  5: (n) => `e_ident[EI_VERSION] is ${n}, not 1`,
  6: () => "e_type is 3: a shared object or a position-independent executable",
  7: (n) => `e_type is ${n}, not 2 (an executable)`,
  8: (n) => `e_machine is ${n}, not 243 (RISC-V)`,
  9: (n) => `e_version is ${n}, not 1`,
  11: () => "e_flags: a floating-point ABI",
  12: () => "e_flags: RVE, 16 registers",
  13: (n) => `e_phentsize is ${n}, not 32`,
  14: () => "e_phnum is 65535: too many program headers",
  15: () => "e_phoff, e_phnum: the file ends within the program headers",
  16: (n) => `segment ${n}: it names a dynamic linker`,
  17: (n) => `segment ${n}: the file ends within it`,
  18: (n) => `segment ${n}: p_filesz is above p_memsz`,
  19: (n) => `segment ${n}: it ends past the last address`,
  20: (n, other) => `segments ${n} and ${other}: they overlap`,
  21: (n, other, unit) => `e_entry is ${hex(n)}, no multiple of ${unit}`,
  22: (n) => `e_entry is ${hex(n)}, in no loaded segment`,
};

/* A page of an executable. */
const ELF_PAGE = 4096;

/** Whether a file begins as one in the ELF format does. */
function isElf(bytes) {
  return [0x7f, 0x45, 0x4c, 0x46].every((byte, at) => bytes[at] === byte);
}

/** The program that an executable is: a text of words, or of half-words where it has compressed code,
 * from the page of its lowest address on, with the names of its functions as labels and `_start` at its
 * entry, for a memory of MOST_BYTES, with Linux's calls and a stack, and which of its words are
 * read-only. Throws a ProgramError. */
async function programOfElf(kit, bytes) {
  const file = await ElfFile.of(kit, bytes);
  const unit = file.hasCompressed ? 2 : 4;
  if (file.refusal !== 0) {
    const what = ELF_REFUSALS[file.refusal](file.number, file.other, unit);
    throw new ProgramError(0, `It is no executable for this machine: ${what}.`);
  }
  const segments = file.segments().filter(({ memorySize }) => memorySize > 0);
  const lowest = Math.min(...segments.map(({ address }) => address));
  const base = lowest - lowest % ELF_PAGE;
  const end = Math.max(...segments.map(({ address, memorySize }) => address + memorySize));
  // the upper half is for the heap and the stack
  const most = MOST_BYTES / 2;
  if (end - base > most) {
    throw new ProgramError(0, `It takes ${numbered(end - base)} bytes from ${hex(base)} on, and the `
      + `memory has ${numbered(most)} for a program.`);
  }
  const words = file.load(base, MOST_BYTES / 4);
  if (words === null) throw new ProgramError(0, `There is no memory from ${hex(base)} on.`);
  const last = Math.max(...segments.map(({ address, fileSize }) => address + fileSize));
  const parts = unit === 4 ? words : new Uint16Array(words.buffer, words.byteOffset, 2 * words.length);
  const labels = labelsOfElf(file, segments, base, unit);
  const text = textOfWords(parts.subarray(0, Math.ceil((last - base) / unit)), labels);
  const code = codeOfElf(segments, base, unit);
  const language = unit === 4 ? "words" : "halves";
  return { text, language, base, size: MOST_BYTES, hasStack: true, calls: "linux", code };
}

/* Of each word or half-word of memory whether it is executed and not written to. */
function codeOfElf(segments, base, unit) {
  const code = new Uint8Array(MOST_BYTES / unit);
  for (const { address, fileSize, flags } of segments) {
    const isCode = (flags & IS_CODE) !== 0 && (flags & IS_WRITABLE) === 0;
    const first = Math.floor((address - base) / unit);
    if (isCode) code.fill(1, first, Math.ceil((address - base + fileSize) / unit));
  }
  return code;
}

/* What a name has to be for a label of a text of words. */
const ELF_NAME = /^[A-Za-z_.$][\w.$]*$/;

/* The labels by the number of their word or half-word: the functions of the segments with code, each
 * once. A name that an earlier function has is followed by its address, and `_start` is the entry's
 * alone. */
function labelsOfElf(file, segments, base, unit) {
  const labels = new Map([[(file.entry - base) / unit, ["_start"]]]);
  const taken = new Set(["_start"]);
  for (const { address, name } of functionsOfElf(file, segments)) {
    const index = Math.floor((address - base) / unit);
    if (!ELF_NAME.test(name) || name === "_start" && address === file.entry) continue;
    const label = taken.has(name) ? `${name}.${hexOf(address)}` : name;
    taken.add(label);
    labels.set(index, [...labels.get(index) ?? [], label]);
  }
  return labels;
}

/* The functions of the segments with code, in the order of their addresses: each is found by its
 * last word. */
function functionsOfElf(file, segments) {
  const found = [];
  for (const { address, fileSize, flags } of segments) {
    if ((flags & IS_CODE) === 0) continue;
    for (let at = address + fileSize - 1; at >= address;) {
      const where = file.functionAt(at);
      if (where === null) break;
      const start = at - where.distance;
      if (start < address) break;
      found.push({ address: start, name: where.name });
      at = start - 1;
    }
  }
  return found.sort((a, b) => a.address - b.address);
}

/* A text of words or half-words, each with its labels before it. */
function textOfWords(words, labels) {
  return Array.from(words, (word, index) => {
    const names = (labels.get(index) ?? []).map((name) => `${name}:\n`).join("");
    return `${names}0x${hexOf(word, 2 * words.BYTES_PER_ELEMENT)}\n`;
  }).join("");
}
