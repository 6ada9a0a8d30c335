"use strict";

// Calls of Linux beside read, write, exit and brk, as crates/rrs_linux/specs defines them: of the
// three streams, which are pipes, of paths that lead nowhere, of clocks, of names, and of random
// bytes. Nothing here knows the page. Each function is one of `serve` in calls.js.

/* The errors of these calls. */
const NO_ENTRY = -2;
const NO_DIRECTORY = -20;
const INVALID = -22;
const NO_TERMINAL = -25;
const NO_POSITION = -29;

/* The most pieces of a writev. */
const MOST_PIECES = 1024;

/* The bytes of the 32 numbers that a getrandom takes. */
const RANDOM_BYTES = 256;

/* What stands for the working directory where a descriptor is asked for. */
const AT_FDCWD = 2 ** 32 - 100;

const isStream = (file) => file <= 2;

/* Answers the same of each stream. */
const ofStream = (answer) => ({ kit }) => (isStream(kit.x[REGISTER.A0]) ? answer : NO_SUCH_FILE);

/* The bytes of a struct, of which words stand at some offsets. */
function structOf(length, words) {
  const bytes = new Uint8Array(length);
  const view = new DataView(bytes.buffer);
  for (const [offset, word] of Object.entries(words)) view.setUint32(Number(offset), word, true);
  return bytes;
}

/* The status of a stream, a pipe of its owner with one link: as fstat and as statx have it. */
const STREAM_STATUS = structOf(104, { 16: 0x1180, 20: 1, 56: 4096 });
const EXTENDED_STATUS = structOf(256, { 0: 0x7ff, 4: 4096, 16: 1, 28: 0x1180 });

/* Puts bytes at an address for a call, up to the first that is not there. */
function putBytes(machine, extra, address, bytes) {
  const { length } = bytes;
  const count = address + length > 2 ** 32 ? 0 : machine.countMapped(address, length);
  if (count > 0) machine.storeBytes(address, bytes.slice(0, count), extra);
  return count === length ? 0 : BAD_ADDRESS;
}

/* fstat(a0, a1) */
function statusCall(machine, extra) {
  const { x } = machine.kit;
  if (!isStream(x[REGISTER.A0])) return NO_SUCH_FILE;
  return putBytes(machine, extra, x[REGISTER.A1], STREAM_STATUS);
}

/* Why a path, beside a descriptor and by flags, names no stream: an error, or 0. */
function errorOfPath(machine, file, path, flags) {
  const [first] = machine.bytesFrom(path);
  if (first === undefined) return BAD_ADDRESS;
  if (first === 0 && (flags & 0x1000) === 0) return NO_ENTRY;
  if (first === 0) return isStream(file) ? 0 : NO_SUCH_FILE;
  if (first === 47 || file === AT_FDCWD) return NO_ENTRY;
  return isStream(file) ? NO_DIRECTORY : NO_SUCH_FILE;
}

const areFlags = (flags) => (flags & ~0x7900) === 0;

/* newfstatat(a0, a1, a2, a3) */
function namedStatusCall(machine, extra) {
  const { x } = machine.kit;
  const flags = x[REGISTER.A3];
  if (!areFlags(flags)) return INVALID;
  return errorOfPath(machine, x[REGISTER.A0], x[REGISTER.A1], flags)
    || putBytes(machine, extra, x[REGISTER.A2], STREAM_STATUS);
}

/* statx(a0, a1, a2, a3, a4) */
function extendedStatusCall(machine, extra) {
  const { x } = machine.kit;
  const flags = x[REGISTER.A2];
  const isRight = areFlags(flags) && (flags & 0x6000) !== 0x6000 && x[REGISTER.A3] < 2 ** 31;
  if (!isRight) return INVALID;
  return errorOfPath(machine, x[REGISTER.A0], x[REGISTER.A1], flags)
    || putBytes(machine, extra, x[REGISTER.A4], EXTENDED_STATUS);
}

/* Puts the time of a clock, in seconds and some `parts` of a millisecond: the time since 1970, or
 * since the page was opened. */
function putTime(machine, extra, clock, address, parts) {
  const time = clock === 0 ? Date.now() : performance.now();
  const words = { 0: Math.floor(time / 1000), 8: Math.floor(time % 1000 * parts) };
  return putBytes(machine, extra, address, structOf(16, words));
}

/* clock_gettime64(a0, a1) */
function clockCall(machine, extra) {
  const { x } = machine.kit;
  if (x[REGISTER.A0] > 3) return INVALID;
  return putTime(machine, extra, x[REGISTER.A0], x[REGISTER.A1], 1e6);
}

/* gettimeofday(a0) */
function timeOfDayCall(machine, extra) {
  return putTime(machine, extra, 0, machine.kit.x[REGISTER.A0], 1000);
}

/* What uname tells: six texts, each in a field of 65 bytes. */
function systemNames() {
  const bytes = new Uint8Array(6 * 65);
  ["Linux", "rrs", "6.1.0", "#1", "riscv32", "(none)"].forEach((text, at) => {
    bytes.set(new TextEncoder().encode(text), 65 * at);
  });
  return bytes;
}

/* uname(a0) */
function namesCall(machine, extra) {
  return putBytes(machine, extra, machine.kit.x[REGISTER.A0], systemNames());
}

/* The bytes of the next numbers of SplitMix64, from the state that the machine has and leaves. */
function randomBytes(machine) {
  const word = (value) => BigInt.asUintN(64, value);
  const view = new DataView(new ArrayBuffer(RANDOM_BYTES));
  for (let at = 0; at < RANDOM_BYTES; at += 8) {
    machine.random = word(machine.random + 0x9e3779b97f4a7c15n);
    let number = machine.random;
    number = word((number ^ number >> 30n) * 0xbf58476d1ce4e5b9n);
    number = word((number ^ number >> 27n) * 0x94d049bb133111ebn);
    view.setBigUint64(at, number ^ number >> 31n, true);
  }
  return new Uint8Array(view.buffer);
}

/* getrandom(a0, a1, a2): gives bytes that are the same in each run, and answers how many. */
function randomCall(machine, extra) {
  const { x } = machine.kit;
  const [address, length, flags] = [x[REGISTER.A0], x[REGISTER.A1], x[REGISTER.A2]];
  if (flags > 7 || (flags & 6) === 6) return INVALID;
  const bytes = randomBytes(machine);
  const most = mostTransferred(address, length);
  if (most <= 0) return most;
  const count = machine.countMapped(address, Math.min(most, RANDOM_BYTES));
  if (count === 0) return BAD_ADDRESS;
  machine.storeBytes(address, bytes.slice(0, count), extra);
  return count;
}

/* writev(a0, a1, a2): prints pieces, each as a write does, up to the first that is not whole. */
function writePiecesCall(machine) {
  const { x } = machine.kit;
  const [file, vector, count] = [x[REGISTER.A0], x[REGISTER.A1], x[REGISTER.A2]];
  if (file !== 1 && file !== 2) return NO_SUCH_FILE;
  if (count > MOST_PIECES) return INVALID;
  const size = 8 * count;
  if (machine.countMapped(vector, size) < size) return BAD_ADDRESS;
  const view = new DataView(machine.bytesFrom(vector).slice(0, size).buffer);
  const words = Array.from({ length: 2 * count }, (_, at) => view.getUint32(4 * at, true));
  if (words.some((word, at) => at % 2 === 1 && word >= 2 ** 31)) return INVALID;
  let done = 0;
  for (let at = 0; at < words.length; at += 2) {
    const wanted = Math.min(words[at + 1], MOST_TRANSFERRED - done);
    const taken = machine.write(words[at], wanted);
    if (taken < 0) return done || taken;
    done += taken;
    if (taken < wanted) return done;
  }
  return done;
}
