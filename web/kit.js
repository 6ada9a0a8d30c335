"use strict";

// The proved library, crates/rrs_c, as a WebAssembly module. Its calls take addresses of 64 bits, and
// its memory has 32, which more browsers have. This is the one file that knows its calls and the
// layouts of its structs (crates/rrs_c/include/rrs.h).

/* Sizes and offsets in bytes, as rrs.h has them. */
const LAYOUT = {
  hart: { size: 136, x: 0, pc: 128, last: 132 },
  fault: { size: 12, kind: 0, address: 4, word: 8 },
  retired: {
    size: 72, insn: 8, pcBefore: 20, rd: 44, rdValue: 48, memoryAddress: 52,
    readMask: 56, writeMask: 60, readValue: 64, writtenValue: 68,
  },
  reservation: { size: 8 },
  change: {
    size: 28, pc: 0, lastBefore: 4, rd: 8, rdBefore: 12, address: 16, stored: 20, bytesBefore: 24,
  },
  instruction: { size: 24, row: 0, rd: 4, rs1: 8, rs2: 12, shamt: 16, imm: 20 },
  access: { size: 28, fault: 0, kind: 12, address: 16, bytes: 20, value: 24 },
  text: { size: 89 },
  elf: { size: 20, refusal: 0, number: 4, other: 8, entry: 12, segments: 16 },
  segment: { size: 24, loaded: 0, address: 4, memorySize: 8, fileSize: 16, flags: 20 },
  loaded: { size: 8, refusal: 0 },
  location: { size: 16, found: 0, distance: 4, length: 8 },
  room: { size: 16, start: 0, bytes: 8 },
  assembled: {
    size: 56, end: 0, entry: 4, bytes: 8, statements: 16, symbols: 24, mistakes: 32, texts: 40,
    room: 48,
  },
  statement: { size: 16, line: 0, address: 8, bytes: 12 },
  symbol: { size: 32, line: 0, name: 8, length: 16, address: 24 },
  mistake: { size: 32, line: 0, column: 8, text: 16, length: 24 },
  name: { size: 20 },
  csrs: {
    size: 72, mstatus: 0, mie: 4, mtvec: 8, mscratch: 12, mepc: 16, mcause: 20, mtval: 24,
    mcountinhibit: 28, mcycle: 32, minstret: 40, profile: 52, user: 56, mcounteren: 60,
  },
  outcome: { size: 12 },
  machineRetired: { size: 112, rd: 44 },
  board: { size: 272, hart: 0, csrs: 136, alarm: 208, time: 216 },
  boardEnd: { size: 16, steps: 0, event: 8, value: 12 },
};

/* The bits of a profile, of a hart and of machine mode, that are Zba to Zicond. */
const BIT_PROFILE = 32 | 64 | 128 | 256 | 512 | 1024;

/* Whether a row is one of these, as rrs.h numbers them. */
const isRowOfBits = (row) => row >= 69 && row <= 107;

/* What the hart of a process has beside the 48 rows, as bits of its profile: extension A, fence.i,
 * loads and stores at misaligned addresses, and Zba to Zicond. */
const PROCESS_PROFILE = 1 | 2 | 4 | BIT_PROFILE;

/* The bit of such a profile that is extension C. */
const COMPRESSED_PROFILE = 8;

/* The bits of a profile of machine mode: extension A, user mode, extension C, and those of Zba to
 * Zicond. */
const PROFILE = { ATOMICS: 1, USER_MODE: 2, COMPRESSED: 4, BITS: BIT_PROFILE };

/* What the hart of the board has, but for extension C. */
const BOARD_PROFILE = PROFILE.ATOMICS | PROFILE.USER_MODE | PROFILE.BITS;

/* The byte of an executable that has the lowest flags, and the one of compressed code. */
const ELF_FLAGS = { at: 36, compressed: 1 };

/* The alarm of a board that has none. */
const NO_BOARD_ALARM = 2n ** 64n - 1n;

/* What a run of a board has for its caller, as rrs.h numbers it. */
const EVENT = {
  NONE: 0,
  TRANSMITTED: 1,
  LOOKED: 2,
  FINISHED: 3,
  WAITS: 4,
  NOTHING_WAKES: 5,
  SPINS: 6,
  LACKS_HANDLER: 7,
  RESTARTS: 8,
};

/* The flags of a segment whose bytes are executed, and of one that is written to. */
const IS_CODE = 1;
const IS_WRITABLE = 2;

/* The most bytes of the name of a function that the page shows. */
const MOST_NAME = 255;

/* Which words of a struct its fields are. */
const wordsOf = (layout) => Object.fromEntries(
  Object.entries(layout).map(([name, offset]) => [name, offset / 4]));
const RETIRED = wordsOf(LAYOUT.retired);

/* A record of a step: the change that takes it back, as the library notes it, and behind it the
 * word that was executed and the value that the register was given, or 0. */
const RECORD = wordsOf({
  ...LAYOUT.change, word: LAYOUT.change.size, rdAfter: LAYOUT.change.size + 4,
});
const RECORD_WORDS = LAYOUT.change.size / 4 + 2;

/* How many of the latest steps have a record at least, and how many of the oldest go at once where
 * there is no more room. One record more is for the step to be made. */
const STEPS_KEPT = 1 << 21;
const STEPS_DROPPED = 1 << 12;
const RECORDS = STEPS_KEPT + STEPS_DROPPED + 1;

/* The kinds of a fault, and of an access, as rrs.h numbers them. */
const FAULT = {
  NONE: 0, ILLEGAL: 1, FETCH: 2, LOAD: 3, STORE: 4, MISALIGNED: 5, ECALL: 6, EBREAK: 7,
};
const ACCESS = { NONE: 0, LOAD: 1, STORE: 2 };

/* How the assembling of a source ends, as rrs.h numbers it. */
const ASSEMBLY = { RIGHT: 0, MISTAKES: 1, SMALL_ROOM: 2, SMALL_BUFFER: 3 };

/* The most bytes that the page's memory may have. */
const MOST_BYTES = 1 << 20;

const PAGE_BYTES = 65536;

/* How many bytes the assembler is lent to work in at first, and at most, and how many times as many
 * where these are too few. */
const FIRST_ROOM = 1 << 20;
const MOST_ROOM = 1 << 29;
const ROOM_GROWTH = 4;

/* The buffers that the assembler fills, in the order of its call: how many bytes one of each has,
 * and how many it holds at first. */
const BUFFERS = {
  bytes: { each: 1, first: MOST_BYTES },
  statements: { each: LAYOUT.statement.size, first: 1 << 12 },
  symbols: { each: LAYOUT.symbol.size, first: 1 << 10 },
  mistakes: { each: LAYOUT.mistake.size, first: 20 },
  texts: { each: 1, first: 1 << 14 },
};

/* What is answered of a source but for its size, where nothing is told of it. */
const NO_PROGRAM = {
  entry: 0, bytes: new Uint8Array(), statements: [], labels: [], mistakes: [],
};

/** Whether this browser can run the module: WebAssembly, with numbers of 64 bits. */
function hasWebAssembly() {
  return typeof WebAssembly === "object" && typeof BigInt64Array === "function";
}

/** Places in the memory of a module, behind what the module uses itself. */
class Places {
  constructor({ memory, __heap_base: heapBase }) {
    this.memory = memory;
    this.next = Number(heapBase.value);
  }

  /** A place for some bytes, at a multiple of 16. */
  of(bytes) {
    const at = Math.ceil(this.next / 16) * 16;
    this.next = at + bytes;
    return at;
  }

  /** Has the memory reach to the end of the last place. Throws a RangeError where it can't. */
  grow() {
    const short = this.next - this.memory.buffer.byteLength;
    if (short > 0) this.memory.grow(Math.ceil(short / PAGE_BYTES));
  }
}

/** The library's calls over one hart and one memory, which lie in the module's own memory. */
class Kit {
  static async load(bytes) {
    const { module, instance } = await WebAssembly.instantiate(bytes, {});
    return new Kit(instance.exports, module);
  }

  constructor(exports, module) {
    this.exports = exports;
    this.module = module;
    this.placeStructs();
    const buffer = exports.memory.buffer;
    this.u32 = new Uint32Array(buffer);
    this.u8 = new Uint8Array(buffer);
    this.x = this.u32.subarray(this.hart / 4, this.hart / 4 + 32);
    this.pcAt = (this.hart + LAYOUT.hart.pc) / 4;
    this.lastAt = (this.hart + LAYOUT.hart.last) / 4;
    this.retiredAt = this.retired / 4;
    this.changeAt = this.change / 4;
    // the address that is reserved
    this.reserved = this.u32.subarray(this.reservation / 4, this.reservation / 4 + 2);
    // the words that half-words stand for, as far as they were asked for
    this.expanded = new Uint32Array(1 << 16);
    this.recordsAt = this.records / 4;
    this.setMemory(0, PAGE_BYTES);
  }

  /** Another kit of the same module, with a memory of its own. */
  apart() {
    return new Kit(new WebAssembly.Instance(this.module, {}).exports, this.module);
  }

  /* Gives each struct a place behind what the module uses, and then the words, a second hart with
   * its words, and the records of steps. */
  placeStructs() {
    const places = new Places(this.exports);
    const structs = ["hart", "fault", "retired", "reservation", "change", "instruction", "access",
      "text", "name", "csrs", "outcome", "machineRetired"];
    for (const name of structs) this[name] = places.of(LAYOUT[name].size);
    this.memory = places.of(MOST_BYTES);
    this.hartCopy = places.of(LAYOUT.hart.size);
    this.memoryCopy = places.of(MOST_BYTES);
    this.records = places.of(4 * RECORD_WORDS * RECORDS);
    places.grow();
    this.addresses = {};
    for (const name of [...structs, "memory"]) this.addresses[name] = BigInt(this[name]);
    const ofCopy = { hart: BigInt(this.hartCopy), memory: BigInt(this.memoryCopy) };
    this.copied = { ...this.addresses, ...ofCopy };
    this.wide = new BigInt64Array(1);
    this.low = new Uint32Array(this.wide.buffer);
  }

  /* The address of a word of the module's memory, as the module takes it. Where a step makes a
   * BigInt of a number, that takes longer than this. */
  addressOf(at) {
    this.low[0] = 4 * at;
    return this.wide[0];
  }

  /** Has `size` bytes of memory from `base` on, both multiples of 4, with what they held. An
   * instruction begins at a multiple of `unit`: 4, or 2 where the hart has extension C. */
  setMemory(base, size, unit = 4) {
    this.base = base;
    this.size = size;
    this.unit = unit;
    this.count = BigInt(size / 4);
    this.words = this.u32.subarray(this.memory / 4, (this.memory + size) / 4);
    this.bytes = this.u8.subarray(this.memory, this.memory + size);
    this.parts = unit === 4 ? this.words : new Uint16Array(this.u8.buffer, this.memory, size / 2);
    this.profile = unit === 4 ? 0 : COMPRESSED_PROFILE;
  }

  get pc() { return this.u32[this.pcAt]; }
  set pc(value) { this.u32[this.pcAt] = value; }
  get last() { return this.u32[this.lastAt]; }
  set last(value) { this.u32[this.lastAt] = value; }

  /** The bits of the instruction at an address, or undefined where none can begin there: a word, or
   * with extension C a half-word, where its low bits are not 11. */
  bitsAt(address) {
    const index = (address - this.base) / this.unit;
    const part = this.parts[index];
    if (this.unit === 4 || (part & 3) !== 3) return part;
    const second = this.parts[index + 1];
    return second === undefined ? undefined : (part | second << 16) >>> 0;
  }

  /** How many bytes an instruction has. */
  sizeOf(bits) {
    return this.unit === 2 && (bits & 3) !== 3 ? 2 : 4;
  }

  /** The word that an instruction is, or that one of 2 bytes stands for; 0 where it is none. */
  wordOf(bits) {
    if (this.sizeOf(bits) === 4) return bits;
    if (this.expanded[bits] === 0) this.expanded[bits] = this.exports.rrs_expand(bits);
    return this.expanded[bits];
  }

  /** Makes a step, and notes in the words from `change` on what takes it back. Returns the kind of
   * its fault, or 0. */
  stepNoted(change) {
    if (this.unit === 2) {
      const bits = this.bitsAt(this.pc);
      if (this.sizeOf(bits) === 2 || this.pc % 4 !== 0) return this.stepByHalves(change, bits);
    }
    const at = this.addresses;
    this.exports.rrs_step_noted(
      at.fault, at.hart, at.memory, this.count, this.base, this.addressOf(change));
    return this.u32[this.fault / 4];
  }

  /* Makes a step of 2 bytes, or at no multiple of 4, and notes what takes it back: the register, and
   * the bytes that a store replaces, as many as its word says. */
  stepByHalves(change, bits) {
    const { u32, x } = this;
    const word = this.wordOf(bits ?? 0);
    this.exports.rrs_decode(this.addresses.instruction, word);
    const field = (offset) => u32[(this.instruction + offset) / 4];
    const { rd: rdAt, rs1, imm } = LAYOUT.instruction;
    const rd = field(rdAt);
    u32[change + RECORD.pc] = this.pc;
    u32[change + RECORD.lastBefore] = this.last;
    u32[change + RECORD.stored] = 0;
    this.noteWritten(change, rd);
    const isStore = (word & 0x7f) === OPCODE.STORE;
    if (isStore) this.noteStore(change, x[field(rs1)] + field(imm) >>> 0, bytesOf(word));
    return this.stepHart(0);
  }

  /** Makes the step at the pc that was noted, and is illegal without Zba to Zicond, where it is of
   * these, and notes its register. Returns the kind of its fault, or 0. */
  stepBits(change) {
    const { row, rd } = this.decode(this.bitsAt(this.pc));
    if (!isRowOfBits(row)) return FAULT.ILLEGAL;
    this.noteWritten(change, rd);
    return this.stepHart(PROCESS_PROFILE);
  }

  /** Notes that a step writes a register, or none by 0. It has its old value yet. */
  noteWritten(change, rd) {
    const { u32, x } = this;
    u32[change + RECORD.rd] = rd;
    u32[change + RECORD.rdBefore] = x[rd];
  }

  /* Notes the bytes that a store replaces, at an address. */
  noteStore(change, address, size) {
    const at = address - this.base;
    let before = 0;
    for (let each = size - 1; each >= 0; each--) before = 256 * before + this.bytes[at + each];
    this.u32[change + RECORD.address] = address;
    this.u32[change + RECORD.stored] = size;
    this.u32[change + RECORD.bytesBefore] = before;
  }

  /** Makes a step of a hart with a profile, and leaves what it retired in `retired`. Returns the kind
   * of its fault, or 0. */
  stepHart(profile, at = this.addresses) {
    this.exports.rrs_step_hart_rvfi(at.fault, at.hart, at.memory, this.count, this.base,
      profile | this.profile, at.reservation, 0n, at.retired);
    return this.u32[this.fault / 4];
  }

  /** The load or the store of what is in `retired`: its address, its value, and the masks of its
   * bytes. Where it is both, the value is that which was stored. */
  get accessRetired() {
    const read = (field) => this.u32[this.retiredAt + RETIRED[field]];
    const [address, readMask, writeMask] = ["memoryAddress", "readMask", "writeMask"].map(read);
    const value = read(writeMask ? "writtenValue" : "readValue");
    return { address, value, readMask, writeMask };
  }

  /** Makes a step of a hart with machine mode, at a time, where some interrupts are pending. Returns how
   * it ended. */
  stepMachine(pending, time) {
    const at = this.addresses;
    this.exports.rrs_machine_step(at.outcome, at.hart, at.csrs, at.memory, this.count, this.base,
      pending, BigInt(time), 0n, at.machineRetired);
    return this.u32[this.outcome / 4];
  }

  /** Takes the change in the words from `change` on back, in the hart and the words at addresses. */
  undo(change, at) {
    this.exports.rrs_undo(at.hart, at.memory, this.count, this.base, this.addressOf(change));
  }

  /** The words of a change that takes back what the page is about to write itself into a register. */
  noteRegister(register) {
    return [this.pc, this.last, register, this.x[register], 0, 0, 0];
  }

  /** The words of a change that takes back what it is about to write into the word at an address. */
  noteWord(address) {
    const start = address - address % 4;
    return [this.pc, this.last, 0, 0, start, 4, this.words[(start - this.base) / 4]];
  }

  /** Takes a change back that is given as its words. */
  undoWords(words, at) {
    this.u32.set(words, this.changeAt);
    this.undo(this.changeAt, at);
  }

  /** Copies the hart and the words to where `copied` is. */
  copyState() {
    this.u8.copyWithin(this.hartCopy, this.hart, this.hart + LAYOUT.hart.size);
    this.u8.copyWithin(this.memoryCopy, this.memory, this.memory + this.size);
  }

  /** The fault that the latest call told. */
  readFault() {
    const at = this.fault / 4;
    return { kind: this.u32[at], address: this.u32[at + 1], word: this.u32[at + 2] };
  }

  /** The load or the store that the instruction at the pc makes. Nothing changes. */
  request(bits) {
    const { access, hart } = this.addresses;
    this.atWord(() => this.exports.rrs_request(access, hart, this.wordOf(bits)));
    const read = (offset) => this.u32[(this.access + offset) / 4];
    const { kind, address, bytes, value } = LAYOUT.access;
    return { kind: read(kind), address: read(address), bytes: read(bytes), value: read(value) };
  }

  /** Executes the load or the store at the pc, whose access was made; a load has read `value`. */
  complete(bits, value) {
    const { fault, hart } = this.addresses;
    this.atWord(() => this.exports.rrs_complete(fault, hart, this.wordOf(bits), 1, value));
    this.pc += this.sizeOf(bits);
  }

  /* Has a load or a store carried out as one at a multiple of 4, since the two calls have no other.
   * The pc stays. */
  atWord(carryOut) {
    const { pc } = this;
    this.pc -= pc % 4;
    carryOut();
    this.pc = pc;
  }

  /** The number of the row of an instruction, 1 to 48, one above the table, or 0. */
  rowOf(bits) {
    this.exports.rrs_decode(this.addresses.instruction, this.wordOf(bits));
    return this.u32[(this.instruction + LAYOUT.instruction.row) / 4];
  }

  /** The number of the row of an instruction, and its fields: registers, shift amount, and immediate,
   * which is signed. */
  decode(bits) {
    const row = this.rowOf(bits);
    const { rd, rs1, rs2, shamt, imm } = LAYOUT.instruction;
    const read = (offset) => this.u32[(this.instruction + offset) / 4];
    return {
      row, rd: read(rd), rs1: read(rs1), rs2: read(rs2), shamt: read(shamt), imm: read(imm) | 0,
    };
  }

  /** Whether an instruction is one of Zba to Zicond. */
  isOfBits(bits) {
    return isRowOfBits(this.rowOf(bits));
  }

  /** The text of an instruction at an address, or "" for an illegal one. */
  disassemble(bits, pc) {
    const room = BigInt(LAYOUT.text.size);
    const length = Number(
      this.exports.rrs_disassemble_hart(bits, pc, this.profile, this.addresses.text, room));
    return String.fromCharCode(...this.u8.subarray(this.text, this.text + length));
  }

  /** The names of the instructions, in the order of the table, and of those above it. */
  instructionNames() {
    const names = [];
    for (let row = 1; ; row++) {
      const room = BigInt(LAYOUT.name.size);
      const length = Number(this.exports.rrs_row_name(row, this.addresses.name, room));
      if (length === 0) return names;
      names.push(String.fromCharCode(...this.u8.subarray(this.name, this.name + length)));
    }
  }

  /** Assembles a text from an address on, as `Assembler` does. Where that takes more room to work in
   * than is allowed, or than there is, it answers null, and what the assembler had is let go. */
  assemble(text, start, mostRoom = MOST_ROOM) {
    try {
      this.assembler ??= new Assembler(new WebAssembly.Instance(this.module, {}).exports);
      return this.assembler.assemble(new TextEncoder().encode(text), start, mostRoom);
    } catch (error) {
      if (!(error instanceof RangeError)) throw error;
      this.assembler = undefined;
      return null;
    }
  }
}

/** The library's assembler, in a module of its own. The memory of that module can grow, since each
 * call makes the views of it anew. */
class Assembler {
  constructor(exports) {
    Object.assign(this, { exports, room: FIRST_ROOM, decoder: new TextDecoder() });
    this.holds = Object.fromEntries(
      Object.entries(BUFFERS).map(([name, { first }]) => [name, first]));
  }

  /** Assembles a source, which is bytes, from an address on. Answers what the library tells, with
   * columns in bytes: `{ size, entry, bytes, statements, labels, mistakes }`. Where a program has
   * more bytes than a memory its size is all. Throws a RangeError where there is too little room. */
  assemble(source, start, mostRoom) {
    for (;;) {
      const told = this.call(source, start, Math.min(this.room, mostRoom));
      if (told.bytes > MOST_BYTES) return { ...NO_PROGRAM, size: told.bytes };
      if (told.end === ASSEMBLY.SMALL_ROOM) this.growRoom(told.room, mostRoom);
      else if (told.end === ASSEMBLY.SMALL_BUFFER) this.growBuffers(told);
      else return this.made(told);
    }
  }

  growRoom(wanted, mostRoom) {
    if (this.room >= mostRoom) throw new RangeError("the room is as large as it may be");
    this.room = Math.min(Math.max(wanted, ROOM_GROWTH * this.room), mostRoom);
  }

  growBuffers(told) {
    for (const [name, count] of Object.entries(this.holds)) {
      if (told[name] > count) this.holds[name] = Math.max(told[name], 2 * count);
    }
  }

  /* Calls the library with room of some bytes, and buffers as large as they are now. */
  call(source, start, size) {
    const places = new Places(this.exports);
    const [assembled, room, given, lent] =
      [LAYOUT.assembled.size, LAYOUT.room.size, source.length, size].map(
        (bytes) => places.of(bytes));
    this.at = {};
    for (const [name, { each }] of Object.entries(BUFFERS)) {
      this.at[name] = places.of(each * this.holds[name]);
    }
    places.grow();
    const { buffer } = this.exports.memory;
    [this.u8, this.u32] = [new Uint8Array(buffer), new Uint32Array(buffer)];
    this.u8.set(source, given);
    const view = new DataView(buffer, room);
    view.setBigUint64(LAYOUT.room.start, BigInt(lent), true);
    view.setBigUint64(LAYOUT.room.bytes, BigInt(size), true);
    const buffers = Object.keys(BUFFERS).flatMap((name) => [this.at[name], this.holds[name]]);
    this.exports.rrs_assemble(BigInt(assembled), BigInt(given), BigInt(source.length), start,
      ...[room, ...buffers].map(BigInt));
    return this.told(assembled);
  }

  /* What the struct at an address says. */
  told(at) {
    const { size, end, entry, ...counts } = LAYOUT.assembled;
    const word = (offset) => this.u32[(at + offset) / 4];
    const told = { end: word(end), entry: word(entry) };
    for (const [name, offset] of Object.entries(counts)) {
      told[name] = word(offset) + 2 ** 32 * word(offset + 4);
    }
    return told;
  }

  /* What stands in the buffers. */
  made({ entry, bytes, statements, symbols, mistakes }) {
    const { at } = this;
    return {
      size: bytes,
      entry,
      bytes: this.u8.slice(at.bytes, at.bytes + bytes),
      statements: this.rows("statement", at.statements, statements)
        .map(({ line, address, bytes: size }) => ({ line, address, size })),
      labels: this.rows("symbol", at.symbols, symbols)
        .map(({ line, name, length, address }) =>
          ({ line, name: this.textAt(name, length), address })),
      mistakes: this.rows("mistake", at.mistakes, mistakes)
        .map(({ line, column, text, length }) =>
          ({ line, column, text: this.textAt(text, length) })),
    };
  }

  /* The structs of a buffer, by the fields that they have. */
  rows(name, at, count) {
    const { size, ...offsets } = LAYOUT[name];
    const fields = Object.entries(wordsOf(offsets));
    return Array.from({ length: count }, (_, index) => {
      const row = {};
      for (const [field, word] of fields) row[field] = this.u32[(at + index * size) / 4 + word];
      return row;
    });
  }

  textAt(start, length) {
    const first = this.at.texts + start;
    return this.decoder.decode(this.u8.subarray(first, first + length));
  }
}

/** The library's calls over a board, which lies with its RAM in the memory of a module of its own. */
class BoardKit {
  constructor(module, ramBytes) {
    const { exports } = new WebAssembly.Instance(module, {});
    this.exports = exports;
    const places = new Places(exports);
    for (const name of ["board", "boardEnd", "loaded", "text"]) {
      this[name] = places.of(LAYOUT[name].size);
    }
    this.ram = places.of(ramBytes);
    this.places = places;
    this.count = BigInt(ramBytes / 4);
    this.view(ramBytes);
  }

  /* Makes the views of the memory, which has reached to the last place. */
  view(ramBytes) {
    this.places.grow();
    const { buffer } = this.exports.memory;
    const { hart, csrs, alarm } = LAYOUT.board;
    const words = (at, count) => new Uint32Array(buffer, this.board + at, count);
    this.data = new DataView(buffer);
    this.bytes = new Uint8Array(buffer, this.ram, ramBytes);
    this.words = new Uint32Array(buffer, this.ram, ramBytes / 4);
    this.x = words(hart + LAYOUT.hart.x, 32);
    this.pcs = words(hart + LAYOUT.hart.pc, 1);
    this.csrs = words(csrs, LAYOUT.csrs.size / 4);
    this.times = new BigUint64Array(buffer, this.board + alarm, 2);
  }

  get pc() { return this.pcs[0]; }

  /** The time from which on the timer's interrupt is pending, or Infinity where there is none. */
  get alarm() {
    return this.times[0] === NO_BOARD_ALARM ? Infinity : Number(this.times[0]);
  }

  get time() { return Number(this.times[1]); }

  /** Has the board at reset, with all of RAM 0, at an address. */
  reset(pc) {
    this.bytes.fill(0);
    this.exports.rrs_board_reset(BigInt(this.board), BOARD_PROFILE, pc);
  }

  /** Whether the hart has extension C. */
  get hasCompressed() {
    return (this.csrs[LAYOUT.csrs.profile / 4] & PROFILE.COMPRESSED) !== 0;
  }

  set hasCompressed(has) {
    this.csrs[LAYOUT.csrs.profile / 4] = BOARD_PROFILE | (has ? PROFILE.COMPRESSED : 0);
  }

  /** Puts the segments of an executable into RAM, each at its physical address, and the hart at the
   * entry. The hart has extension C where the file has compressed code. Returns whether all of them
   * lie in it; if not, the hart stays as it is. */
  loadElf(file) {
    const at = this.places.of(file.length);
    this.view(this.bytes.length);
    const hadCompressed = this.hasCompressed;
    this.hasCompressed = (file[ELF_FLAGS.at] & ELF_FLAGS.compressed) !== 0;
    new Uint8Array(this.exports.memory.buffer, at, file.length).set(file);
    this.exports.rrs_board_load(BigInt(this.loaded), BigInt(this.board), BigInt(at),
      BigInt(file.length), BigInt(this.ram), this.count);
    this.places.next = at;
    const isLoaded = this.data.getUint32(this.loaded + LAYOUT.loaded.refusal, true) === 0;
    if (!isLoaded) this.hasCompressed = hadCompressed;
    return isLoaded;
  }

  /** Makes steps until `limit` were made, or a device has something for the caller: `{ steps, event,
   * value }`. */
  run(limit) {
    this.exports.rrs_board_run(
      BigInt(this.boardEnd), BigInt(this.board), BigInt(this.ram), this.count, BigInt(limit));
    const { steps, event, value } = LAYOUT.boardEnd;
    const word = (offset) => this.data.getUint32(this.boardEnd + offset, true);
    return { steps: word(steps) + 2 ** 32 * word(steps + 4), event: word(event), value: word(value) };
  }

  /** Hands the UART a byte. Returns whether it took it: it holds one at a time. */
  receive(byte) {
    return this.exports.rrs_board_receive(BigInt(this.board), byte) !== 0;
  }

  /** Whether the UART asks for received data, and holds none. */
  get waitsForInput() {
    return this.exports.rrs_board_waits_for_input(BigInt(this.board)) !== 0;
  }

  /** The text of the instruction at an address, which lies `offset` bytes behind the start of RAM, or
   * "" where there is none. */
  textAt(offset, pc) {
    const isThere = offset >= 0 && offset + 4 <= this.bytes.length;
    if (!isThere || offset % (this.hasCompressed ? 2 : 4) !== 0) return "";
    const profile = this.hasCompressed ? COMPRESSED_PROFILE : 0;
    const length = Number(this.exports.rrs_disassemble_hart(
      this.data.getUint32(this.ram + offset, true), pc, profile, BigInt(this.text),
      BigInt(LAYOUT.text.size)));
    const letters = new Uint8Array(this.exports.memory.buffer, this.text, length);
    return String.fromCharCode(...letters);
  }
}

/** A file that may be an executable in the ELF format, as the library reads it. It lies in the
 * memory of a module of its own, and goes with it. */
class ElfFile {
  static async of(kit, bytes) {
    const { exports } = await WebAssembly.instantiate(kit.module, {});
    return new ElfFile(exports, bytes);
  }

  constructor(exports, bytes) {
    this.exports = exports;
    const places = new Places(exports);
    for (const name of ["elf", "segment", "loaded", "location"]) {
      this[name] = places.of(LAYOUT[name].size);
    }
    [this.name, this.words, this.file] =
      [MOST_NAME + 1, MOST_BYTES, bytes.length].map((size) => places.of(size));
    places.grow();
    this.u32 = new Uint32Array(exports.memory.buffer);
    this.u8 = new Uint8Array(exports.memory.buffer);
    this.u8.set(bytes, this.file);
    this.given = [BigInt(this.file), BigInt(bytes.length)];
    this.hasCompressed = (bytes[ELF_FLAGS.at] & ELF_FLAGS.compressed) !== 0;
    this.profile = this.hasCompressed ? COMPRESSED_PROFILE : 0;
    exports.rrs_elf_parse_hart(BigInt(this.elf), ...this.given, this.profile);
    const { refusal, number, other, entry } = this.read("elf");
    Object.assign(this, { refusal, number, other, entry });
  }

  /* The fields of a struct that a call has written. */
  read(name) {
    const { size, ...offsets } = LAYOUT[name];
    return Object.fromEntries(Object.entries(offsets).map(
      ([field, offset]) => [field, this.u32[(this[name] + offset) / 4]]));
  }

  /** The segments that are loaded. */
  segments() {
    const all = Array.from({ length: this.read("elf").segments }, (_, index) => {
      this.exports.rrs_elf_segment(BigInt(this.segment), ...this.given, index);
      return this.read("segment");
    });
    return all.filter(({ loaded }) => loaded);
  }

  /** The words of `count`, at most MOST_BYTES / 4, from `base` on, with the segments in them, or
   * null where one is not within them. */
  load(base, count) {
    const words = this.u32.subarray(this.words / 4, this.words / 4 + count).fill(0);
    this.exports.rrs_elf_load_hart(
      BigInt(this.loaded), ...this.given, BigInt(this.words), BigInt(count), base, this.profile);
    return this.read("loaded").refusal === 0 ? words : null;
  }

  /** The name of the function or label that an address lies in or behind, "" where it is too long,
   * and how far behind its first address; or null where there is none. */
  functionAt(address) {
    const room = BigInt(MOST_NAME + 1);
    this.exports.rrs_elf_function_at(
      BigInt(this.location), ...this.given, address, BigInt(this.name), room);
    const { found, distance, length } = this.read("location");
    if (found === 0) return null;
    const end = length > MOST_NAME ? this.name : this.name + length;
    return { distance, name: String.fromCharCode(...this.u8.subarray(this.name, end)) };
  }
}
