"use strict";

// What a program prints and reads: the console of its system calls, and the port.

/* The address of the port, of one byte: a byte stored there is printed, and reads back. */
const PORT_ADDRESS = 0x10000000;

/* How many printed bytes are kept. Others are counted. */
const OUTPUT_ROOM = 1 << 20;

/* The most bytes of one read of the terminal, as of the reads that `rrs exec` makes. */
const MOST_READ = 256;

/** The bytes that were printed, those that were typed, and the port's own byte. */
class Terminal {
  constructor() {
    this.reset();
  }

  /** As it is before a program starts: nothing printed, nothing typed. */
  reset() {
    this.output = new Uint8Array(1024);
    this.printed = 0;
    this.lost = 0;
    this.input = [];
    this.held = 0;
    this.taken = 0;
    this.isClosed = false;
    this.port = 0;
  }

  /** Prints bytes, and counts those for which there is no more room. */
  print(bytes) {
    const kept = bytes.subarray(0, OUTPUT_ROOM - this.printed);
    const end = this.printed + kept.length;
    if (end > this.output.length) {
      const longer = new Uint8Array(Math.max(end, 2 * this.output.length));
      longer.set(this.output);
      this.output = longer;
    }
    this.output.set(kept, this.printed);
    this.printed = end;
    this.lost += bytes.length - kept.length;
  }

  /** A byte is stored to the port. */
  storeToPort(byte) {
    this.port = byte;
    this.print(Uint8Array.of(byte));
  }

  /** Adds typed text behind what was typed before. */
  type(text) {
    for (const byte of new TextEncoder().encode(text)) this.input.push(byte);
  }

  /** Says that nothing more will be typed: a program that reads then gets 0 bytes. */
  close() {
    this.isClosed = true;
  }

  /** Whether a program that reads has to wait. */
  get isEmpty() {
    return this.taken === this.input.length && !this.isClosed;
  }

  /** The bytes that were read and not taken. Where there are none it reads once: `most` bytes and
   * one line at most. */
  read(most) {
    if (this.held === this.taken) {
      const last = Math.min(this.input.length, this.taken + Math.min(most, MOST_READ));
      while (this.held < last && this.input[this.held++] !== 10);
    }
    return this.input.slice(this.taken, this.held);
  }

  /** Whether no input will come any more. */
  get isEmptyForGood() {
    return this.taken === this.input.length && this.isClosed;
  }

  /** Takes some bytes of the input. */
  takeBytes(count) {
    const bytes = this.input.slice(this.taken, this.taken + count);
    this.held = this.taken += bytes.length;
    return bytes;
  }

  /** Takes a line of the input with its end, or what is left of it, as bytes. */
  takeLine() {
    const end = this.input.indexOf(10, this.taken);
    const count = (end < 0 ? this.input.length : end + 1) - this.taken;
    return Uint8Array.from(this.takeBytes(count));
  }

  /** What a step may change, for `restore`. */
  mark() {
    const { printed, lost, held, taken, port } = this;
    return { printed, lost, held, taken, port };
  }

  /** Takes back what happened since a mark. */
  restore(mark) {
    Object.assign(this, mark);
  }

  /** What was printed as text, its last `most` bytes. A letter that they cut is left out. */
  text(most) {
    let from = Math.max(0, this.printed - most);
    const uncut = from === 0 ? 0 : Math.min(from + 3, this.printed);
    while (from < uncut && (this.output[from] & 0xc0) === 0x80) from++;
    // a byte order mark was printed like each other letter
    const decoder = new TextDecoder("utf-8", { ignoreBOM: true });
    return decoder.decode(this.output.subarray(from, this.printed));
  }
}
