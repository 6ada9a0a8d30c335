"use strict";

// A board that boots an operating system: a hart with machine mode and user mode, RAM, a finisher, a
// CLINT and a UART (docs/BOARD.md). The library makes each run. What stands here is how the board
// starts, which typed byte the UART is handed and when, and how long a hart that waits is let wait.
// Nothing here knows the page.

const RAM_START = 0x80000000;
const RAM_BYTES = 32 << 20;

/* The bytes of RAM at its end that the device tree is put into. */
const TREE_ROOM = 1 << 16;

/* The arguments for a kernel: its console is the UART. */
const ARGUMENTS = "earlycon=uart8250,mmio,0x10000000 console=ttyS0";

/* How often the time of the board grows in a second, as the device tree says. */
const TIMEBASE = 10_000_000;

/* How long a slice of a run lasts, in milliseconds, how many steps it has at most, and how many are
 * asked for at once. */
const BOARD_SLICE_MS = 30;
const BOARD_SLICE_STEPS = 1 << 22;
const BOARD_STEPS = 1 << 18;

/* How many steps are asked for at once where each is looked at, for a breakpoint, and how many are
 * made again at most to find the first trap. */
const WATCHED_STEPS = 1 << 14;
const MOST_AGAIN = 1 << 22;

/* How many lines of the terminal are kept. */
const LINES_KEPT = 2000;

/* ---- the device tree (Devicetree Specification 0.4, "Flattened Devicetree (DTB) Format") */

const TREE = { MAGIC: 0xd00dfeed, BEGIN: 1, END: 2, PROPERTY: 3, LAST: 9, VERSION: 17, OLDEST: 16 };

/* How many bytes are before the structure: the header, and a list of no reserved places. */
const TREE_HEADER = 40;
const TREE_STRUCTURE = 56;

/* The nodes: each has its name, its properties, and the nodes in it. A property is a text, numbers,
 * or nothing. */
const hartNode = (hasCompressed) => ["cpu@0", {
  device_type: "cpu", reg: [0], status: "okay", compatible: "riscv",
  "riscv,isa": hasCompressed ? "rv32imac" : "rv32ima",
}, [["interrupt-controller", {
  "#interrupt-cells": [1], "interrupt-controller": [], compatible: "riscv,cpu-intc", phandle: [1],
}, []]]];
const DEVICE_NODES = [
  ["clint@2000000", {
    compatible: "sifive,clint0\0riscv,clint0", reg: [0x2000000, 0x10000],
    "interrupts-extended": [1, 3, 1, 7],
  }, []],
  ["serial@10000000", {
    compatible: "ns16550a", reg: [0x10000000, 0x100], "clock-frequency": [3686400],
  }, []],
  ["test@100000", {
    compatible: "sifive,test1\0sifive,test0\0syscon", reg: [0x100000, 0x1000], phandle: [2],
  }, []],
  ["poweroff", {
    compatible: "syscon-poweroff", regmap: [2], offset: [0], value: [0x5555],
  }, []],
];

/** The device tree of a board with so many bytes of RAM, as `rrs board` hands it over, whose hart has
 * extension C or not. */
function deviceTree(ramBytes, hasCompressed) {
  const cells = { "#address-cells": [1], "#size-cells": [1] };
  const [structure, names] = [[], []];
  putNode(structure, names, ["", { ...cells, compatible: "riscv-virtio", model: "rrs board" }, [
    ["chosen", { "stdout-path": "/soc/serial@10000000", bootargs: ARGUMENTS }, []],
    ["memory@80000000", { device_type: "memory", reg: [RAM_START, ramBytes] }, []],
    ["cpus", {
      "#address-cells": [1], "#size-cells": [0], "timebase-frequency": [TIMEBASE],
    }, [hartNode(hasCompressed)]],
    ["soc", { ...cells, compatible: "simple-bus", ranges: [] }, DEVICE_NODES],
  ]]);
  structure.push(...numberBytes(TREE.LAST));
  const namesFrom = TREE_STRUCTURE + structure.length;
  const header = [TREE.MAGIC, namesFrom + names.length, TREE_STRUCTURE, namesFrom, TREE_HEADER,
    TREE.VERSION, TREE.OLDEST, 0, names.length, structure.length, 0, 0, 0, 0];
  return Uint8Array.from([...header.flatMap(numberBytes), ...structure, ...names]);
}

/* A number as four bytes, the highest first. */
function numberBytes(number) {
  return [24, 16, 8, 0].map((shift) => number >>> shift & 0xff);
}

/* A text as bytes, with a 0 behind it. */
function textBytes(text) {
  return [...new TextEncoder().encode(text), 0];
}

/* Bytes, and zeros up to a multiple of 4. */
function padded(bytes) {
  return [...bytes, ...new Array((4 - bytes.length % 4) % 4).fill(0)];
}

/* Appends a node to the structure, and the names of its properties to the names. */
function putNode(structure, names, [name, properties, nodes]) {
  structure.push(...numberBytes(TREE.BEGIN), ...padded(textBytes(name)));
  for (const [property, value] of Object.entries(properties)) {
    const bytes = typeof value === "string" ? textBytes(value) : value.flatMap(numberBytes);
    const head = [TREE.PROPERTY, bytes.length, names.length];
    structure.push(...head.flatMap(numberBytes), ...padded(bytes));
    names.push(...textBytes(property));
  }
  for (const node of nodes) putNode(structure, names, node);
  structure.push(...numberBytes(TREE.END));
}

/* ---- the images */

/* Where a kernel's image has the word by which it is known ("Boot image header in RISC-V Linux"). */
const KERNEL_MAGIC = { at: 56, bytes: [0x52, 0x53, 0x43, 0x05] };

/** Whether a file is an image for the board: a kernel of Linux, or an executable that starts in RAM. */
function isBoardImage(bytes) {
  if (KERNEL_MAGIC.bytes.every((byte, index) => bytes[KERNEL_MAGIC.at + index] === byte)) return true;
  if (!isElf(bytes) || bytes.length < 28) return false;
  const entry = new DataView(bytes.buffer, bytes.byteOffset).getUint32(24, true);
  return entry >= RAM_START;
}

/* ---- the terminal */

/** What was printed, as a terminal shows it: lines, of which the last may not have ended. */
class Screen {
  constructor() {
    this.clear();
  }

  clear() {
    Object.assign(this, { lines: [""], column: 0, escape: "", decoder: new TextDecoder() });
  }

  /** Prints bytes. */
  print(bytes) {
    for (const letter of this.decoder.decode(Uint8Array.from(bytes), { stream: true })) {
      if (this.escape !== "" || letter === "\x1b") this.followEscape(letter);
      else if (letter < " " || letter === "\x7f") this.control(letter);
      else this.put(letter);
    }
    if (this.lines.length > LINES_KEPT) this.lines.splice(0, this.lines.length - LINES_KEPT);
  }

  /* Puts a letter where the cursor is. */
  put(letter) {
    const at = this.lines.length - 1;
    const line = this.lines[at].padEnd(this.column);
    this.lines[at] = line.slice(0, this.column) + letter + line.slice(this.column + 1);
    this.column++;
  }

  control(letter) {
    if (letter === "\n") this.lines.push("");
    if (letter === "\n" || letter === "\r") this.column = 0;
    if (letter === "\b") this.column = Math.max(0, this.column - 1);
    if (letter === "\t") this.column = Math.floor(this.column / 8) * 8 + 8;
  }

  /* Follows a sequence that begins with an escape, up to its last letter. Of these only that acts
   * which erases to the end of the line. */
  followEscape(letter) {
    this.escape += letter;
    const isWhole = /^\x1b(\[[0-?]*[ -/]*[@-~]|[^[])$/.test(this.escape);
    if (!isWhole) return;
    if (/^\x1b\[0?K$/.test(this.escape)) {
      const at = this.lines.length - 1;
      this.lines[at] = this.lines[at].slice(0, this.column);
    }
    this.escape = "";
  }

  get text() {
    return this.lines.join("\n");
  }
}

/* ---- the board */

/* What is said of a board that does not go on, by what ended its run. */
const BOARD_ENDS = {
  [EVENT.FINISHED]: (status) => `It was powered off, with status ${status}.`,
  [EVENT.NOTHING_WAKES]: () => "It waits, and nothing can wake it.",
  [EVENT.SPINS]: () => "It jumps to itself, and no interrupt can be taken.",
  [EVENT.RESTARTS]: () => "It asked to be started anew.",
};

/** A board with an image, and what is typed into it. */
class Board {
  constructor(module) {
    Object.assign(this, { module, screen: new Screen(), onChange: () => {}, turn: 0 });
    this.stops = new Set();
  }

  /** Opens an image: an executable, or raw bytes, which stand at the start of RAM. Returns "", or why
   * it can't be; then what was open stays. */
  open(name, bytes) {
    if (bytes.length > RAM_BYTES - TREE_ROOM) {
      return `It has ${numbered(bytes.length)} bytes, and RAM has ${numbered(RAM_BYTES - TREE_ROOM)}.`;
    }
    this.kit ??= new BoardKit(this.module, RAM_BYTES);
    this.pause();
    if (isElf(bytes) && !this.kit.loadElf(bytes)) {
      return `It is no executable that lies within RAM, from ${hex(RAM_START)} on.`;
    }
    Object.assign(this, { name, image: bytes });
    this.reset();
    return "";
  }

  /** Has the board as it starts: RAM with the image and the device tree, and nothing printed. */
  reset() {
    this.pause();
    this.start();
    Object.assign(this, {
      steps: 0, typed: [], handed: 0, ending: "", isAtStop: false, isWaiting: false, milliseconds: 0,
    });
    this.screen.clear();
    this.onChange();
  }

  /* Has the hart and RAM as they start. Raw bytes have no flags that tell of compressed code, so their
   * hart has extension C: other code runs the same on it. */
  start() {
    const { kit, image } = this;
    kit.reset(RAM_START);
    kit.hasCompressed = true;
    if (isElf(image)) kit.loadElf(image);
    else kit.bytes.set(image);
    kit.bytes.set(deviceTree(RAM_BYTES, kit.hasCompressed), RAM_BYTES - TREE_ROOM);
    kit.x[11] = RAM_START + RAM_BYTES - TREE_ROOM;
  }

  /** For how many milliseconds it has run. */
  get running() {
    return this.milliseconds + (this.isRunning ? performance.now() - this.begun : 0);
  }

  /** Types bytes. They are handed over one at a time, as the program looks for them. */
  type(bytes) {
    this.typed.push(...bytes);
    if (this.isWaiting) this.wake();
  }

  /** Runs the board, until it ends or is paused. */
  run() {
    if (this.isRunning || this.ending !== "") return;
    Object.assign(this, { isRunning: true, isAtStop: false });
    // from now on the time of the board goes no faster than that of the host where a hart waits
    this.timeAtStart = this.kit.time;
    this.begun = performance.now();
    this.makeSlice(++this.turn);
    this.onChange();
  }

  pause() {
    this.turn++;
    if (this.isRunning) this.milliseconds += performance.now() - this.begun;
    Object.assign(this, { isRunning: false, isWaiting: false });
    this.onChange();
  }

  /** Makes one step. */
  step() {
    this.pause();
    this.isAtStop = false;
    if (this.ending === "") this.serve(this.kit.run(1));
    this.onChange();
  }

  /* Makes steps up to an event or a breakpoint, where some are set, each of which is looked at. */
  makeSteps() {
    const { kit, stops } = this;
    if (stops.size === 0) return kit.run(BOARD_STEPS);
    let steps = 0;
    while (steps < WATCHED_STEPS) {
      const end = kit.run(1);
      steps += end.steps;
      if (end.event !== EVENT.NONE) return { ...end, steps };
      this.isAtStop = stops.has(kit.pc);
      if (this.isAtStop) break;
    }
    return { steps, event: EVENT.NONE, value: 0 };
  }

  /* Makes steps for some milliseconds, and sets the next slice for later. */
  makeSlice(turn) {
    if (turn !== this.turn) return;
    const end = performance.now() + BOARD_SLICE_MS;
    const most = this.steps + BOARD_SLICE_STEPS;
    let wait = 0;
    do {
      wait = this.serveRun();
    } while (wait === 0 && !this.isOver && this.steps < most && performance.now() < end);
    if (this.isOver) this.pause();
    else if (wait !== Infinity) setTimeout(() => this.makeSlice(turn), wait);
    this.onChange();
  }

  /* Whether a run ends here: the board has ended, or is at a breakpoint. */
  get isOver() {
    return this.ending !== "" || this.isAtStop;
  }

  /* Makes steps, and serves what they have ended with. Where none of many retired, each took a trap
   * that leads to the next: so it is for ever. */
  serveRun() {
    const { time } = this.kit;
    const end = this.makeSteps();
    const wait = this.serve(end);
    const isStuck = end.event === EVENT.NONE && end.steps >= WATCHED_STEPS && this.kit.time === time;
    if (isStuck) this.ending = `It traps for ever, in its own handler: ${this.trapTold()}`;
    return wait;
  }

  /* What the latest trap was, by the CSRs, as `illegal instruction at 0x80000000.` */
  trapTold() {
    const { csrs } = this.kit;
    return `${CAUSES[csrs[CSR.mcause]] ?? "a trap"} at ${hex(csrs[CSR.mepc])}.`;
  }

  /* Why the board has no handler that can be fetched: where mtvec points, and the trap that went
   * there. Its CSRs tell of the fetch there, so the steps before it are made again, if nothing was
   * typed that would have to be typed again. */
  lacksHandler() {
    const { kit, steps } = this;
    const where = `A trap went to where mtvec points, ${hex(kit.csrs[CSR.mtvec])}, and no memory is there`;
    if (this.handed > 0 || steps < 2 || steps > MOST_AGAIN) return `${where}.`;
    this.start();
    for (let made = 0; made < steps - 1;) made += kit.run(steps - 1 - made).steps;
    const first = this.trapTold();
    kit.run(1);
    return `${where}: ${first}`;
  }

  /* Goes on where the hart waited for what was just typed. */
  wake() {
    this.isWaiting = false;
    this.hand();
    if (this.isRunning) this.makeSlice(this.turn);
  }

  /* Serves what a run has ended with. Returns for how many milliseconds the hart is to wait. */
  serve({ steps, event, value }) {
    this.steps += steps;
    switch (event) {
      case EVENT.TRANSMITTED:
        this.screen.print([value]);
        return 0;
      case EVENT.LOOKED:
        this.hand();
        return 0;
      case EVENT.WAITS:
        return this.ahead;
      case EVENT.NOTHING_WAKES:
        return this.waitForInput();
      case EVENT.FINISHED:
      case EVENT.SPINS:
      case EVENT.RESTARTS:
        this.ending = BOARD_ENDS[event](value);
        return 0;
      case EVENT.LACKS_HANDLER:
        this.ending = this.lacksHandler();
        return 0;
      default:
        return 0;
    }
  }

  /* Hands the UART the next typed byte, if there is one and it takes it. */
  hand() {
    if (this.typed.length > 0 && this.kit.receive(this.typed[0])) this.handed += this.typed.splice(0, 1).length;
  }

  /* A wait that a typed byte alone can end, or nothing. */
  waitForInput() {
    if (!this.kit.waitsForInput) {
      this.ending = BOARD_ENDS[EVENT.NOTHING_WAKES]();
      return 0;
    }
    if (this.typed.length > 0) {
      this.hand();
      return 0;
    }
    this.isWaiting = true;
    return Infinity;
  }

  /* For how many milliseconds the time of the board is ahead of that of the host. */
  get ahead() {
    const passed = (this.kit.time - this.timeAtStart) / TIMEBASE * 1000;
    return Math.max(0, passed - (performance.now() - this.begun));
  }
}
