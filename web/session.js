"use strict";

// A program that is open, and what is done with it. Nothing here knows the page.

/* What stands in `stops` for a word: a breakpoint, the line to run to, where a call returns to, or
 * several of these. */
const STOP = { BREAKPOINT: 1, LINE: 2, RETURN: 4 };

/* How many steps a second can be chosen, slowest first. */
const SPEEDS = [1, 4, 16, 64, 256, 4096, Infinity];

/* How long a slice of a run lasts, in milliseconds. The page answers between two. */
const SLICE_MS = 20;
const SLICE_STEPS = 4096;

/* How long a run with a pace waits at least between two slices, and the longest time whose steps are
 * made up for. */
const SHORTEST_WAIT_MS = 16;
const LONGEST_SLEEP_MS = 500;

/* How long a call that waits has a run wait at most. */
const LONGEST_CALL_MS = 60000;

const LARGEST_BASE = 2 ** 32 - MOST_BYTES;
const SIZES = [1 << 16, 1 << 18, 1 << 20];

/* The memories that can be chosen: their sizes, and whether sp starts at their ends. */
const PRESETS = [
  { name: "64 KiB, as rrs run has", size: 1 << 16, hasStack: false },
  { name: "1 MiB, sp at its end, as rrs exec has", size: 1 << 20, hasStack: true },
  { name: "64 KiB, sp at its end", size: 1 << 16, hasStack: true },
  { name: "as RARS has it: data at 0x10010000", ...RARS_MEMORY },
];

/* How many bytes of zeros lie above sp where a process starts: no arguments, no environment, and an
 * auxiliary vector with no entry. */
const NO_ARGUMENTS = 64;

/* What a draft is that can't be read: a program of no words. */
const NO_WORDS = {
  words: [], labels: new Map(), places: new Map(), comments: new Map(), sources: new Map(),
  entry: 0, code: null, unit: 4,
};

/* How many characters of a statement are told where it faults. */
const STATEMENT_SHOWN = 60;

/* The statement of the instruction before the one at a word or a half-word, or undefined. */
const statementBefore = (sources, index, unit) =>
  sources.get(index - 1) ?? (unit === 2 ? sources.get(index - 2) : undefined);

/* The words at which the instructions of a line of the source begin, by the line. */
function startsOf(sources, code, unit) {
  const starts = new Map();
  for (const [index, { line }] of sources) {
    const isLater = statementBefore(sources, index, unit)?.line === line;
    if (isLater || code !== null && code[index] === 0) continue;
    if (starts.has(line)) starts.get(line).push(index);
    else starts.set(line, [index]);
  }
  return starts;
}

/* The half-words of a program at which the rows of the listing begin. The second one of an instruction
 * of 4 bytes, or of a word of data, has none, but where a label stands there, or the pc has `entered`
 * it. */
function rowsOf({ program, code }, labels, entered) {
  const rows = [];
  for (let index = 0; index < program.length; index++) {
    rows.push(index);
    const isData = code !== null && code[index] === 0;
    const isLong = isData ? index % 2 === 0 && code[index + 1] === 0 : (program[index] & 3) === 3;
    if (isLong && !labels.has(index + 1) && !entered.has(index + 1)) index++;
  }
  return rows;
}

/** A machine with its program, breakpoints, and what was last said of it. */
class Session {
  constructor(machine) {
    this.machine = machine;
    this.speed = SPEEDS.length - 1;
    this.names = NAMES.abi;
    this.turn = 0;
    this.isRunning = false;
    this.onChange = () => {};
    this.onEnd = () => {};
    this.onStops = () => {};
  }

  /** The text of an instruction at an address, with the names of registers that were chosen, and a
   * target by its label. */
  disassemble(bits, address, names = this.names) {
    const { kit, environment } = this.machine;
    const listed = kit.disassemble(bits, address);
    const isOfMachine = listed === "" && (environment.hasTraps || isCounterRead(bits));
    const plain = isOfMachine ? textOfMachineMode(bits) : inDecimal(listed);
    const text = withNames(plain, names);
    const isToTarget = isJumpToTarget(kit.wordOf(bits));
    return isToTarget ? text.replace(/0x[0-9a-f]{8}$/, this.labelled) : text;
  }

  /** The text of a row of the listing that begins at a word or a half-word of memory: its
   * instruction, or what it is where the program has data. */
  textAt(index) {
    const { machine: { kit, code, program, environment } } = this;
    const digits = this.digitsAt(index);
    const word = Number(`0x${digits}`);
    const isData = code !== null && code[index] === 0 && index < program.length;
    if (isData) return environment.hasTraps && textOfMachineMode(word) ? this.disassemble(word, 0)
      : textOfData(word, digits.length / 2);
    const address = kit.base + kit.unit * index;
    const bits = kit.bitsAt(address);
    return bits === undefined ? "" : this.disassemble(bits, address);
  }

  /** The digits of a row of the listing, of which a half-word has four. */
  digitsAt(index) {
    const { words, parts, unit } = this.machine.kit;
    if (unit === 4) return hexOf(words[index]);
    const isLong = this.partOf(this.rowOf(index) + 1) === index + 2;
    return (isLong ? hexOf(parts[index + 1], 4) : "") + hexOf(parts[index], 4);
  }

  /** The row of the listing that has a word or a half-word, by its number. */
  rowOf(index) {
    if (this.rows === null) return index;
    const behind = index - this.machine.program.length;
    if (behind >= 0) return this.rows.length + behind;
    let [low, high] = [0, this.rows.length];
    while (high - low > 1) {
      const middle = low + high >>> 1;
      if (this.rows[middle] <= index) low = middle;
      else high = middle;
    }
    return low;
  }

  /** The word or the half-word with which a row of the listing begins. */
  partOf(row) {
    if (this.rows === null) return row;
    return this.rows[row] ?? this.machine.program.length + row - this.rows.length;
  }

  /* Has a row of the listing begin where the pc is. */
  enterRow(index) {
    const isWithin = index >= 0 && index < this.machine.program.length;
    if (!isWithin || this.partOf(this.rowOf(index)) === index) return;
    this.entered.add(index);
    this.rows = rowsOf(this.machine, this.labels, this.entered);
  }

  /* The label at an address, as eight digits write it, or the address. */
  labelled = (text) => {
    const { base, unit } = this.machine.kit;
    const index = (Number(text) - base) / unit;
    const [name] = this.labels.get(index) ?? [];
    return name === undefined ? text : shortened(name, LABEL_SHOWN);
  };

  /** What a step executed, by its record. */
  executedBy({ word, pc, extra }, names = this.names) {
    return extra?.cause === undefined ? this.disassemble(word, pc, names) : "trap";
  }

  /** What a step did, by its record. */
  effectOf(record) {
    return effectOf(record, this.names);
  }

  /** Opens a program: `{ name, about, text, language, base, size, hasStack, calls, input, memory,
   * code, call, given, seed }`, with one of LANGUAGES and one of ENVIRONMENTS, what is typed before
   * it starts, what stands at its labels then, which of its words are read-only, if that is known,
   * the call at which it begins, what a teacher gives of it, and the seed of random numbers.
   * Breakpoints are where `stops` says, as `stopPlaces` has them. With `lineNow` those that are set
   * stay: at their lines, of which it gives the number in the new text, or 0, and else at their words,
   * found by the label before them where it is still there. The text of a draft may have mistakes, and
   * is to be mended in the editor. Throws a ProgramError, and then what was open stays. */
  open({
    name, about = "", text, language = "words", base = 0, size = SIZES[0], hasStack = false,
    calls = "linux", input = "", memory = [], code: known = null, lineNow = null, stops = [],
    isDraft = false, call = null, given = "", seed = 0,
  }) {
    if (!Number.isInteger(base) || base < 0 || base > LARGEST_BASE || base % 4 !== 0) {
      throw new ProgramError(0, `Memory can start at a multiple of 4 up to ${hex(LARGEST_BASE)}.`);
    }
    if (!SIZES.includes(size)) {
      throw new ProgramError(0, `Memory can have ${SIZES.join(", ")} bytes.`);
    }
    if (!Object.hasOwn(ENVIRONMENTS, calls)) {
      const known = Object.values(ENVIRONMENTS).map((environment) => environment.name).join(", ");
      throw new ProgramError(0, `The calls can be those of ${known}.`);
    }
    const { machine } = this;
    const read = isDraft ? this.readDraft(text, language, base, size, given)
      : this.read(text, language, base, size, undefined, given);
    const { words, labels, places, comments, sources, entry, isProcess, mistake = "", unit } = read;
    const code = read.code ?? known;
    this.stop();
    const starts = startsOf(sources, code, unit);
    const kept = lineNow === null ? [] : this.stopsIn(places, starts, lineNow);
    Object.assign(
      this,
      { name, about, text, language, labels, places, comments, sources, starts, input, memory,
        isDraft, mistake, call, given, seed, waitingStops: mistake ? stops : [] });
    machine.environment = ENVIRONMENTS[calls];
    machine.seed = seed;
    machine.load(words, base, size, hasStack, entry, isProcess ? NO_ARGUMENTS : 0, code, unit);
    this.entered = new Set();
    this.rows = unit === 4 ? null : rowsOf(machine, labels, this.entered);
    this.stops = new Uint8Array(size / machine.kit.unit);
    for (const index of [...kept, ...this.wordsAt(stops)]) {
      if (index < this.stops.length) this.stops[index] = STOP.BREAKPOINT;
    }
    this.selected = 0;
    this.start();
  }

  /** The program that is open, as `open` takes it again. Breakpoints stay. */
  get program() {
    const { name, about, text, language, calls, input, memory, isDraft, call, given, seed } = this;
    const { kit: { base, size }, hasStack, code } = this.machine;
    return {
      name, about, text, language, calls, input, memory, isDraft, call, given, seed, base, size,
      hasStack, code, lineNow: (line) => line,
    };
  }

  /** Reads a text, as a program for a memory, behind what is given. Throws a ProgramError, also where
   * assembling takes more room than `mostRoom`. */
  read(text, language, base, size, mostRoom, given = this.given) {
    if (!Object.hasOwn(LANGUAGES, language)) {
      throw new ProgramError(0, `A program can be ${Object.values(LANGUAGES).join(" or ")}.`);
    }
    return readProgram(text, language, base, size, this.machine.kit, mostRoom, given);
  }

  /** Reads a text that may have mistakes: then it is no words, and the first mistake. */
  readDraft(text, language, base, size, given) {
    try {
      return this.read(text, language, base, size, undefined, given);
    } catch (error) {
      if (!(error instanceof ProgramError)) throw error;
      return { ...NO_WORDS, mistake: error.message };
    }
  }

  /* The words of another program at which breakpoints stand: at their lines, by where its lines
   * begin, or by the places of its labels: as far behind a label as in this one, and before the
   * first label as far behind the start. */
  stopsIn(places, starts, lineNow) {
    const found = this.waitingStops.flatMap((line) => starts.get(lineNow(line)) ?? []);
    let label = { name: undefined, index: 0 };
    for (let index = 0; index < this.stops.length; index++) {
      const names = this.labels.get(index) ?? [];
      const name = names.find((each) => places.has(each));
      if (name !== undefined) label = { name, index };
      if ((this.stops[index] & STOP.BREAKPOINT) === 0) continue;
      const ofLine = starts.get(lineNow(this.lineOf(index)));
      found.push(...ofLine ?? [(places.get(label.name)?.index ?? 0) + index - label.index]);
    }
    return found;
  }

  /** Where the breakpoints stand, as they are kept: lines of assembly, or the numbers of words. */
  get stopPlaces() {
    if (this.mistake) return this.waitingStops;
    const found = new Set();
    for (let index = 0; index < this.stops.length; index++) {
      if ((this.stops[index] & STOP.BREAKPOINT) === 0) continue;
      found.add(this.language === "assembly" ? this.lineOf(index) : index);
    }
    found.delete(0);
    return [...found];
  }

  /* The words at places as `stopPlaces` has them. */
  wordsAt(places) {
    return this.language === "assembly"
      ? places.flatMap((line) => this.starts.get(line) ?? []) : places;
  }

  /** The line of the source that a word was made of, or 0. */
  lineOf(index) {
    return this.sources.get(index)?.line ?? 0;
  }

  /* The statement in which an address lies, as `Line 6: lw t1, 0(t0). `, or "". */
  statementAt(address) {
    const index = this.machine.indexOf(address);
    const line = this.lineOf(index);
    if (line === 0) return "";
    // a pseudo-instruction may be made of two words
    const { sources, machine: { kit: { unit } } } = this;
    const text = sources.get(index).text || statementBefore(sources, index, unit)?.text || "";
    return `Line ${line}: ${shortened(text, STATEMENT_SHOWN)}. `;
  }

  /** The state before the first step. */
  reset() {
    this.stop();
    this.machine.reset();
    this.start();
  }

  start() {
    const bytes = this.machine.kit.unit * this.machine.program.length;
    const what = `${counted(bytes, "byte")} from ${hex(this.machine.kit.base)} on.`;
    const isPortCovered = !isOfRars(this.machine.kit) && this.machine.indexOf(PORT_ADDRESS) >= 0;
    const port = isPortCovered
      ? `Memory covers the port: a byte stored to ${hex(PORT_ADDRESS)} is not printed.` : "";
    this.lines = this.rowOf(this.machine.program.length) + 1;
    this.machine.terminal.type(this.input);
    for (const each of this.memory) putMemory(this, each);
    if (this.call !== null) startCall(this, this.call);
    this.remember();
    if (this.mistake) this.say("To be edited", this.mistake, "wait");
    else this.say("Ready", [what, port, this.about].filter((part) => part).join(" "));
  }

  /** Says what stands in the page's line of the state: a sentence, or one by each choice of names
   * (`byNames`). `kind` is how it looks: "ready", "run", "wait", "done" or "end". `calls` are those
   * that the program seems to be written for, where others are chosen. `isFault` says that the
   * instruction at the pc is what went wrong. */
  say(heading, sentence, kind = "ready", calls = null, isFault = false) {
    this.notice = { heading, sentence, kind, calls, isFault };
    const { machine } = this;
    const index = machine.indexOf(machine.kit.pc);
    this.enterRow(index);
    this.lines = Math.max(this.lines, this.rowOf(index) + 1);
    this.onChange();
  }

  /** The sentence of the state, with the names of registers that are chosen. */
  get sentence() {
    const { sentence } = this.notice;
    return typeof sentence === "string" ? sentence : sentence.get(this.names);
  }

  sayEnd(end) {
    const { machine } = this;
    const { heading, kind } = explain(end, machine, this.names);
    this.isWaiting = end.reason === "waiting";
    const isFault = kind === "end";
    const where = isFault ? this.statementAt(machine.kit.pc) : "";
    this.say(heading, byNames((names) => where + explain(end, machine, names).sentence), kind,
      callsMeant(end, machine), isFault);
    this.onEnd(end);
  }

  /* ---- one step */

  step() {
    if (!this.begin()) return undefined;
    const end = this.machine.step();
    if (end !== null) return this.sayEnd(end);
    return this.sayStep();
  }

  sayStep() {
    const { machine } = this;
    const [record] = machine.history.latest(1);
    this.say(`Step ${machine.steps.toLocaleString("en")}`, byNames((names) => {
      const text = this.executedBy(record, names);
      const effect = effectOf(record, names);
      return effect ? `${text}: ${effect}` : text;
    }));
  }

  stepBack() {
    if (!this.begin()) return undefined;
    if (!this.machine.stepBack()) return this.sayOldest();
    return this.sayBack();
  }

  sayBack() {
    const { steps, kit: { pc } } = this.machine;
    const word = this.machine.bitsAtPc();
    this.say(`Back at step ${steps.toLocaleString("en")}`, byNames((names) =>
      (word === undefined ? "" : `Next: ${this.disassemble(word, pc, names)}`)));
  }

  sayOldest() {
    const { history } = this.machine;
    if (history.first === 0) return this.say("At the start", "This is the first state.");
    const kept = counted(history.first, "step");
    this.say("As far back as is kept", `${kept} were made before, whose records are gone.`);
  }

  /* ---- many steps */

  /* Stops what goes on, and keeps the state from which something else begins. Answers whether it
   * can: a draft with mistakes is no program. */
  begin() {
    this.stop();
    if (this.mistake) {
      this.say("To be edited", this.mistake, "wait");
      return false;
    }
    this.remember();
    return true;
  }

  /* Keeps registers and memory, so that what changes from here on can be told. */
  remember() {
    const { x, words } = this.machine.kit;
    if (this.before?.words.length !== words.length) this.before = { words: words.slice() };
    else this.before.words.set(words);
    this.before.x = x.slice();
  }

  stop() {
    this.turn++;
    this.isRunning = false;
    this.isWaiting = false;
    this.goesOn = false;
    if (this.line !== undefined) this.stops[this.line] &= ~STOP.LINE;
    if (this.returnsTo !== undefined) this.stops[this.returnsTo] &= ~STOP.RETURN;
    this.line = this.returnsTo = undefined;
    this.machine.stopsAtOutput = false;
  }

  pause() {
    if (!this.isRunning) return;
    this.stop();
    this.say("Paused", `After ${counted(this.machine.steps, "step")}.`);
  }

  /** Runs to an end, a breakpoint, or `pause`. */
  run() {
    if (!this.begin()) return undefined;
    return this.goOn("Running", (most) => this.runSlice(most));
  }

  /** Makes the call that is next with all of its steps, or else one step. */
  stepOver() {
    const { machine, machine: { kit } } = this;
    const bits = machine.bitsAtPc();
    const isCall = !this.mistake && bits !== undefined && kindOfJump(kit.wordOf(bits)) === "call";
    if (!isCall) return this.step();
    return this.runToReturn((kit.pc + kit.sizeOf(bits)) % 2 ** 32, depthOf(machine));
  }

  /** Runs to where the innermost call returns to. */
  stepOut() {
    const [frame] = framesOf(this.machine, 1);
    if (frame !== undefined) return this.runToReturn(frame.back, depthOf(this.machine) - 1);
    this.stop();
    return this.say("In no call", "No call is there to step out of.");
  }

  /* Runs to an address where at most so many calls have not returned. */
  runToReturn(address, depth) {
    if (!this.begin()) return undefined;
    const index = this.machine.indexOf(address);
    if (index >= 0) {
      this.stops[index] |= STOP.RETURN;
      this.returnsTo = index;
      this.depth = depth;
    }
    return this.goOn("Running", (most) => this.runSlice(most));
  }

  /** Runs until something is printed. */
  runToOutput() {
    if (!this.begin()) return undefined;
    this.machine.stopsAtOutput = true;
    return this.goOn("Running", (most) => this.runSlice(most));
  }

  /** Runs to the selected line. */
  runToLine() {
    if (!this.begin()) return undefined;
    this.line = this.selected;
    this.stops[this.line] |= STOP.LINE;
    return this.goOn("Running", (most) => this.runSlice(most));
  }

  /** Takes steps back to a breakpoint or the first state. */
  runBack() {
    if (!this.begin()) return undefined;
    return this.goOn("Running back", (most) => this.backSlice(most));
  }

  /* Makes slices, each of which answers whether it was the last, until one was or `stop` is called.
   * The page answers between two slices. */
  async goOn(heading, slice) {
    const turn = this.turn;
    this.isRunning = true;
    this.startedAt = performance.now();
    this.stepsBefore = this.machine.steps;
    this.pacedSpeed = undefined;
    this.say(heading, "", "run");
    while (turn === this.turn) {
      const { steps, wait } = this.pace();
      if (slice(steps)) return;
      this.say(heading, `${counted(this.machine.steps, "step")}.`, "run");
      const asleep = Math.min(this.machine.asleep, LONGEST_CALL_MS);
      await new Promise((done) => setTimeout(done, Math.max(wait, asleep)));
    }
  }

  /* How many steps are due by the clock at the chosen speed, and how long to wait for the next. */
  pace() {
    const speed = SPEEDS[this.speed];
    if (speed === Infinity) return { steps: Infinity, wait: 0 };
    const now = performance.now();
    const each = 1000 / speed;
    // also where the browser has slept
    if (speed !== this.pacedSpeed || now > this.nextAt + LONGEST_SLEEP_MS) {
      Object.assign(this, { pacedSpeed: speed, nextAt: now });
    }
    const steps = Math.max(0, Math.floor((now - this.nextAt) / each) + 1);
    this.nextAt += steps * each;
    return { steps, wait: Math.max(this.nextAt - now, SHORTEST_WAIT_MS) };
  }

  /* Makes at most `most` steps, for SLICE_MS at the longest. Answers whether the run is over. */
  runSlice(most) {
    const { machine } = this;
    const until = performance.now() + SLICE_MS;
    const last = machine.steps + most;
    while (machine.steps < last && performance.now() < until) {
      const end = machine.run(Math.min(last - machine.steps, SLICE_STEPS), this.stops);
      if (end === null && machine.asleep > 0) return false;
      if (end === null || this.isDeeper(end)) continue;
      this.endRun(end);
      return true;
    }
    return false;
  }

  /* Whether a run that goes to where a call returns to is there in a deeper call. */
  isDeeper(end) {
    if (end.reason !== "stop" || this.returnsTo === undefined) return false;
    return this.stops[this.machine.indexOf(end.address)] === STOP.RETURN
      && depthOf(this.machine) > this.depth;
  }

  endRun(end) {
    const flags = this.stops[this.machine.indexOf(end.address)];
    const isLine = flags & STOP.LINE;
    this.stop();
    const more = `${counted(this.machine.steps - this.stepsBefore, "step")} more`;
    if (end.reason === "output") return this.say("Printed", `After ${more}.`);
    if (flags === STOP.RETURN) return this.say("Back from the call", `After ${more}.`);
    if (end.reason !== "stop") {
      this.sayEnd(end);
      this.goesOn = this.isWaiting;
      return undefined;
    }
    const where = isLine ? "the line" : "a breakpoint";
    return this.say(isLine ? "At the line" : "Breakpoint",
      `Stopped before ${where} at ${hex(end.address)}, after ${more}.`, "wait");
  }

  backSlice(most) {
    const until = performance.now() + SLICE_MS;
    for (let left = most; left > 0 && performance.now() < until; left -= SLICE_STEPS) {
      const why = this.machine.runBack(Math.min(left, SLICE_STEPS), this.stops);
      if (why === null) continue;
      this.stop();
      if (why === "oldest") this.sayOldest();
      else this.sayBack();
      return true;
    }
    return false;
  }

  /* ---- the console */

  /** Which calls are served: one of the names of ENVIRONMENTS. */
  get calls() {
    const { environment } = this.machine;
    return Object.keys(ENVIRONMENTS).find((name) => ENVIRONMENTS[name] === environment);
  }

  /** Has the calls of another environment served from here on. Machine mode begins and ends with the
   * program's first state. */
  setCalls(name) {
    const hadTraps = this.machine.environment.hasTraps;
    this.machine.environment = ENVIRONMENTS[name];
    this.notice.calls = null;
    if (hadTraps !== this.machine.environment.hasTraps) this.reset();
    else this.onChange();
  }

  /** Gives typed text to the program. Answers whether it takes it: not after the end of input. */
  type(text) {
    const { terminal } = this.machine;
    if (terminal.isClosed) {
      this.say("Input has ended", "The program reads no more lines. Reset begins anew.", "end");
      return false;
    }
    terminal.type(text);
    this.goOnReading();
    return true;
  }

  /** Ends the input of the program. */
  endInput() {
    this.machine.terminal.close();
    this.goOnReading();
  }

  /* A run that waited for input goes on. */
  goOnReading() {
    if (this.goesOn) this.run();
    else if (this.isWaiting) this.say("Input is there", "The program can read it now.");
    else this.onChange();
  }

  /* ---- breakpoints and lines */

  toggleBreakpoint(index) {
    this.stops[index] ^= STOP.BREAKPOINT;
    this.onStops();
    this.onChange();
  }

  /** The line, at a line of the source or below it, with an instruction, or undefined. */
  lineWithCode(line) {
    if (this.starts.has(line)) return line;
    const below = [...this.starts.keys()].filter((other) => other > line);
    return below.length > 0 ? Math.min(...below) : undefined;
  }

  /** Sets breakpoints at a line of the source that has instructions, or takes them away. */
  toggleStopsOf(line) {
    const words = this.starts.get(line);
    const isSet = words.some((index) => this.stops[index] & STOP.BREAKPOINT);
    for (const index of words) {
      if (isSet) this.stops[index] &= ~STOP.BREAKPOINT;
      else this.stops[index] |= STOP.BREAKPOINT;
    }
    this.onStops();
    this.onChange();
  }

  /** Selects a row of the listing. */
  select(row) {
    this.selected = this.partOf(Math.max(0, Math.min(row, this.lines - 1)));
    this.onChange();
  }

  /* ---- changes by hand */

  /** Changes a register, the pc, or memory at an address or a label, to what a text says, while the
   * program does not run: `bytes` at an address, 1 or 4. Answers "", or why nothing was changed. */
  change(place, text, bytes) {
    const target = this.targetOf(place.trim(), bytes);
    if (typeof target === "string") return target;
    const value = parseValue(text.trim(), target.bytes);
    if (Number.isNaN(value)) return VALUE_WANTED[target.bytes];
    this.stop();
    const { machine } = this;
    if (target.register !== undefined) machine.setRegister(target.register, value);
    else if (target.address === undefined) machine.setPc(value);
    else machine.setMemory(target.address, value, bytes);
    this.say("Changed", byNames((names) =>
      `${names[target.register] ?? target.name} = 0x${hexOf(value, 2 * target.bytes)}.`));
    return "";
  }

  /* What is meant by a place that can be changed, or why it can't be. */
  targetOf(place, bytes) {
    const { kit } = this.machine;
    // A0 is a register too, and not the address 0xa0
    const register = registerNamed(place.toLowerCase());
    if (register === 0) return `${place} is always 0.`;
    if (register !== undefined) return { register, bytes: 4 };
    if (place.toLowerCase() === "pc") return { bytes: 4, name: "pc" };
    const address = this.addressOf(place) ?? parseHex(place);
    if (this.machine.indexOf(address) < 0) {
      return `${place || "That"} is no register, label or address. ${whereMemoryIs(this.machine)}`;
    }
    if ((address - kit.base) % bytes !== 0) return `A word has an address that is a multiple of 4.`;
    return { address, bytes, name: `[${hex(address)}]` };
  }

  /* ---- lines and labels */

  /** An address, as the label before it and how far it is behind. */
  nameOf(address) {
    const index = this.machine.indexOf(address);
    for (let at = index; at >= 0; at--) {
      const [name] = this.labels.get(at) ?? [];
      if (name === undefined) continue;
      const bytes = address - this.machine.kit.base - this.machine.kit.unit * at;
      return shortened(name, LABEL_SHOWN) + (bytes ? ` + ${bytes}` : "");
    }
    return hex(address);
  }

  /** The address of a label, or undefined. */
  addressOf(name) {
    const place = this.places.get(name);
    return place && this.machine.kit.base + place.offset;
  }
}
