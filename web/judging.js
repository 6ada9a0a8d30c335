"use strict";

// How a program is judged by the cases of an exercise, and by its guards: what it may not have, what
// it has to do, and what its functions have to keep. Nothing here knows the page.

/* A text, as a sentence shows it: its end where it is long. */
function quoted(text) {
  return JSON.stringify(text.length > 80 ? `…${text.slice(-80)}` : text);
}

/* A number, as a sentence shows it. */
const shownNumber = (number) => `${number | 0} (${hex(number)})`;

/** What a case has the program begin with, as a sentence, or "". */
function givenIn({ input, memory }, call = null) {
  const all = memory.map(({ label, said }) => `${label} = ${shortened(said, 80)}`);
  if (input !== "") all.unshift(`the input ${quoted(input)}`);
  if (call !== null) all.unshift(`the call ${call.text}`);
  return all.length === 0 ? "" : `The case has ${all.join(", and ")}.`;
}

/** What is missed in a case, and what it has the program begin with, as one text. */
const missedIn = ({ misses, given }, names) =>
  [...misses.get(names), given].filter((sentence) => sentence).join(" ");

/** What is not as a case of an exercise expects it, as sentences: none where it is right. */
function missesOf({ output, registers }, { kit, terminal }, names) {
  const misses = [];
  if (output !== undefined) {
    const printed = terminal.text(OUTPUT_ROOM);
    const isEnd = `${printed}\n` === output || printed === `${output}\n`;
    if (printed !== output) {
      misses.push(`The output is ${quoted(printed)}, and ${quoted(output)} is expected.`
        + (isEnd ? " They differ in the newline at the end alone." : ""));
    }
  }
  for (const [register, wanted] of registers) {
    const value = kit.x[register];
    if (value === wanted) continue;
    misses.push(`${names[register]} is ${shownNumber(value)}, and ${shownNumber(wanted)} is `
      + "expected.");
  }
  return misses;
}

/* ---- where a case begins */

/* Why a program with labels at some places has no room for the memory of a case, or "". */
function whyNoRoom(places, size, { label, bytes }) {
  const place = places.get(label);
  if (place === undefined) return `has no label ${label}`;
  const room = size - place.offset;
  return bytes.length <= room ? "" : `has ${counted(room, "byte")} of memory from the label `
    + `${label} on, and the case puts ${numbered(bytes.length)} there`;
}

/** Puts the memory of a case where a program has its label. Answers why it has no room, or "". */
function putMemory({ places, machine: { kit } }, memory) {
  const why = whyNoRoom(places, kit.size, memory);
  if (why === "") kit.bytes.set(memory.bytes, places.get(memory.label).offset);
  return why;
}

/* Where a call that a case makes returns to: an ebreak in the last word of memory. */
const EBREAK_WORD = 0x00100073;

/* What registers hold before a call that a case makes: no number that a function can use. */
const junkIn = (register) => (0x5a5a0000 | register) >>> 0;

/** Has a program at its first state begin at a call of one of its functions: its arguments in a0 to
 * a7, sp at the end of memory, and numbers of no use in the other registers. Answers why there is no
 * such call, or "". */
function startCall(session, call) {
  const { places, machine } = session;
  const { kit } = machine;
  const labels = [call.label, ...call.args.filter((part) => /^[A-Za-z_.$]/.test(part))];
  const missing = labels.find((label) => !places.has(label));
  if (missing !== undefined) return `has no label ${missing}`;
  const back = kit.base + kit.size - 4;
  for (let register = 1; register < 32; register++) kit.x[register] = junkIn(register);
  kit.words[kit.words.length - 1] = EBREAK_WORD;
  [kit.x[REGISTER.RA], kit.x[REGISTER.SP]] = [back, back - 12];
  call.args.forEach((part, at) => {
    kit.x[REGISTER.A0 + at] = session.addressOf(part) ?? parseValue(part, 4);
  });
  kit.pc = session.addressOf(call.label);
  machine.convention.clear();
  machine.called = { back, text: call.text, entry: kit.pc, kept: kit.x.slice() };
  return "";
}

/* ---- guards */

/** What an exercise has its programs keep to, as sentences, or "" where it says nothing. */
function rulesOf({ forbidden, required, cases, keepsConvention, given }) {
  const names = [...new Set(forbidden.map(({ name }) => name))];
  const all = [...required, ...cases.flatMap((each) => (each.isHidden ? [] : each.required))];
  const has = [...new Set(all.map(requiredTold))];
  return [
    ...names.length > 0 ? [`The program has no ${names.join(", ")}.`] : [],
    ...has.length > 0 ? [`It has to ${has.join(", and to ")}.`] : [],
    ...keepsConvention ? ["Functions keep s0 to s11, gp, tp and sp."] : [],
    ...given !== "" ? ["This part is given, and stands before your program:"] : [],
  ].join(" ");
}

/* What a case or an exercise requires, as the page tells it. */
const requiredTold = ({ label, times, text }) => (label === undefined ? `execute ${text}`
  : `call ${label}${times > 1 ? ` ${times} times` : " itself"}`);

/* Whether a word of the program is of the student's part: no word of what is given. */
const isOwnWord = ({ sources }, index) => (sources.get(index)?.line ?? 0) > 0;

/* The name of the instruction in a word of the program, or "". */
function nameAt({ machine: { kit, code, environment } }, index) {
  if (code === null || code[index] === 0) return "";
  // a compressed instruction has the name of what it stands for
  const word = kit.wordOf(kit.bitsAt(kit.base + kit.unit * index) ?? 0);
  const text = kit.disassemble(word, 0) || (environment.hasTraps ? textOfMachineMode(word) : "");
  return text.split(" ")[0];
}

/* Where the student's part has what is forbidden, as sentences. An instruction is found by its name,
 * and where another statement becomes it. */
function forbiddenIn(session, { forbidden }) {
  const names = forbidden.map(({ name }) => name);
  if (names.length === 0) return [];
  const found = new Map();
  const add = (line, name) => {
    const what = `Line ${line}: ${name} may not stand in this program.`;
    if (names.includes(name)) found.set(`${line} ${name}`, what);
  };
  withoutBlocks(session.text).split("\n").forEach((line, at) => {
    for (const text of statementsIn(line)) add(at + 1, text.split(/\s/)[0].toLowerCase());
  });
  for (let index = 0; index < session.machine.program.length; index++) {
    if (isOwnWord(session, index)) add(session.sources.get(index).line, nameAt(session, index));
  }
  return [...found.values()];
}

/* What is forbidden and was executed though no statement has it, as a program that makes its own
 * instructions does. */
function executedOfForbidden(session, { forbidden }) {
  const { machine } = session;
  if (forbidden.length === 0) return [];
  const given = new Set();
  for (const index of session.sources.keys()) {
    if (!isOwnWord(session, index)) given.add(nameAt(session, index));
  }
  const executed = new Set(machine.counts().map(({ name }) => name));
  return forbidden.filter(({ name }) => executed.has(name) && !given.has(name))
    .map(({ name }) => `The program executes ${name}, which it may not.`);
}

/** How often the student's part called what is at an address, and executed each instruction. */
class Doings {
  /** Of what is required: where no call is, or no instruction, it is not looked for. */
  constructor(session, required) {
    this.session = session;
    this.seeksCalls = required.some(({ label }) => label !== undefined);
    this.seeksNames = required.some(({ name }) => name !== undefined);
    this.calls = new Map();
    this.names = new Map();
  }

  /* Looks at the calls of the steps that a machine made since so many. Their records are there. */
  lookAtCalls(steps) {
    const { session, session: { machine, machine: { history, kit } } } = this;
    if (!this.seeksCalls) return;
    for (let step = steps; step < history.steps; step++) {
      const at = history.placeOf(step);
      if (kindOfJump(kit.wordOf(kit.u32[at + RECORD.word])) !== "call") continue;
      const index = machine.indexOf(kit.u32[at + RECORD.pc]);
      if (!isOwnWord(session, index)) continue;
      const next = step + 1 < history.steps
        ? kit.u32[history.placeOf(step + 1) + RECORD.pc] : kit.pc;
      this.calls.set(next, (this.calls.get(next) ?? 0) + 1);
    }
  }

  /* Looks at what a run executed. */
  lookAtWords() {
    const { session, session: { machine } } = this;
    if (!this.seeksNames) return;
    for (let index = 0; index < machine.program.length; index++) {
      if (machine.executed[index] === 0 || !isOwnWord(session, index)) continue;
      const name = nameAt(session, index);
      this.names.set(name, (this.names.get(name) ?? 0) + machine.executed[index]);
    }
  }

  /** What is required and was not done, as sentences. */
  missing(required) {
    const countOf = ({ label, name }) => (label === undefined ? this.names.get(name)
      : this.calls.get(this.session.addressOf(label))) ?? 0;
    return required.filter((each) => countOf(each) < each.times).map((each) => {
      const done = countOf(each);
      return `The program does not ${requiredTold(each)}${done > 0 ? `, but ${done}` : ""}.`;
    });
  }
}

/* What functions did not keep, as sentences: those that were called by the program, and the one that
 * the case has called. */
function notKept(session, names) {
  const { machine } = session;
  const nameOf = (address) => session.nameOf(address);
  const remarks = remarksOf(machine).filter(({ kind }) => kind === "kept");
  const told = remarks.map((remark) => sentenceOf({ ...remark, count: 1 }, names, nameOf));
  if (machine.called === null) return told;
  const { kept, entry } = machine.called;
  const isTold = (register) => remarks.some((each) =>
    each.register === register && each.entry === entry);
  for (const register of KEPT_REGISTERS) {
    const [before, after] = [kept[register], machine.kit.x[register]];
    if (before === after || isTold(register)) continue;
    told.push(sentenceOf({ kind: "kept", register, entry, before, after, count: 1 }, names, nameOf));
  }
  return told;
}

/* ---- runs */

/* How many steps a judge makes at once. */
const JUDGED_AT_ONCE = 1 << 14;

/* Runs a program from where it stands to its end, or null after so many steps. `pause` is called
 * between slices. */
async function runJudged(machine, limit, doings, pause) {
  const stops = new Uint8Array(machine.kit.parts.length);
  let end = null;
  while (end === null && machine.steps < limit) {
    const { steps } = machine;
    end = machine.run(Math.min(JUDGED_AT_ONCE, limit - steps), stops);
    doings.lookAtCalls(steps);
    await pause();
  }
  doings.lookAtWords();
  return end;
}

/* Why the end of a program is none that it should have: no end, or a fault that is no ebreak. */
function whyNoEnd(end, machine, limit, names) {
  if (end === null) return [`It has not ended after ${counted(limit, "step")}.`];
  const { called, kit } = machine;
  if (called !== null && (end.kind !== FAULT.EBREAK || kit.pc !== called.back)) {
    const { heading, sentence } = explain(end, machine, names);
    return [`${called.text} did not return. It ended by: ${heading}. ${sentence}`];
  }
  if (end.reason === "exit" || end.kind === FAULT.EBREAK) return [];
  const { heading, sentence } = explain(end, machine, names);
  return [`It ended by: ${heading}. ${sentence}`];
}

/* What a call of a case leaves in a0, where it is not what is expected. */
function missesOfCall(call, { kit }) {
  const [value, wanted] = [kit.x[REGISTER.A0], parseValue(call.result, 4)];
  return value === wanted ? []
    : [`${call.text} is ${shownNumber(value)}, and ${shownNumber(wanted)} is expected.`];
}

/* Runs a program in a case, from its first state or from a call. Answers what is missed, by each
 * choice of names. */
async function judgeRun(session, exercise, ofCase, call, doings, pause) {
  const { machine } = session;
  machine.reset();
  let why = "";
  for (const memory of ofCase.memory) why ||= putMemory(session, memory);
  if (call !== null) why ||= startCall(session, call);
  if (why) return byNames(() => [`The program ${why}.`]);
  machine.terminal.type(ofCase.input);
  machine.terminal.close();
  const limit = ofCase.limit ?? exercise.limit;
  const end = await runJudged(machine, limit, doings, pause);
  const forbidden = executedOfForbidden(session, exercise);
  return byNames((names) => {
    const ended = whyNoEnd(end, machine, limit, names);
    if (ended.length > 0) return ended;
    const kept = exercise.keepsConvention ? notKept(session, names) : [];
    const result = call === null ? [] : missesOfCall(call, machine);
    return [...result, ...missesOf(ofCase, machine, names), ...kept, ...forbidden];
  });
}

/* Judges a program by a case: it is run, or each of the calls is made, up to the first that misses
 * something. Answers what is missed, by each choice of names, and the call that missed it, or the
 * first one. */
async function judgeCase(session, exercise, ofCase, all, pause) {
  const doings = new Doings(session, [...exercise.required, ...ofCase.required]);
  const calls = ofCase.made.length > 0 ? ofCase.made : [null];
  let [misses, missing] = [byNames(() => []), calls[0]];
  for (const call of calls) {
    misses = await judgeRun(session, exercise, ofCase, call, doings, pause);
    if (misses.get(NAMES.abi).length === 0) continue;
    missing = call;
    break;
  }
  const required = misses.get(NAMES.abi).length === 0 ? doings.missing(ofCase.required) : [];
  for (const [address, count] of doings.calls) {
    all.calls.set(address, (all.calls.get(address) ?? 0) + count);
  }
  for (const [name, count] of doings.names) all.names.set(name, (all.names.get(name) ?? 0) + count);
  return {
    misses: byNames((names) => [...misses.get(names), ...required]), call: missing,
    remarks: remarksOf(session.machine),
  };
}

/** Judges a program by each case of an exercise, in a session of its own: of each its title, whether
 * it is hidden, what is missed, by each choice of names, what the program began with, the call that
 * missed something, and what the convention remarks. `guards` of the answer says what it has that it
 * may not have: then no case is run. Where it does not do what it has to, no case is right. Throws a
 * ProgramError where it can't be read. */
async function judge(session, exercise, { text, language }, pause = () => undefined) {
  const { calls, base, size, hasStack, title, given, seed } = exercise;
  session.open({ name: title, text, language, calls, base, size, hasStack, given, seed });
  const guards = forbiddenIn(session, exercise);
  const all = new Doings(session, exercise.required);
  const told = [];
  for (const ofCase of guards.length > 0 ? [] : exercise.cases) {
    const { title: name, isHidden } = ofCase;
    const { misses, call, remarks } = await judgeCase(session, exercise, ofCase, all, pause);
    told.push({ title: name, isHidden, misses, given: givenIn(ofCase, call), call, remarks });
  }
  if (guards.length > 0) return barred(exercise, guards);
  const missing = all.missing(exercise.required);
  for (const each of missing.length > 0 ? told : []) {
    if (each.misses.get(NAMES.abi).length === 0) each.misses = byNames(() => missing);
  }
  return Object.assign(told, { guards });
}

/* What is told of a program that has what it may not have. */
const barred = ({ cases }, guards) => Object.assign(cases.map((ofCase) => ({
  title: ofCase.title, isHidden: ofCase.isHidden, misses: byNames(() => guards),
  given: "", call: ofCase.made[0] ?? null, remarks: [],
})), { guards });

/** How many of the cases are right. */
const rightOf = (told) => told.filter(({ misses }) => misses.get(NAMES.abi).length === 0).length;

/* ---- what a lesson needs of its programs */

/* Refuses names of instructions that there are not: such a guard would guard nothing. */
function refuseNames({ forbidden, required, cases }, kit) {
  const all = [...forbidden, ...required, ...cases.flatMap((each) => each.required)];
  const wrong = all.find(({ name }) => name !== undefined && !name.startsWith(".")
    && !namesOf(kit).has(name));
  if (wrong) throw new ProgramError(wrong.line, `${wrong.name} is no instruction`);
}

/* Refuses a part that is given with a mistake which no program can mend. */
function refuseGiven({ given, givenLine, language, base, size, program }, session) {
  if (given === "") return;
  try {
    session.read(program, language, base, size, undefined, given);
  } catch (error) {
    if (!(error instanceof ProgramError)) throw error;
    const own = error.mistakes.find(({ ofGiven, isLabel }) => ofGiven && !isLabel);
    if (own) throw new ProgramError(givenLine + own.ofGiven, own.text);
  }
}

/** Refuses a lesson of which a guard names what there is not, the part that is given has mistakes, or
 * a program to begin with has no room for the memory of a case. One that is empty, or has mistakes to
 * find, may get it. Throws a ProgramError. */
function refuseMemory({ exercises }, session) {
  for (const exercise of exercises) {
    const { cases, program, language, base, size, given } = exercise;
    refuseNames(exercise, session.machine.kit);
    refuseGiven(exercise, session);
    const { words, places } = session.readDraft(program, language, base, size, given);
    for (const memory of words.length > 0 ? cases.flatMap((each) => each.memory) : []) {
      const why = whyNoRoom(places, size, memory);
      if (why) throw new ProgramError(memory.line, `the program to begin with ${why}`);
    }
  }
}
