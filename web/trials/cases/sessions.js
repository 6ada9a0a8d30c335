"use strict";

// A program that is open: what is said of it, its runs and their pace, breakpoints and input. The
// clock is one that goes on only where a case says so.

const { Report } = require("./report.js");
const w = require("./words.js");

const LOOP = [w.addi(5, 5, 1), w.jal(0, -4)];
const textOf = (words) => words.map((word) => word.toString(16)).join("\n");

/* A session with a program, and a clock that goes on by `milliseconds` in each run of the
 * machine. */
function opened({ page, kit, clock }, words, options = {}, milliseconds = 5) {
  clock.time = 0;
  clock.tasks.length = 0;
  const machine = new page.Machine(kit);
  for (const name of ["run", "runBack"]) {
    const act = machine[name].bind(machine);
    machine[name] = (...given) => {
      clock.pass(milliseconds);
      return act(...given);
    };
  }
  const session = new page.Session(machine);
  session.changes = 0;
  session.onChange = () => { session.changes++; };
  session.open({ name: "p", text: typeof words === "string" ? words : textOf(words), ...options });
  return session;
}

const said = ({ notice: { heading, kind }, sentence }) => [heading, sentence, kind];

async function untilOver(session, clock) {
  while (session.isRunning && clock.tasks.length > 0) await clock.next();
}

function opening(report, over) {
  const { page } = over;
  const at = "Memory can start at a multiple of 4 up to 0xfff00000.";
  const sizes = "Memory can have 65536, 262144, 1048576 bytes.";
  const bytes = "4 bytes from 0x00000000 on.";
  report.cases("what is said of a program", [
    [{}, ["Ready", bytes, "ready"]], [{ about: "So." }, ["Ready", `${bytes} So.`, "ready"]],
    [{ base: 0xfff00000, size: 1048576 }, ["Ready", "4 bytes from 0xfff00000 on.", "ready"]],
    [{ base: 0x10000000, about: "So." }, ["Ready", "4 bytes from 0x10000000 on. Memory covers the "
      + "port: a byte stored to 0x10000000 is not printed. So.", "ready"]],
    [{ base: 0x0fff0004 }, ["Ready", "4 bytes from 0x0fff0004 on. Memory covers the port: a byte "
      + "stored to 0x10000000 is not printed.", "ready"]],
    [{ base: 0x0fff0000 }, ["Ready", "4 bytes from 0x0fff0000 on.", "ready"]],
    [{ base: 0x10000004 }, ["Ready", "4 bytes from 0x10000004 on.", "ready"]],
  ], (options) => said(opened(over, [0x13], options)));
  report.cases("why a program is refused", [
    [{ base: 0xfff00004 }, at], [{ base: NaN }, at], [{ base: -4 }, at], [{ base: 2 }, at],
    [{ base: 1.5 }, at], [{ base: 0xfff00000 + 65536 }, at], [{ size: 65532 }, sizes],
    [{ size: NaN }, sizes], [{ size: 2097152 }, sizes], [{ size: 0 }, sizes],
    [{ calls: "else" }, "The calls can be those of Linux, RARS, Venus, machine mode."],
    [{ calls: "toString" }, "The calls can be those of Linux, RARS, Venus, machine mode."],
    [{ text: "" }, "There is no word in it."], [{ base: 2, text: "" }, at],
  ], (options) => Report.refused(() => opened(over, [0x13], options)));
  const session = opened(over, "a: 13 # one\n13 b: 73", { base: 0x1000 });
  const refused = Report.refused(() => session.open({ name: "q", text: "x" }));
  report.same("what was open stays", ["p", 0x13, "a: 13 # one\n13 b: 73"],
    [session.name, session.machine.kit.words[0], session.text]);
  report.same("the mistake", 'Line 1: "x" is no word of 1 to 8 hexadecimal digits', refused);
  report.cases("the address of a label", [
    ["a", 0x1000], ["b", 0x1008], ["c", undefined], ["0x1000", undefined],
  ], (name) => session.addressOf(name));
  report.same("the sizes of a memory", [65536, 262144, 1048576], page.SIZES);
}

/* A draft may have mistakes: then it is a program of no words, whose text is kept. */
function drafts(report, over) {
  const session = opened(over, [0x13]);
  const lines = "li a0, 5\nfoo a0, 5\n";
  const mistake = "Line 2: no such instruction or directive: foo";
  for (const [text, sentence] of [[lines, mistake], ["# here\n", "There is no statement in it."]]) {
    session.open({ name: "d", text, language: "assembly", isDraft: true });
    report.same("a draft that can't be read", [["To be edited", sentence, "wait"], text, 0, 1],
      [said(session), session.text, session.machine.kit.words[0], session.lines]);
  }
  session.step();
  session.reset();
  report.same("a reset of it", "To be edited", session.notice.heading);
  session.open({ name: "d", text: "li a0, 5\n", language: "assembly", isDraft: true });
  report.same("a draft that can", ["Ready", 0x00500513],
    [session.notice.heading, session.machine.kit.words[0]]);
}

/* What was said has the names of registers that are chosen then. */
function saidByNames(report, over) {
  const { page } = over;
  const session = opened(over, [w.addi(5, 0, 7), w.addi(10, 5, 0), w.ecall]);
  const both = () => Object.values(page.NAMES).map((names) => {
    session.names = names;
    return session.sentence;
  });
  session.step();
  report.same("of a step", ["addi t0, zero, 7: t0 = 0x00000007",
    "addi x5, x0, 7: x5 = 0x00000007"], both());
  session.step();
  session.stepBack();
  report.same("of a step back", ["Next: addi a0, t0, 0", "Next: addi x10, x5, 0"], both());
  session.change("t0", "1", 4);
  report.same("of a change", ["t0 = 0x00000001.", "x5 = 0x00000001."], both());
  session.step();
  session.step();
  report.same("of an end", ["a0 = 1 is print_int of Venus", "x10 = 1 is print_int of Venus"],
    both().map((sentence) => /\w+ = 1 is print_int of Venus/.exec(sentence)[0]));
}

/* Branches and jumps by the label that they go to, and by its address where there is none. */
function targets(report, over) {
  const words = [w.b(0, 5, 6, -4), w.jal(1, -8), w.jalr(0, 1, 0), w.jal(0, 2), w.lui(5, 0x1000)];
  const session = opened(over, `a: 13 b: ${textOf(words)}`, { base: 0x1000 });
  const shown = () => [1, 2, 3, 4, 5].map((index) =>
    session.disassemble(session.machine.kit.words[index], 0x1000 + 4 * index));
  report.same("the targets", ["beq t0, t1, a", "jal ra, a", "jalr zero, 0(ra)",
    "jal zero, 0x00001012", "lui t0, 0x00001000"], shown());
  session.names = over.page.NAMES.number;
  report.same("with numbers", "beq x5, x6, a", shown()[0]);
  const named = opened(over, `x5: ${w.jal(5, 0).toString(16)}`);
  report.same("a label with the name of a register", "jal t0, x5",
    named.disassemble(named.machine.kit.words[0], 0));
  const long = opened(over, `${"l".repeat(70)}: ${w.jal(0, 0).toString(16)}`);
  report.same("a long label", `jal zero, ${"l".repeat(60)}…`,
    long.disassemble(long.machine.kit.words[0], 0));
}

function singleSteps(report, over) {
  const session = opened(over, [w.addi(5, 0, 7), w.jal(0, 8), 0, w.addi(0, 0, 0)]);
  const seen = [];
  const act = (name) => {
    session[name]();
    seen.push(said(session));
  };
  for (const name of ["step", "step", "step", "stepBack", "stepBack", "stepBack", "stepBack"]) {
    act(name);
  }
  report.same("steps there and back", [
    ["Step 1", "addi t0, zero, 7: t0 = 0x00000007", "ready"],
    ["Step 2", "jal zero, 0x0000000c", "ready"],
    ["Step 3", "addi zero, zero, 0", "ready"],
    ["Back at step 2", "Next: addi zero, zero, 0", "ready"],
    ["Back at step 1", "Next: jal zero, 0x0000000c", "ready"],
    ["Back at step 0", "Next: addi t0, zero, 7", "ready"],
    ["At the start", "This is the first state.", "ready"],
  ], seen);
  session.machine.kit.words[0] = 0;
  session.step();
  report.same("a step that is not made", ["Illegal instruction", 0],
    [session.notice.heading, session.machine.steps]);
  session.reset();
  report.same("a reset", [["Ready", "16 bytes from 0x00000000 on.", "ready"], w.addi(5, 0, 7)],
    [said(session), session.machine.kit.words[0]]);
  const far = opened(over, [w.lui(5, 0x8000), w.jalr(0, 5, 0)]);
  report.same("the lines of a program", 3, far.lines);
  far.step();
  far.step();
  report.same("the lines after a jump", 0x8000 / 4 + 1, far.lines);
  far.machine.history.first = 1;
  far.stepBack();
  far.stepBack();
  report.same("as far back as is kept", ["As far back as is kept",
    "1 step were made before, whose records are gone.", "ready"], said(far));
}

async function runsThereAndBack(report, over) {
  const { clock } = over;
  const session = opened(over, [...w.li(5, 20000), w.addi(5, 5, -1), w.b(1, 5, 0, -4), w.ebreak]);
  session.run();
  report.same("a run that begins: steps of a slice", [true, 4 * 4096, "16,384 steps.", "run"],
    [session.isRunning, session.machine.steps, session.sentence, session.notice.kind]);
  report.same("and when it goes on", 20, clock.tasks[0].at);
  await untilOver(session, clock);
  report.same("its end", ["Breakpoint instruction", false, 40002],
    [session.notice.heading, session.isRunning, session.machine.steps]);
  session.runBack();
  report.same("a run back: steps of a slice", ["Running back", 40002 - 4 * 4096],
    [session.notice.heading, session.machine.steps]);
  await untilOver(session, clock);
  report.same("its end", ["At the start", false, 0],
    [session.notice.heading, session.isRunning, session.machine.steps]);
  const endless = opened(over, LOOP);
  endless.run();
  await clock.next();
  endless.pause();
  report.same("a pause", ["Paused", "After 32,768 steps.", "ready"], said(endless));
  await untilOver(endless, clock);
  await clock.next();
  report.same("and no step after it", [32768, false], [endless.machine.steps, endless.isRunning]);
  endless.pause();
  report.same("a pause of what does not run", "Paused", endless.notice.heading);
  for (const name of ["step", "stepBack", "reset"]) {
    const other = opened(over, LOOP);
    other.run();
    other[name]();
    report.same(`a run, and then ${name}`, { step: 16385, stepBack: 16383, reset: 0 }[name],
      other.machine.steps);
    report.same("it is over", false, other.isRunning);
  }
}

/* How many steps are made in ten seconds of the clock, by speed. */
async function paces(report, over) {
  const { clock, page } = over;
  report.same("the speeds", [1, 4, 16, 64, 256, 4096, Infinity], page.SPEEDS);
  for (const [index, speed] of page.SPEEDS.slice(0, -1).entries()) {
    for (const action of ["run", "runBack"]) {
      const session = opened(over, LOOP, {}, 0);
      for (let made = 0; action === "runBack" && made < 50000; made++) session.machine.step();
      const before = session.machine.steps;
      session.speed = index;
      session[action]();
      while (clock.tasks.length > 0 && clock.tasks[0].at <= 10000) await clock.next();
      const made = Math.abs(session.machine.steps - before);
      const isNear = made >= 9.3 * speed && made <= 10.8 * speed + 1;
      report.same(`${action} at ${speed} a second: ${made} in 10 s`, true, isNear);
      session.pause();
    }
  }
}

const CALLS = `main: li a0, 2; call f; li a7, 10; ecall
f: addi sp, sp, -16; sw ra, 12(sp); mv a1, a0; li a7, 1; ecall; beqz a1, 1f; addi a0, a0, -1; call f
1: lw ra, 12(sp); addi sp, sp, 16; ret`;

/* A call with all of its steps, and out of one, through a recursion; and the next output. */
async function overAndOut(report, over) {
  const { clock } = over;
  const options = { language: "assembly", calls: "rars", hasStack: true };
  const session = opened(over, CALLS, options);
  const act = async (name) => {
    session[name]();
    await untilOver(session, clock);
    return [session.notice.heading, session.machine.kit.pc, session.machine.terminal.text(99)];
  };
  const seen = [];
  for (const name of ["stepOver", "step", "stepOver", "stepOut", "reset"]) seen.push(await act(name));
  report.same("over a step and a call, and out of no call", [
    ["Step 1", 4, ""], ["Step 2", 8, ""], ["Back from the call", 12, "210"],
    ["In no call", 12, "210"], ["Ready", 0, ""],
  ], seen);
  for (const name of ["runToOutput", "runToOutput", "stepOut", "stepOut", "runToOutput"]) {
    seen.push(await act(name));
  }
  report.same("to the next output, and out of a recursion", [
    ["Printed", 40, "2"], ["Printed", 40, "21"], ["Back from the call", 56, "210"],
    ["Back from the call", 12, "210"], ["Exit", 16, "210"],
  ], seen.slice(5));
  report.same("the stops that are left", 0, session.stops.findIndex((stop) => stop !== 0) + 1);
}

/* A draft with mistakes can't be run. */
async function runsOfDrafts(report, over) {
  const session = opened(over, [0x13]);
  session.open({ name: "d", text: "foo", language: "assembly", isDraft: true });
  for (const name of ["step", "run", "runToLine", "runBack", "stepOver", "runToOutput", "stepBack"]) {
    session[name]();
    report.same(`${name} of a draft with a mistake`, ["To be edited", false, 0],
      [session.notice.heading, session.isRunning, session.machine.steps]);
  }
}

async function stops(report, over) {
  const { clock, page } = over;
  const session = opened(over, [w.addi(5, 5, 1), w.addi(6, 6, 1), w.jal(0, -8)]);
  session.toggleBreakpoint(1);
  session.run();
  report.same("a breakpoint", ["Breakpoint",
    "Stopped before a breakpoint at 0x00000004, after 1 step more.", "wait"], said(session));
  session.run();
  report.same("and the next", ["Breakpoint",
    "Stopped before a breakpoint at 0x00000004, after 3 steps more.", "wait"], said(session));
  session.select(2);
  session.runToLine();
  report.same("a run to the line", ["At the line",
    "Stopped before the line at 0x00000008, after 1 step more.", "wait"], said(session));
  report.same("the stops that are left", [0, 1, 0], [...session.stops.subarray(0, 3)]);
  session.select(1);
  session.runToLine();
  report.same("a line with a breakpoint", ["At the line", 1],
    [session.notice.heading, session.stops[1]]);
  session.runBack();
  report.same("a run back to a breakpoint", ["Back at step 4", 4],
    [session.notice.heading, session.machine.steps]);
  session.toggleBreakpoint(1);
  session.select(5);
  report.same("no line behind the last", 3, session.selected);
  session.select(-1);
  report.same("no line before the first", 0, session.selected);
  session.select(3);
  session.runToLine();
  session.pause();
  report.same("a line that is not reached", [0, 0, 0, 0], [...session.stops.subarray(0, 4)]);
  clock.tasks.length = 0;
  const odd = opened(over, [w.jalr(0, 0, 6), w.addi(5, 5, 1)]);
  odd.toggleBreakpoint(1);
  odd.run();
  report.same("a breakpoint at 4, and a pc of 6", "Misaligned address", odd.notice.heading);
  report.same("what marks a stop", [1, 2], [page.STOP.BREAKPOINT, page.STOP.LINE]);
}

async function input(report, over) {
  const { clock } = over;
  const reads = [w.addi(11, 0, 256), w.addi(12, 0, 9), w.addi(17, 0, 63), w.addi(10, 0, 0), w.ecall,
    w.ebreak];
  const session = opened(over, reads);
  session.run();
  report.same("a run that waits", ["Waiting for input", true, false],
    [session.notice.heading, session.isWaiting, session.isRunning]);
  report.same("what is typed is taken", true, session.type("ab\n"));
  await untilOver(session, clock);
  report.same("a run goes on", ["Breakpoint instruction", 3, false],
    [session.notice.heading, session.machine.kit.x[10], session.isWaiting]);
  for (const [act, a0] of [[(s) => s.type("abcd\n"), 5], [(s) => s.endInput(), 0]]) {
    const steps = opened(over, reads);
    for (let made = 0; made < 5; made++) steps.step();
    report.same("steps that wait", ["Waiting for input", 4],
      [steps.notice.heading, steps.machine.steps]);
    act(steps);
    report.same("there is input", [["Input is there", "The program can read it now.", "ready"], 4],
      [said(steps), steps.machine.steps]);
    steps.step();
    report.same("and it is read", [a0, 5], [steps.machine.kit.x[10], steps.machine.steps]);
  }
  const ended = opened(over, reads);
  ended.endInput();
  report.same("input after its end is not taken", [false, 0],
    [ended.type("ab\n"), ended.machine.terminal.input.length]);
  report.same("and that is said", ["Input has ended",
    "The program reads no more lines. Reset begins anew.", "end"], said(ended));
  ended.run();
  report.same("nor read", 0, ended.machine.kit.x[10]);
  ended.reset();
  report.same("input after a reset", true, ended.type("ab\n"));
  const again = opened(over, reads);
  again.run();
  again.reset();
  again.type("ab\n");
  report.same("what is typed behind a reset begins no run", [false, 0],
    [again.isRunning, again.machine.steps]);
  const early = opened(over, reads);
  const { changes } = early;
  early.type("ab\n");
  report.same("what is typed early is shown, and nothing is said", ["Ready", true],
    [early.notice.heading, early.changes > changes]);
}

/** Tries sessions. */
async function trySessions(report, page, kit, clock) {
  report.begin("sessions");
  const over = { page, kit, clock };
  for (const part of [opening, drafts, saidByNames, targets, singleSteps, runsThereAndBack, paces,
    overAndOut, runsOfDrafts, stops, input]) {
    await part(report, over);
  }
}

module.exports = { opened, trySessions };
