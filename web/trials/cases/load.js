"use strict";

// The page's scripts without a page: those that know no view, and what they define.

const fs = require("node:fs");
const path = require("node:path");

const SCRIPTS = [
  "kit", "terminal", "records", "actions", "traps", "machine", "linux", "rars", "calls", "frames",
  "convention", "assembly", "colours", "program", "executable", "lesson", "judging", "grading",
  "examples", "wording", "board", "keeping", "session", "views", "editor", "screen",
];
const DEFINED = /^(?:const|class|function|async function) ([A-Za-z_]\w*)/gm;

/** What the scripts of a folder define, over a clock: `{ now, later }`, which stand for
 * performance.now and setTimeout. */
function scripts(folder, clock) {
  const text = SCRIPTS.map((name) => fs.readFileSync(path.join(folder, `${name}.js`), "utf8"));
  const names = [...text.join("\n").matchAll(DEFINED)].map((found) => found[1]);
  const body = `${text.join("\n")}\nreturn { ${names.join(", ")} };`;
  return new Function("performance", "setTimeout", body)({ now: clock.now }, clock.later);
}

/** A clock that stands still, but for what is done with `pass`. A task that is set for later runs
 * when `next` is called, and the clock goes on to its time. */
function makeClock() {
  const clock = { time: 0, tasks: [] };
  clock.now = () => clock.time;
  clock.later = (task, wait) => clock.tasks.push({ task, at: clock.time + wait });
  clock.pass = (milliseconds) => { clock.time += milliseconds; };
  clock.next = async () => {
    const { task, at } = clock.tasks.shift();
    clock.time = Math.max(clock.time, at);
    task();
    // what waits for the task goes on first
    for (let turn = 0; turn < 5; turn++) await null;
  };
  return clock;
}

module.exports = { makeClock, scripts };
