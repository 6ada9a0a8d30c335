"use strict";

// Runs programs in the page's machine, and tells of each, on a line, how it ended, and how many of
// its states were other on the way back.
//
// usage: node runs.js SCRIPTS MODULE PROGRAM ..

const fs = require("node:fs");
const { makeClock, scripts } = require("./cases/load.js");
const { digest } = require("./cases/machine.js");

const LIMIT = 1000000;

async function main([folder, module, ...programs]) {
  const page = scripts(folder, makeClock());
  const kit = await page.Kit.load(fs.readFileSync(module));
  const machine = new page.Machine(kit);
  for (const program of programs) {
    const { words } = page.parseProgram(page.textOfBytes(fs.readFileSync(program)), 65536);
    machine.load(words, 0, 65536, false);
    const states = [short(machine)];
    let end = machine.step();
    for (; end === null && machine.steps < LIMIT; end = machine.step()) states.push(short(machine));
    const { heading, sentence } = page.explain(end, machine, page.NAMES.abi);
    const registers = [kit.pc, ...kit.x.subarray(1)].map(page.hex);
    const { steps } = machine;
    const last = digest(machine);
    const wrong = statesThatDiffer(machine, states);
    machine.run(steps, new Uint8Array(kit.words.length));
    const again = digest(machine) === last ? 0 : 1;
    console.log(JSON.stringify({ heading, sentence, steps, registers, wrong: wrong + again }));
  }
}

/* What a step may change, as one number: of memory the words that a generated program has. */
function short({ kit, executed, terminal, history }) {
  let hash = 0;
  const add = (value) => { hash = Math.imul(hash ^ value, 0x01000193) + 1 | 0; };
  for (let at = 0; at < 256; at++) add(kit.words[at]);
  for (let at = 0; at < 256; at++) add(executed[at]);
  for (let number = 0; number < 32; number++) add(kit.x[number]);
  for (const value of [kit.pc, kit.last, terminal.printed, history.steps]) add(value);
  return hash;
}

function statesThatDiffer(machine, states) {
  let wrong = 0;
  while (states.length > 0) {
    if (states.pop() !== short(machine)) wrong++;
    machine.stepBack();
  }
  return wrong;
}

main(process.argv.slice(2)).catch((error) => {
  console.error(error.stack);
  process.exit(1);
});
