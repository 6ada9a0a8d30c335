"use strict";

// Opens sources as the page does, and runs each to its end in the memory of `rrs exec`. Tells of
// each, on a line, what it printed and its status, or why it was not opened.
//
// usage: node classroom.js SCRIPTS MODULE SOURCE ..

const fs = require("node:fs");
const { makeClock, scripts } = require("./cases/load.js");

const LIMIT = 5000000;

async function main([folder, module, ...sources]) {
  const page = scripts(folder, makeClock());
  const kit = await page.Kit.load(fs.readFileSync(module));
  const session = new page.Session(new page.Machine(kit));
  for (const source of sources) console.log(JSON.stringify(run(page, session, source)));
}

function run(page, session, source) {
  const { machine } = session;
  const text = fs.readFileSync(source, "utf8");
  const language = page.isAssembly(text, machine.kit) ? "assembly" : "words";
  try {
    session.open({ ...page.PRESETS[1], name: source, text, language });
  } catch (error) {
    if (!(error instanceof page.ProgramError)) throw error;
    return error.message;
  }
  machine.terminal.close();
  const end = machine.run(LIMIT, session.stops);
  const { output, printed } = machine.terminal;
  const told = Buffer.from(output.slice(0, printed)).toString("latin1");
  return `${told}-- status ${end?.status}\n`;
}

main(process.argv.slice(2)).catch((error) => {
  console.error(error.stack);
  process.exit(1);
});
