"use strict";

// Tries what shows no view by tables of cases, and says how many comparisons were made of what.
//
// usage: node cases.js SCRIPTS MODULE
//
// SCRIPTS is the folder of the page's scripts, and MODULE the library as WebAssembly. The status is
// 0 where all is as it should be.

const fs = require("node:fs");
const { makeClock, scripts } = require("./cases/load.js");
const { Report } = require("./cases/report.js");
const { tryMachine } = require("./cases/machine.js");
const { tryRecords } = require("./cases/records.js");
const { tryPrograms } = require("./cases/programs.js");
const { tryWording } = require("./cases/wording.js");
const { trySessions } = require("./cases/sessions.js");
const { tryCalls } = require("./cases/calls.js");
const { tryTraps } = require("./cases/traps.js");
const { tryChanges } = require("./cases/changes.js");
const { tryAssembly } = require("./cases/assembly.js");
const { tryLessons } = require("./cases/lessons.js");
const { tryGuards } = require("./cases/guards.js");
const { tryGrading } = require("./cases/grading.js");
const { tryRars } = require("./cases/rars.js");
const { tryExecutables } = require("./cases/executables.js");
const { tryCompressed } = require("./cases/compressed.js");
const { tryBits } = require("./cases/bits.js");
const { tryBoards } = require("./cases/boards.js");

async function main([folder, module]) {
  const clock = makeClock();
  const page = scripts(folder, clock);
  const kit = await page.Kit.load(fs.readFileSync(module));
  const report = new Report();
  report.begin("module");
  report.same("a browser that can run it", true, page.hasWebAssembly());
  tryMachine(report, page, kit);
  tryRecords(report, page, kit);
  await tryPrograms(report, page, kit);
  tryWording(report, page, kit);
  await trySessions(report, page, kit, clock);
  tryCalls(report, page, kit);
  tryTraps(report, page, kit);
  await tryChanges(report, page, kit, clock);
  tryAssembly(report, page, kit);
  await tryLessons(report, page, kit, clock);
  await tryGuards(report, page, kit);
  await tryGrading(report, page, kit);
  tryRars(report, page, kit);
  await tryExecutables(report, page, kit);
  await tryCompressed(report, page, kit, clock);
  await tryBits(report, page, kit, clock);
  await tryBoards(report, page, kit, clock);
  for (const [subject, count] of report.counts) console.log(`${subject} ${count}`);
  return report.failed === 0 ? 0 : 1;
}

main(process.argv.slice(2)).then((status) => process.exit(status), (error) => {
  console.log(`failed: ${error.stack}`);
  process.exit(1);
});
