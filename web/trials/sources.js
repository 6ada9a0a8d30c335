"use strict";

// Assembles sources as the page does, and tells of each, on a line, its bytes, the lines and
// addresses of its statements, as a listing has rows for them, and its mistakes.
//
// usage: node sources.js SCRIPTS MODULE SOURCE ..

const fs = require("node:fs");
const { makeClock, scripts } = require("./cases/load.js");

/* How many rows of 4 bytes a statement has at most in a listing. */
const MOST_ROWS = 4;

function rowsOf(statements) {
  return statements.flatMap(({ line, address, size }) => {
    const count = Math.min(Math.ceil(size / 4), MOST_ROWS);
    return Array.from({ length: count }, (_, row) => [line, address + 4 * row]);
  });
}

async function main([folder, module, ...sources]) {
  const page = scripts(folder, makeClock());
  const kit = await page.Kit.load(fs.readFileSync(module));
  for (const source of sources) {
    const { bytes, statements, mistakes } =
      page.assemble(fs.readFileSync(source, "utf8"), 0, kit);
    console.log(JSON.stringify({
      bytes: Buffer.from(bytes).toString("hex"),
      rows: rowsOf(statements),
      mistakes: mistakes.map(({ line, column, text }) => `${line}:${column} ${text}`),
    }));
  }
}

main(process.argv.slice(2)).catch((error) => {
  console.error(error.stack);
  process.exit(1);
});
