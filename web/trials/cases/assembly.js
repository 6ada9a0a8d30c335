"use strict";

// Sources of assembly: that the page gives them to the kit as they are, and takes what it tells as
// it is; and what is known of a text before that.

const { Report } = require("./report.js");

const hexed = (bytes) => Buffer.from(bytes).toString("hex");

/* The bytes of a source from an address on, or its mistakes. */
function made(page, kit, text, base = 0) {
  const { bytes, mistakes } = page.assemble(text, base, kit);
  if (mistakes.length === 0) return hexed(bytes);
  return mistakes.map(({ line, column, text: what }) => `${line}:${column} ${what}`);
}

function words(report, page, kit) {
  report.cases("the bytes of a source", [
    ["", ""], ["\n\n", ""], ["# nop", ""], ["nop", "13000000"],
    ["nop\r\nret\r\n", "1300000067800000"],
    ["li a0, 0x12345; ebreak", "372501001305553473001000"],
    ['.asciz "é😀" # ü', "c3a9f09f988000"], ["// \u2028\nnop", "13000000"],
    [".data\nx: .word 9\n.text\nla a0, x", "170500001305850009000000"],
    [".byte 1\n.comm x, 4\n.data\n.half 2", "010000000200000000000000"],
    [".bss\n.space 4\n.text\nnop", "1300000000000000"],
  ], (text) => made(page, kit, text));
  report.cases("the bytes of a source from an address on", [
    [0, "b7020000"], [0x1000, "b7120000"], [0x80000000, "b7020080"], [0xfff00000, "b702f0ff"],
  ], (base) => made(page, kit, "x: lui t0, %hi(x)", base));
}

/* The statements of a source: the line, the address, the size and the text of each. */
function statementsOf(page, kit, text, base = 0x1000) {
  return page.assemble(text, base, kit).statements.map(({ line, address, size, text: own }) =>
    [line, address - base, size, own]);
}

function statements(report, page, kit) {
  report.cases("the statements of a source", [
    ["", []],
    ["nop # so\n\n  li a0, 0x12345\r\n", [[1, 0, 4, "nop # so"], [3, 4, 8, "li a0, 0x12345"]]],
    ["a: 1: nop; nop ; # both", [[1, 0, 4, "nop"], [1, 4, 4, "nop"]]],
    ['.ascii "é:;#"; .byte \';\', \':\' // ü',
      [[1, 0, 5, '.ascii "é:;#"'], [1, 5, 2, ".byte ';', ':' // ü"]]],
    ['.ascii "\\"; x"; .byte \'\\\'\'', [[1, 0, 4, '.ascii "\\"; x"'], [1, 4, 1, ".byte '\\''"]]],
    [".align 3; .word 1; .align 2; .word 2", [[1, 0, 4, ".word 1"], [1, 4, 4, ".word 2"]]],
    [".data\n.byte 1\n.text\nnop", [[4, 0, 4, "nop"], [2, 4, 1, ".byte 1"]]],
    ["x: .globl x; call x", [[1, 0, 8, "x: .globl x; call x"]]],
    [".data; .byte 1; .text; nop",
      [[1, 0, 4, ".data; .byte 1; .text; nop"], [1, 4, 1, ".data; .byte 1; .text; nop"]]],
    ["nop\n.comm x, 8", [[1, 0, 4, "nop"], [2, 8, 8, ".comm x, 8"]]],
    [".comm x, 8; y = 1", [[1, 0, 8, ".comm x, 8; y = 1"]]],
    [".rept 2\nnop\n.endr", [[2, 0, 4, "nop"], [2, 4, 4, "nop"]]],
    [".macro m a\nli \\a, 1; li \\a, -1 # é\n.endm\nm a0\nret\nm a1",
      [[2, 0, 4, "li \\a, 1"], [2, 4, 4, "li \\a, -1 # é"], [5, 8, 4, "ret"],
        [2, 12, 4, "li \\a, 1"], [2, 16, 4, "li \\a, -1 # é"]]],
  ], (text) => statementsOf(page, kit, text));
  report.cases("the labels of a source", [
    ["nop", []], ["1: nop", []], ["a: b: nop\n.Lc: 2:", [["a", 0], ["b", 0], [".Lc", 4]]],
    [".data\nx: .byte 1\ny:\n.text\nz: nop", [["z", 0], ["x", 4], ["y", 5]]],
    ["v = 3\n.lcomm $w_.9, 4", [["$w_.9", 0]]],
  ], (text) => page.assemble(text, 0x1000, kit).labels
    .map(({ name, address }) => [name, address - 0x1000]));
}

/* A source in which ¦ stands where its one mistake is, and its words. */
const MISTAKES = [
  ["¦xyzzy", "no such instruction or directive: xyzzy; a label is written xyzzy:"],
  ["¦adi a0, a0, 1", "no such instruction or directive: adi; is add meant?"],
  ["a ¦b: nop", "unexpected character: a label is one word of letters, digits, _, . and $"],
  ["mv a0, ¦5", "a register is wanted here: li takes a number"],
  ["li a0,¦", "a value is wanted here: it is written li rd, number"],
  ["addi a0, a1, ¦a2", "a number is wanted here: add takes three registers"],
  ["li a0, ¦08", "not a number: 08; one that begins with 0 is octal"],
  ["slli a0, a0, ¦32", "value out of range: slli takes 0 to 31"],
  ["beqz a0, ¦. + 3", "a label or an even address is wanted here"],
  ["add a0 ¦a1", "a comma is wanted here: it is written add rd, rs1, rs2"],
  ["lw a0, 4¦", "a parenthesis is wanted here: it is written lw rd, offset(rs1)"],
  ['.ascii "a¦', 'a quotation mark is wanted here: it is written .ascii "text"'],
  ['.ascii "a\\¦q"', String.raw`no such escape: there are \n, \t, \r, \b, \f, \0, \\, \" and \'`],
  ["nop ¦nop", "more than the statement takes: it is written nop"],
  ["j ¦1f", "symbol is not defined: 1f; no 1: stands below"],
  ["la a0, ¦mesage\nmessage: nop", "symbol is not defined: mesage; is message meant?"],
  ["li a0, ¦x\nx = 3", "symbol is defined later, and its value is wanted here: x"],
  ["a: nop\n¦a: nop", "symbol is defined already: a, in line 1"],
  ["li a0, ¦ff", "symbol is not defined: ff; is 0xff meant?"],
  ["¦.section foo", "a section needs a name, and flags where its name says nothing"],
  [".bss\n¦.word 1",
    "this section holds zeros only; .space is written here, and .data before numbers"],
  [".option ¦pic", "not implemented: pic"],
  ["addi a0, a0, %¦hi(4)", "12 bits are wanted here, as %lo"],
  ["lui a0, %¦lo(4)", "the upper 20 bits are wanted here, as %hi"],
  ["addi a0, a0, %¦pcrel_lo(x)\nx: nop", "no statement with %pcrel_hi is at this label"],
  ["li a0, 1 / 0¦", "division by zero"],
  [`li a0, ${"(".repeat(65)}¦`, "too many operators and parentheses"],
  [".org 400\n.org ¦40", "the address goes back"],
  [".byte 1\n¦nop", "the address of an instruction is misaligned; .align 2 stands before it, "
    + "or .data before what is data"],
  [".space ¦100000000", "value out of range: .space takes 0 to 67108864 bytes"],
  ["¦.rept 2\nnop", "there is no .endm or .endr of this macro or repetition"],
  ["¦.macro m\nnop\n", "there is no .endm or .endr of this macro or repetition"],
  [".macro m a\nli a0, ¦\\a\n.endm\nm 08", "not a number: 08; one that begins with 0 is octal"],
];

/* The mistakes of a marked source, each as the source with the mark at its place. A carriage return
 * is a blank, behind which a mistake may stand. */
function mistakesAt(page, kit, marked) {
  const text = marked.replace("¦", "");
  return page.assemble(text, 0, kit).mistakes.map(({ line, column, text: what }) => {
    const at = page.lineStartsOf(text)[line - 1] + column - 1;
    return [`${text.slice(0, at)}¦${text.slice(at)}`.replace("\r¦", "¦\r"), what];
  });
}

function mistakes(report, page, kit) {
  for (const [marked, what] of MISTAKES) {
    for (const source of [marked, `.ascii "é😀";;.align 2;${marked}`, `# ü\r\n${marked}\r\n# 😀`]) {
      const told = source.startsWith("#") ? what.replace("line 1", "line 2") : what;
      report.same(`what is wrong in ${source}`, [[source, told]], mistakesAt(page, kit, source));
    }
  }
  report.same("how many are told", 20, made(page, kit, "foo\n".repeat(30)).length);
  report.same("the lines of several", ["2:1", "4:2"],
    made(page, kit, "nop\nfoo\nnop\n bar\nnop").map((each) => each.split(" ")[0]));
}

/* What the library tells of a source over room and buffers that are small at first. */
function overLittle(page, kit, text, mostRoom = page.MOST_ROOM) {
  const assembler = new page.Assembler(new WebAssembly.Instance(kit.module, {}).exports);
  const first = Object.keys(assembler.holds).map((name) => [name, 0]);
  Object.assign(assembler, { room: 16, holds: Object.fromEntries(first) });
  return assembler.assemble(new TextEncoder().encode(text), 0x1000, mostRoom);
}

function memories(report, page, kit) {
  const long = Array.from({ length: 20000 }, (_, at) => `l${at}: la a0, l${at} # é`).join("\n");
  for (const text of ["", "nop", "a: nop\n.data\nb: .word 1", long, "foo\n".repeat(20)]) {
    report.same(`over little memory, ${text.length} letters`, kit.assemble(text, 0x1000),
      overLittle(page, kit, text));
  }
  report.same("how much there is", [160000, 20000, 20000], ["bytes", "statements", "labels"].map(
    (name) => kit.assemble(long, 0x1000)[name].length));
  report.same("over less than is needed", "the room is as large as it may be",
    Report.refused(() => overLittle(page, kit, long, 1 << 16)));
  const { assembler } = kit;
  report.same("with less room than there is, and with it", [null, "1300000013000000", false, true], [
    page.assemble(long, 0, kit, 1 << 16), made(page, kit, "nop\nnop"), kit.assembler === assembler,
    page.assemble(long, 0, kit, 1 << 26) !== null]);
  const repeated = `.rept 50000\n${"nop\n".repeat(75)}.endr`;
  report.same("with less than is needed", "There is not enough memory to assemble it.",
    Report.refused(() => page.parseAssembly(repeated, 0, 65536, kit, page.ROOM_LIVE)));
  report.same("where memory does not grow", null, kit.assemble.call({ assembler: { assemble() {
    throw new RangeError("no memory");
  } } }, "nop", 0));
  report.cases("the bytes of a program, and those that are there", [
    [1 << 20, [1 << 20, 1 << 20, 2]], [(1 << 20) + 1, [(1 << 20) + 1, 0, 0]],
  ], (count) => {
    const { size, bytes, statements: all } = page.assemble(`.space ${count - 1}\n.byte 1`, 0, kit);
    return [size, bytes.length, all.length];
  });
}

function programs(report, page, kit) {
  const read = (text, base = 0) => page.parseAssembly(text, base, 65536, kit);
  const text = "helper: ret\nmain:\n  li a0, 0x12345  # so\n  nop; nop\n.data\n"
    + "c: .byte 1\nd: .byte 2";
  const program = read(text, 0x1000);
  report.same("the words", [0x00008067, 0x00012537, 0x34550513, 0x13, 0x13, 0x0201],
    [...program.words]);
  report.same("the labels by their words", { 0: ["helper"], 1: ["main"], 5: ["c", "d"] },
    Object.fromEntries(program.labels));
  report.same("where the labels stand", { helper: [0, 0], main: [1, 4], c: [5, 20], d: [5, 21] },
    Object.fromEntries([...program.places].map(([name, { index, offset }]) =>
      [name, [index, offset]])));
  report.same("the lines of the words", [[0, 1, "ret"], [1, 3, "li a0, 0x12345  # so"], [2, 3, ""],
    [3, 4, "nop"], [4, 4, "nop"], [5, 6, ".byte 1; .byte 2"]],
  [...program.sources].map(([index, { line, text: own }]) => [index, line, own]));
  report.cases("where a program starts", [
    ["nop", 0], ["nop\nmain: nop", 4], ["nop\nmain: nop\n_start: nop", 8],
    [".data\nmain: .word 1", 0], ["nop\n.data\n.byte 1\nmain: .byte 1", 0], [".word 1", 0],
  ], (source) => read(source, 0x1000).entry);
  report.cases("why a source is no program", [
    ["nop\nfoo", "Line 2: no such instruction or directive: foo; a label is written foo:"],
    ["", "There is no statement in it."],
    ["# nop", "There is no statement in it."], ["x = 1", "There is no statement in it."],
    [".space 65537", "It has 65,537 bytes, and the memory has 65,536."],
    [".space 2000000", "It has 2,000,000 bytes, and the memory has 65,536."],
  ], (source) => Report.refused(() => read(source)));
}

function known(report, page, kit) {
  report.cases("whether a text is assembly", [
    ["li a0, 5", true], ["13", false], ["# li a0, 5\n13", false], ["add", false],
    ["add a0, a1, a2", true], ["x: add a0, a1, a2", true], ["dead beef", false], [".data", true],
    [".start: 13", false], ["ret", true], ["nothing", false], ["loop: 13", false], ["", false],
    ["a:b: nop", true], ["1: nop", true], ["13\nmv a0, a1", true],
    ["/* so */ li a0, 5", true], ["/* a\nli a0, 5\n*/ 13", false], ["# /*\nret", true],
  ], (text) => page.isAssembly(text, kit));
  report.same("names that are coloured and that the kit does not have", [],
    [...page.namesOf(kit)].filter((name) => made(page, kit, name).toString().includes("no such")));
  report.same("how many are coloured", 107 + page.PSEUDO.length, page.namesOf(kit).size);
  const coloured = (text) => page.colouredIn(text, kit)
    .map(({ start, end, kind }) => `${text.slice(start, end)} ${kind}`);
  report.cases("the colours of a source", [
    ["x: li a0, 5 # so", ["x: label", "li name", "a0 register", "5 number", "# so comment"]],
    ['.ascii "a#b" // c', [".ascii directive", '"a#b" string', "// c comment"]],
    ['.ascii "a\\"b", "\\\\" # "', [".ascii directive", '"a\\"b" string', '"\\\\" string',
      '# " comment']],
    ["li a0, '\\''#", ["li name", "a0 register", "'\\'' string", "# comment"]],
    ["j there", ["j name"]], ["li a0, 'a'", ["li name", "a0 register", "'a' string"]], ["", []],
  ], coloured);
  const blocks = "/* a\nb */ li\nnop /* c\nnop */";
  report.cases("the colours between two places", [
    [[0, 5], ["/* a\nb */ comment"]], [[5, 13], ["/* a\nb */ comment", "li name"]],
    [[13, 22], ["nop name", "/* c\nnop */ comment"]], [[22, 29], ["/* c\nnop */ comment"]],
  ], ([from, to]) => page.colouredIn(blocks, kit, from, to)
    .map(({ start, end, kind }) => `${blocks.slice(start, end)} ${kind}`));
  const text = "add a0, a1\nx\n";
  report.cases("the place of a mistake in a text", [
    [[1, 5], [4, 6]], [[1, 7], [6, 7]], [[1, 11], [9, 10]], [[2, 1], [11, 12]], [[3, 1], [13, 13]],
  ], ([line, column]) => page.EditorView.prototype.wrongIn
    .call({ mistakes: [{ line, column }] }, text, page.lineStartsOf(text))[0]);
}

/** Tries sources of assembly. */
function tryAssembly(report, page, kit) {
  report.begin("assembly");
  for (const part of [words, statements, mistakes, memories, programs, known]) {
    part(report, page, kit);
  }
}

module.exports = { tryAssembly };
