"use strict";

// Programs as people give them: texts, files and links.

const { Report } = require("./report.js");

const MIB = 1 << 20;
const TOO_LONG = "A text of words has 8,388,608 bytes at most, and this one has more.";
const DAMAGED = "The link is damaged: its program can't be read.";

/* What a text is: its words, labels by their word, and comments by theirs; or why it is none. */
function readText(page, text, size = 65536) {
  try {
    const { words, labels, comments } = page.parseProgram(text, size);
    return [words, Object.fromEntries(labels), Object.fromEntries(comments)];
  } catch (error) {
    return error.message;
  }
}

const none = (shown, line = 1) =>
  `Line ${line}: "${shown}" is no word of 1 to 8 hexadecimal digits`;

function texts(report, page) {
  report.cases("a text", [
    ["13", [[0x13], {}, {}]], ["0x13 0XFF, ffffffff,0", [[0x13, 255, 0xffffffff, 0], {}, {}]],
    ["dead\tBEEF\r\n1\r2\n3", [[0xdead, 0xbeef, 1, 2, 3], {}, {}]],
    ["a: 1", [[1], { 0: ["a"] }, {}]],
    ["a:1 b:\nc.$_9: 2", [[1, 2], { 0: ["a"], 1: ["b", "c.$_9"] }, {}]],
    ["1 end:", [[1], { 1: ["end"] }, {}]], ["fade: fade", [[0xfade], { 0: ["fade"] }, {}]],
    ["1 2 # both\n3 ; three\n4 // four\n5",
      [[1, 2, 3, 4, 5], {}, { 0: "both", 2: "three", 3: "four" }]],
    ["# alone\n1", [[1], {}, {}]], ["1 #\n2", [[1, 2], {}, {}]],
    ["1 # a # b\n", [[1], {}, { 0: "a # b" }]], ["a:b:1", [[1], { 0: ["a", "b"] }, {}]],
    ["1\n# alone\n2 # two", [[1, 2], {}, { 1: "two" }]],
    ["", "There is no word in it."], ["# 1", "There is no word in it."],
    ["a:", "There is no word in it."],
    ["123456789", none("123456789")], ["0x", none("0x")], ["1\n\nfoo", none("foo", 3)],
    ["1\r\n2\rli a0, 5", none("li", 3)], ["0x0x1", none("0x0x1")], ["-1", none("-1")],
    ["1g", none("1g")], ["/1", none("/1")], ["9a: 1", none("9a:")],
    [`${"x".repeat(21)}`, none(`${"x".repeat(20)}…`)], ["x".repeat(20), none("x".repeat(20))],
    ["a: 1\nb: 2\n\na: 3", "Line 4: the label a stands on line 1 too"],
    ["é", none("é")],
  ], (text) => readText(page, text));
}

function sizesOfTexts(report, page) {
  report.cases("the words of a text, and the bytes of memory", [
    [[16384, 65536], 16384], [[16385, 65536], "It has 65,540 bytes, and the memory has 65,536."],
    [[16385, 262144], 16385], [[262144, MIB], 262144],
    [[262145, MIB], "It has more than 1,048,576 bytes, and a memory has no more."],
  ], ([count, size]) => {
    const read = readText(page, "13 ".repeat(count), size);
    return typeof read === "string" ? read : read[0].length;
  });
  const letter = "\u2028";
  report.cases("the length of a text", [
    ["\n".repeat(8 * MIB - 2) + "13", 1], ["\n".repeat(8 * MIB - 1) + "13", TOO_LONG],
    [`13 # ${letter.repeat(2796201)}`, 1], [`13  # ${letter.repeat(2796201)}`, TOO_LONG],
  ].map(([text, wanted]) => [{ text }, wanted]), ({ text }) => {
    const read = readText(page, text);
    return typeof read === "string" ? read : read[0].length;
  });
}

function files(report, page, kit) {
  const bytes = (...values) => Uint8Array.from(values);
  const written = (text) => new TextEncoder().encode(text);
  const tooLong = "It has 65,537 bytes, and the memory has 65,536. A larger memory can be chosen "
    + "under More.";
  const raw = bytes(0x37, 0xb1, 0x34, 0x12, 0x01);
  report.cases("the program of a file of some bytes", [
    [raw, "0x1234b137\n0x00000001\n"], [raw.subarray(0, 4), "0x1234b137\n"],
    [raw.subarray(1), "0x011234b1\n"], [written("13 # é\t\r\n\f"), "13 # é\t\r\n\f"],
    [written("nothing"), "nothing"], [bytes(0x31, 0), "0x00000031\n"],
    [bytes(0x31, 0x80), "0x00008031\n"], [bytes(0x31, 0x1b), "0x00001b31\n"],
    [bytes(0x7f, 0x45, 0x4c), "0x004c457f\n"],
    [new Uint8Array(65536), "0x00000000\n".repeat(16384)], [new Uint8Array(65537), tooLong],
    [written("# ".repeat(40000)), "# ".repeat(40000)],
    [bytes(0xff, 0xfe, 0x31, 0, 0xe9, 0), "1é"], [bytes(0xfe, 0xff, 0, 0x31, 0, 0xe9), "1é"],
    [bytes(0xff, 0xfe, 0x31, 0, 0, 0), "0x0031feff\n0x00000000\n"],
    [Buffer.from("ret # \xe9", "latin1"), "ret # é"],
    [Buffer.from("lesson: \xe9", "latin1"), "lesson: é"],
    [Buffer.from("13 \xe9", "latin1"), "0xe9203331\n"],
  ], (content) => {
    let text;
    const refused = Report.refused(() => { text = page.textOfFile(content, 65536, kit); });
    return refused ?? text;
  });
  report.same("the control characters that a text may have", [9, 10, 11, 12, 13],
    [...Array.from({ length: 32 }, (_, byte) => byte), 127]
      .filter((byte) => page.textIn(bytes(0x31, byte)) !== null));
  report.cases("why a file of a size is not read", [
    [0, "is empty."], [1, ""], [8 * MIB, ""],
    [8 * MIB + 1, "has 8,388,609 bytes, and a program 8,388,608 at most."],
  ], page.mistakeOfSize);
  report.cases("a number of hexadecimal digits", [
    ["0", 0], ["ffffffff", 0xffffffff], ["0x10", 16], ["0b1", 0xb1], ["100000000", NaN], ["", NaN],
    ["0x", NaN], [" 1", NaN], ["-1", NaN], ["1e9g", NaN],
  ], (text) => page.parseHex(text));
  report.cases("a word of digits", [
    [[0, 8], "00000000"], [[0xffffffff, 8], "ffffffff"], [[0xab, 2], "ab"], [[0xa, 4], "000a"],
  ], ([word, digits]) => page.hexOf(word, digits));
}

/* What a link gives: the program, null, or why it can't be opened. */
async function followed(page, hash) {
  try {
    return await page.decodeLink(hash);
  } catch (error) {
    return error instanceof page.ProgramError ? error.message : error;
  }
}

/* A link, made by another implementation of its form. */
function linkTo(text, fields = "") {
  const packed = require("node:zlib").deflateRawSync(Buffer.from(text));
  return `#${fields}program=${packed.toString("base64url")}`;
}

async function links(report, page) {
  const texts = ["13", "go: 13 # é\u2028\n", "13 ".repeat(5000), "", "\ufeff13"];
  for (const text of texts) {
    for (const [base, size, hasStack, calls] of [[0, 65536, false, "linux"],
      [0x80000000, MIB, true, "rars"], [4, 262144, false, "venus"]]) {
      const language = calls === "venus" ? "assembly" : "words";
      const program = { text, language, base, size, hasStack, calls };
      const link = await page.encodeLink(program);
      report.same(`there and back, ${text.length} letters`, program, await followed(page, link));
      report.same("the letters of a link", true, /^#[\w=&-]+$/.test(link));
    }
  }
  report.same("the fields of a link", "#base=0x80000000&size=1048576&stack=1&program=",
    (await page.encodeLink({ text: "13", base: 0x80000000, size: MIB, hasStack: true }))
      .replace(/[^=]*$/, ""));
  report.same("and its calls", "#base=0x00000000&size=65536&calls=venus&program=",
    (await page.encodeLink({ text: "13", base: 0, size: 65536, calls: "venus" }))
      .replace(/[^=]*$/, ""));
  const plain = {
    text: "13", language: "words", base: 0, size: 65536, hasStack: false, calls: "linux",
  };
  for (const [hash, wanted] of [
    ["", null], ["#", null], ["#base=0x10", null], [linkTo("13"), plain],
    [linkTo("13", "base=100&"), { ...plain, base: 256 }],
    [linkTo("13", "base=&"), { ...plain, base: NaN }],
    [linkTo("13", "base=4294967296&"), { ...plain, base: NaN }],
    [linkTo("13", "size=0x10&"), { ...plain, size: NaN }],
    [linkTo("13", "size=&"), { ...plain, size: NaN }],
    [linkTo("13", "size=262144&"), { ...plain, size: 262144 }],
    [linkTo("13", "stack=1&"), { ...plain, hasStack: true }],
    [linkTo("13", "stack=0&"), plain], [linkTo("13", "calls=rars&"), { ...plain, calls: "rars" }],
    [linkTo("13", "calls=else&"), { ...plain, calls: "else" }],
    [linkTo("13", "language=assembly&"), { ...plain, language: "assembly" }],
    [linkTo("13", "language=else&"), { ...plain, language: "else" }],
    [linkTo("13").slice(0, -2), DAMAGED],
    ["#program=!", DAMAGED], ["#program=AAAA", DAMAGED], ["#program=", DAMAGED],
    [linkTo(Buffer.from([0x31, 0xff])), DAMAGED],
    [linkTo("\n".repeat(8 * MIB)), { ...plain, text: "\n".repeat(8 * MIB) }],
    [linkTo("\n".repeat(8 * MIB + 1)), TOO_LONG],
  ]) report.same(`the link ${hash.slice(0, 60)}`, wanted, await followed(page, hash));
}

/* How each program of the menu ends, and what it prints. */
const ENDS = {
  hello: ["exit 0", "Hello\n"], sum: ["exit 0", "31"], max: ["exit 0", "42"], length: ["exit 0", "6"],
  factorial: ["exit 0", "120"], sort: ["exit 0", "1 1 2 3 4 5 6 9 "], list: ["exit 0", "10\n20\n30\n"],
  question: ["waiting", "A number, or 0 to end: "], port: ["exit 0", "Hello, RISC-V!\n"],
  interrupts: ["exit 0", "12345"], linux: ["exit 0", "Hello\n"], million: ["exit 0", ""],
  convention: ["exit 0", "0"],
  words: ["exit 0", ""], recursion: ["fault STORE", ""], exit: ["fault ILLEGAL", ""],
  stack: ["fault STORE", ""], load: ["fault LOAD", ""], misaligned: ["fault MISALIGNED", ""],
  jump: ["fault FETCH", ""], code: ["fault STORE", ""], ecall: ["fault ECALL", ""],
};

function examples(report, page, kit) {
  const { EXAMPLES, FAULT } = page;
  report.same("the programs of the menu", Object.keys(ENDS), EXAMPLES.map(({ id }) => id));
  report.same("those that fault, last", Object.keys(ENDS).slice(14),
    EXAMPLES.filter(({ isFault }) => isFault).map(({ id }) => id));
  report.same("those of words", ["words"],
    EXAMPLES.filter(({ language }) => language === "words").map(({ id }) => id));
  const [{ text, size, hasStack }] = EXAMPLES;
  const lines = text.split("\n").filter((line) => line.trim() !== "" && !line.startsWith("#"));
  report.same("the first: its lines, and its memory", [10, 65536, true],
    [lines.length, size, hasStack]);
  const session = new page.Session(new page.Machine(kit));
  for (const example of EXAMPLES) {
    session.open(example);
    const { machine } = session;
    const end = machine.run(2e6, new Uint8Array(1 << 18));
    const kind = Object.keys(FAULT).find((name) => FAULT[name] === end.kind);
    report.same(`the end of ${example.id}, and what it prints`, ENDS[example.id],
      [[end.reason, end.status ?? kind].filter((part) => part !== undefined).join(" "),
        machine.terminal.text(100)]);
  }
  report.same("sentences and names", [14, 22],
    [EXAMPLES.filter(({ about }) => about.endsWith(".")).length,
      new Set(EXAMPLES.map(({ name }) => name)).size]);
}

/** Tries texts, files, links and the programs of the menu. */
async function tryPrograms(report, page, kit) {
  report.begin("texts");
  for (const part of [texts, sizesOfTexts]) part(report, page);
  report.begin("files");
  files(report, page, kit);
  report.begin("links");
  await links(report, page);
  report.begin("examples");
  examples(report, page, kit);
}

module.exports = { tryPrograms, refused: Report.refused };
