"use strict";

// What the page shows of a session: a class for each panel, whose `render` brings it up to date.

const $ = (id) => document.getElementById(id);

/** A new element with a class and a text. */
function make(tag, className = "", text = "") {
  const element = document.createElement(tag);
  element.className = className;
  element.textContent = text;
  return element;
}

function setText(element, text) {
  if (element.textContent !== text) element.textContent = text;
}

/** Brings the children of an element to a number, by a function that makes one. */
function resize(parent, count, makeOne) {
  while (parent.children.length > count) parent.lastChild.remove();
  while (parent.children.length < count) parent.append(makeOne());
  return parent.children;
}

/** An element with cells in it, as a row of a table. */
function makeRow(tag, cells) {
  const row = make(tag);
  row.append(...cells);
  return row;
}

/** The greatest of some counts, and 1 where all are 0. */
function mostOf(counts) {
  let most = 1;
  for (let at = 0; at < counts.length; at++) if (counts[at] > most) most = counts[at];
  return most;
}

/** How much room an element has, by what was measured when it last changed: to measure it anew would
 * have the browser lay the page out. */
class Room {
  constructor(element, onChange) {
    this.width = this.height = 0;
    new ResizeObserver(() => {
      this.width = element.clientWidth;
      this.height = element.clientHeight;
      // a page that has no program yet shows it once it has
      if (globalThis.rrs?.session.before !== undefined) onChange();
    }).observe(element);
  }
}

/* ---- the program */

const LINE_HEIGHT = 24;
const LINES_AROUND = 4;

/* How many characters of a comment are shown, and how many labels of a word. */
const COMMENT_SHOWN = 200;
const LABELS_SHOWN = 8;

/** The labels of a word, as one text. */
function labelsShown(names) {
  const shown = names.slice(0, LABELS_SHOWN).map((name) => shortened(name, LABEL_SHOWN));
  const others = names.length - shown.length;
  if (others > 0) shown.push(`${numbered(others)} more`);
  return shown.join(", ");
}

/** The lines of the program, of which those in view stand in the page. */
class ListingView {
  constructor(session) {
    this.session = session;
    this.box = $("listing");
    this.sheet = make("div", "sheet");
    this.box.append(this.sheet);
    this.top = 0;
    this.onRunTo = () => {};
    this.room = new Room(this.box, () => this.render());
    this.box.addEventListener("scroll", () => this.scroll());
    this.box.addEventListener("click", (event) => this.click(event));
    this.box.addEventListener("dblclick", ({ target }) => {
      if (target.closest(".line") && target.className !== "gutter") this.onRunTo();
    });
  }

  click(event) {
    const line = event.target.closest(".line");
    if (!line) return;
    const index = Number(line.dataset.index);
    this.session.selected = index;
    if (event.target.className === "gutter") this.session.toggleBreakpoint(index);
    else this.session.select(this.session.rowOf(index));
  }

  /** Shows the lines where the box is scrolled to. */
  scroll() {
    this.top = this.box.scrollTop;
    this.renderLines();
  }

  /** Scrolls as little as needed to have the line of a word or a half-word in view. */
  reveal(index) {
    const { box, room: { height } } = this;
    const top = this.session.rowOf(index) * LINE_HEIGHT;
    const margin = 2 * LINE_HEIGHT;
    const least = top + LINE_HEIGHT + margin - height;
    const last = this.session.lines * LINE_HEIGHT - height;
    const wanted = Math.min(top - margin, Math.max(least, this.top));
    const to = Math.max(0, Math.min(wanted, last));
    if (to === this.top) return;
    box.scrollTop = to;
    this.scroll();
  }

  render() {
    const { machine } = this.session;
    this.sheet.style.height = `${this.session.lines * LINE_HEIGHT}px`;
    this.box.classList.toggle("with-sources", this.session.sources.size > 0);
    const pc = machine.indexOf(machine.kit.pc);
    if (pc !== this.pcShown && pc >= 0 && this.room.height > 0) this.reveal(pc);
    // where the listing is hidden, when it is shown
    if (this.room.height > 0) this.pcShown = pc;
    this.renderLines();
    this.renderCoverage();
  }

  renderCoverage() {
    const { session, session: { machine } } = this;
    const length = session.rowOf(machine.program.length);
    let executed = 0;
    for (let row = 0; row < length; row++) if (machine.executed[session.partOf(row)]) executed++;
    const what = session.rows === null ? "word" : "line";
    setText($("coverage"), `${executed} of ${counted(length, what)} executed`);
  }

  renderLines() {
    const { session, box, room } = this;
    const first = Math.max(0, Math.floor(this.top / LINE_HEIGHT) - LINES_AROUND);
    const inView = Math.ceil(room.height / LINE_HEIGHT) + 2 * LINES_AROUND;
    const count = Math.max(0, Math.min(session.lines - first, inView));
    // no word behind the lines was executed
    this.most = mostOf(session.machine.executed.subarray(0, session.partOf(session.lines)));
    const lines = resize(this.sheet, count, () => this.makeLine());
    for (let i = 0; i < count; i++) this.fillLine(lines[i], first + i);
    const selected = session.rowOf(session.selected);
    const isThere = selected >= first && selected < first + count;
    if (isThere) box.setAttribute("aria-activedescendant", `line-${session.selected}`);
    else box.removeAttribute("aria-activedescendant");
  }

  makeLine() {
    const line = makeRow("div", [
      make("span", "gutter"), make("span", "address"), make("span", "word"), make("span", "text"),
      make("span", "executed"),
    ]);
    line.setAttribute("role", "option");
    const [, address, , text] = line.children;
    address.append(make("span", "high"), make("span"));
    text.append(make("b", "label"), make("span", "instruction"), make("i", "comment"));
    line.lastChild.append(make("i", "bar"), make("span", "count"));
    return line;
  }

  fillLine(line, row) {
    const { session } = this;
    const { machine } = session;
    const { kit } = machine;
    const index = session.partOf(row);
    const address = kit.base + kit.unit * index;
    const text = session.textAt(index);
    const labels = labelsShown(session.labels.get(index) ?? []);
    const source = session.sources.get(index);
    const comment = shortened(source?.text ?? session.comments.get(index) ?? "", COMMENT_SHOWN);
    const count = machine.executed[index];
    const isPc = kit.pc === address;
    const isStop = (session.stops[index] & STOP.BREAKPOINT) !== 0;
    const isSelected = index === session.selected;
    const [, addressCell, wordCell, textCell, executed] = line.children;
    line.id = `line-${index}`;
    line.dataset.index = index;
    line.style.top = `${row * LINE_HEIGHT}px`;
    line.className = `line listing-row${isPc ? " pc" : ""}${isStop ? " stop" : ""}`
      + `${isSelected ? " selected" : ""}${text ? "" : " none"}`;
    line.setAttribute("aria-selected", isSelected);
    const digits = hexOf(address);
    setText(addressCell.firstChild, digits.slice(0, 4));
    setText(addressCell.lastChild, digits.slice(4));
    setText(wordCell, session.digitsAt(index));
    setText(textCell.children[0], labels && `${labels}:`);
    setText(textCell.children[1], text || "no instruction");
    setText(textCell.children[2], comment);
    textCell.children[2].className = source ? "comment source" : "comment";
    setText(executed.lastChild, count ? count.toLocaleString("en") : "");
    executed.firstChild.style.width = `${100 * Math.log1p(count) / Math.log1p(this.most)}%`;
    const parts = [labels, hex(address), text || "no instruction"];
    if (source) parts.push(source.line > 0 ? `line ${source.line}` : "given");
    if (isPc) parts.push("next");
    if (isStop) parts.push("breakpoint");
    if (count) parts.push(`executed ${counted(count, "time")}`);
    const said = parts.filter((part) => part).join(", ");
    line.setAttribute("aria-label", said);
    line.title = comment ? `${said}: ${comment}` : said;
  }
}

/* ---- the registers */

/* What is said of a register or a word that has another value than where the machine stood last. */
const SINCE = "changed since the last stop";

/* The choices of how registers are called. */
const NAME_CHOICES = [["abi", "names (a0)"], ["number", "numbers (x10)"]];

/* What is shown of machine mode. */
const CSRS_SHOWN = ["mstatus", "mtvec", "mie", "mip", "mepc", "mcause", "mtval", "mscratch", "time"];

/** The pc and the registers x1 to x31, and the CSRs of machine mode. */
class RegistersView {
  constructor(session) {
    this.session = session;
    this.radix = "hex";
    this.cells = ABI_NAMES.map((name, number) => this.makeCell(name, number));
    $("registers").append(...this.cells);
    this.csrs = CSRS_SHOWN.map((name) => this.makeCsr(name));
    $("csrs").append(...this.csrs);
    this.onChoose = () => {};
    $("registers").addEventListener("click", ({ target }) => {
      const cell = target.closest(".register");
      if (cell) this.onChoose(cell.id, cell.lastChild.textContent);
    });
    for (const [id, name] of NAME_CHOICES) $("names").append(new Option(name, id));
    for (const [id, { name }] of Object.entries(RADIXES)) $("radix").append(new Option(name, id));
  }

  makeCell(name, number) {
    const cell = makeRow("div", [
      make("span", "name", number ? name : "pc"),
      make("span", "number", number ? `x${number}` : ""),
      make("span", "value"),
    ]);
    cell.id = number ? `x${number}` : "pc";
    cell.setAttribute("role", "listitem");
    return cell;
  }

  makeCsr(name) {
    const cell = makeRow("div", [make("span", "name", name), make("span", "value")]);
    cell.className = "csr";
    cell.setAttribute("role", "listitem");
    return cell;
  }

  /* The CSRs, and the time, where the machine has machine mode. */
  renderCsrs() {
    const { machine: { traps, environment } } = this.session;
    $("csrs").hidden = !environment.hasTraps;
    const values = { mip: traps.pending, time: traps.time };
    CSRS_SHOWN.forEach((name, at) =>
      setText(this.csrs[at].lastChild, hex(values[name] ?? traps.csrs[CSR[name]])));
  }

  render() {
    this.renderCsrs();
    const { machine: { kit }, names, before } = this.session;
    const { write } = RADIXES[this.radix];
    $("registers").dataset.radix = this.radix;
    this.cells.forEach((cell, number) => {
      const [name, other, value] = cell.children;
      if (number) setText(name, names[number]);
      if (number) setText(other, names === NAMES.abi ? `x${number}` : ABI_NAMES[number]);
      setText(value, number ? write(kit.x[number]) : hex(kit.pc));
      const isLast = number !== 0 && number === kit.last;
      const isChanged = number !== 0 && kit.x[number] !== before.x[number];
      cell.className = `register${isLast ? " last" : ""}${isChanged ? " since" : ""}`;
      const said = [isLast && "the last written", isChanged && SINCE].filter((part) => part);
      if (said.length > 0) cell.setAttribute("aria-description", said.join(", "));
      else cell.removeAttribute("aria-description");
    });
  }
}

/* ---- memory */

/* How many rows of memory there are, where there is no room to count them by, and at least. */
const MEMORY_ROWS = 7;
const FEWEST_ROWS = 3;

/* How many of them lie before the one that memory is shown around. */
const ROWS_BEFORE = 4;

/* What the marks of memory mean. */
const MARKS_OF_MEMORY = {
  stored: "the last store", since: SINCE, changed: "changed since the start",
};

/* How many labels the menu of memory has at most. Each other can be typed as an address. */
const LABELS_IN_MENU = 1000;

/** A part of memory, around an address or a register. */
class MemoryView {
  constructor(session) {
    this.session = session;
    this.around = "sp";
    this.unit = 4;
    this.start = 0;
    this.typed = 0;
    this.onChoose = () => {};
    this.room = new Room($("panel-memory"), () => {
      this.rowHeight = $("memory").rows[0]?.offsetHeight;
      this.render();
    });
    $("memory").addEventListener("click", ({ target }) => {
      if (target.dataset.address) this.onChoose(target.dataset.address, `0x${target.textContent}`);
    });
  }

  /** Takes up a program that was just opened. */
  open() {
    this.storeShown = undefined;
    this.fillChoices();
  }

  /* The choices of the menu: registers, the labels of the program, and an address. */
  fillChoices() {
    const choices = [["sp", "around sp"], ["pc", "around pc"], ["store", "at last store"]];
    for (const name of [...this.session.places.keys()].slice(0, LABELS_IN_MENU)) {
      choices.push([`label ${name}`, `at ${shortened(name, LABEL_SHOWN)}`]);
    }
    choices.push(["address", "at the address"]);
    $("around").replaceChildren(...choices.map(([value, text]) => new Option(text, value)));
    if (!choices.some(([value]) => value === this.around)) this.around = "sp";
  }

  /* How many rows there are, by the room there is. */
  get rows() {
    if (!this.rowHeight) return MEMORY_ROWS;
    return Math.max(FEWEST_ROWS, Math.floor((this.room.height - 10) / this.rowHeight));
  }

  /* How many bytes a row has, by the room there is. */
  get rowBytes() {
    return this.room.width < (this.unit === 1 ? 580 : 440) ? 8 : 16;
  }

  /* The address that the panel is about. */
  target() {
    const { machine } = this.session;
    const { kit } = machine;
    if (this.around === "sp") return kit.x[2];
    if (this.around === "pc") return kit.pc;
    if (this.around === "store") {
      return machine.history.latestStore()?.address ?? this.storeShown ?? kit.base;
    }
    if (this.around === "address") return this.typed;
    return this.session.addressOf(this.around.slice(6)) ?? kit.base;
  }

  /* Moves the part that is shown so that the address is in it. */
  follow(address) {
    const { kit } = this.session.machine;
    const { rowBytes, rows } = this;
    const most = kit.base + kit.size - rows * rowBytes;
    const row = address - address % rowBytes;
    const isIn = row >= this.start && row < this.start + (rows - 1) * rowBytes;
    const isExact = this.around === "address" || this.around.startsWith("label");
    if (isExact) this.start = row;
    else if (!isIn) this.start = row - Math.min(ROWS_BEFORE, rows - 2) * rowBytes;
    this.start = Math.max(kit.base, Math.min(this.start, most));
    this.start -= (this.start - kit.base) % rowBytes;
  }

  /** Shows the address that was typed, as a label or in digits. Returns whether it is one. */
  show(text) {
    const address = this.session.addressOf(text.trim()) ?? parseHex(text.trim());
    if (this.session.machine.indexOf(address) < 0) return false;
    this.around = "address";
    this.typed = address;
    this.render();
    return true;
  }

  /** Shows what lies some rows below or above. */
  page(rows) {
    const { kit } = this.session.machine;
    const most = kit.base + kit.size - this.rows * this.rowBytes;
    this.typed = Math.max(kit.base, Math.min(this.start + rows * this.rowBytes, most));
    this.around = "address";
    $("address").value = hex(this.typed);
    this.render();
  }

  render() {
    const target = this.target();
    if (this.around === "store") this.storeShown = target;
    this.follow(target);
    $("around").value = this.around;
    const rows = resize($("memory").tBodies[0], this.rows, () => make("tr"));
    const cells = this.rowBytes / this.unit;
    const stored = this.session.machine.history.latestStore();
    for (let row = 0; row < rows.length; row++) {
      if (rows[row].children.length !== cells + 2) this.makeCells(rows[row], cells);
      this.fillRow(rows[row], this.start + row * this.rowBytes, target, stored);
    }
  }

  makeCells(row, cells) {
    const address = make("th", "address");
    address.scope = "row";
    row.replaceChildren(address);
    for (let cell = 0; cell < cells; cell++) row.append(make("td"));
    row.append(make("td", "letters"));
  }

  fillRow(row, address, target, stored) {
    const { machine: { kit, program }, before: { words } } = this.session;
    const cells = [...row.children];
    const letters = cells.pop();
    setText(cells.shift(), hexOf(address));
    cells.forEach((cell, at) => {
      const here = address + at * this.unit;
      const index = (here - kit.base) >>> 2;
      const isByte = this.unit === 1;
      const value = isByte ? kit.bytes[here - kit.base] : kit.words[index];
      const part = (word) => (isByte ? word >>> 8 * (here % 4) & 0xff : word);
      const before = part(program[index] ?? 0);
      const isSince = value !== part(words[index]);
      const isStored = stored && here < stored.address + stored.length
        && stored.address < here + this.unit;
      const isTarget = here <= target && target < here + this.unit;
      setText(cell, hexOf(value, 2 * this.unit));
      const mark = isStored ? "stored" : isSince ? "since" : value !== before ? "changed" : "";
      cell.className = (mark || (value ? "" : "zero")) + (isTarget ? " target" : "");
      cell.title = MARKS_OF_MEMORY[mark] ?? "";
      cell.dataset.address = hex(here);
    });
    setText(letters, this.lettersAt(address));
  }

  lettersAt(address) {
    const { kit } = this.session.machine;
    const from = address - kit.base;
    const bytes = kit.bytes.subarray(from, from + this.rowBytes);
    return Array.from(bytes, (byte) =>
      byte >= 32 && byte < 127 ? String.fromCharCode(byte) : "·").join("");
  }
}

/* ---- the details, and the parts of a narrow page */

/** The panels of details, of which one is shown. */
class TabsView {
  /** `onShow` is called when another is shown. */
  constructor(onShow) {
    this.onShow = onShow;
    this.all = [...$("tabs").children].map(({ id }) => id.replace("tab-", ""));
    this.now = this.all[0];
    $("tabs").addEventListener("click", ({ target }) => {
      if (target.role === "tab") this.show(target.id.replace("tab-", ""));
    });
    $("tabs").addEventListener("keydown", (event) => this.press(event));
  }

  show(name) {
    this.now = name;
    for (const each of this.all) {
      const isShown = each === name;
      $(`tab-${each}`).setAttribute("aria-selected", isShown);
      $(`tab-${each}`).tabIndex = isShown ? 0 : -1;
      $(`panel-${each}`).hidden = !isShown;
      document.querySelector(`[data-of=${each}]`).hidden = !isShown;
    }
    this.onShow();
  }

  next(by = 1) {
    const { all } = this;
    this.show(all[(all.indexOf(this.now) + by + all.length) % all.length]);
  }

  press(event) {
    const by = { ArrowRight: 1, ArrowLeft: -1 }[event.key];
    if (by === undefined) return;
    event.preventDefault();
    this.next(by);
    $(`tab-${this.now}`).focus();
  }
}

/** Brings a part of a narrow page into view. */
function showPart(name) {
  const part = document.querySelector(`section.${name}`);
  $("main").scrollTo({ left: part.offsetLeft - $("main").offsetLeft });
}

/** Marks the part of a narrow page that is in view. */
function markPart() {
  const { scrollLeft, clientWidth } = $("main");
  const at = Math.round(scrollLeft / Math.max(1, clientWidth));
  [...$("parts").children].forEach((button, number) => {
    if (number === at) button.setAttribute("aria-current", "true");
    else button.removeAttribute("aria-current");
  });
}

/* ---- the console */

const OUTPUT_SHOWN = 20000;

/** What the program printed. */
class ConsoleView {
  constructor(session) {
    this.session = session;
  }

  render() {
    const { terminal } = this.session.machine;
    const output = $("output");
    const text = terminal.text(OUTPUT_SHOWN);
    if (output.textContent !== text) {
      output.textContent = text;
      output.scrollTop = output.scrollHeight;
    }
    const notes = [];
    if (terminal.printed > OUTPUT_SHOWN) notes.push(`the last ${counted(OUTPUT_SHOWN, "byte")}`);
    if (terminal.lost) notes.push(`${counted(terminal.lost, "byte")} lost: no room`);
    if (terminal.isClosed) notes.push("input ended");
    setText($("lost"), notes.join(", "));
    $("typing").classList.toggle("waiting", this.session.isWaiting);
  }
}

/* ---- the log */

const LOG_ROWS = 50;

/** What the latest steps retired. */
class LogView {
  constructor(session) {
    this.session = session;
    this.body = $("log").tBodies[0];
  }

  render() {
    const records = this.session.machine.history.latest(LOG_ROWS);
    const makeOne = () => makeRow("tr", [1, 2, 3, 4].map(() => make("td")));
    const rows = resize(this.body, records.length, makeOne);
    records.forEach((record, at) => {
      const [step, address, text, effect] = rows[at].children;
      setText(step, (record.step + 1).toLocaleString("en"));
      setText(address, hexOf(record.pc));
      setText(text, this.session.executedBy(record));
      setText(effect, this.session.effectOf(record));
    });
  }
}

/* ---- the calls */

const FRAMES_SHOWN = 100;

/** The calls that have not returned, the innermost first. */
class FramesView {
  constructor(session) {
    this.session = session;
    this.body = $("frames").tBodies[0];
  }

  render() {
    const { session } = this;
    // while it runs it would be gone before it is read
    if (session.isRunning) return;
    const shown = framesOf(session.machine, FRAMES_SHOWN);
    const makeOne = () => makeRow("tr", [1, 2, 3].map(() => make("td")));
    const rows = resize(this.body, shown.length, makeOne);
    shown.forEach(({ entry, from, back, sp }, at) => {
      const [name, caller, stack] = rows[at].children;
      setText(name, session.nameOf(entry));
      setText(caller, session.nameOf(from));
      caller.title = `from ${hex(from)}, back to ${hex(back)}`;
      setText(stack, hexOf(sp));
    });
    const others = depthOf(session.machine) - shown.length;
    const remarks = remarksOf(session.machine);
    const notes = [shown.length === 0 ? "none" : others > 0 ? `${numbered(others)} more` : ""];
    if (remarks.length > 0) notes.push(counted(remarks.length, "remark"));
    setText($("frames-note"), notes.filter((note) => note).join(", "));
    const many = remarks.length > 0 ? ` (${counted(remarks.length, "remark")})` : "";
    setText($("tab-frames"), `Calls${many}`);
    const items = resize($("remarks"), remarks.length, () => make("li"));
    remarks.forEach((remark, at) => setText(items[at],
      sentenceOf(remark, session.names, (address) => session.nameOf(address))));
  }
}

/* ---- the lesson */

/* What the menu of examples says of a program that is none of them, and of no lesson. */
const YOUR_OWN = "your own";

/* How long a program is judged before the page answers. */
const JUDGED_MS = 12;

/* Adds a try, unless it is the latest one again. The best one stays. */
function addTry(exercise, attempt) {
  exercise.tries ??= [];
  const { tries } = exercise;
  if (tries.at(-1)?.text === attempt.text) tries.pop();
  tries.push(attempt);
  if (tries.length > MOST_TRIES) tries.splice(bestOf(tries) === 0 ? 1 : 0, 1);
}

/* A text, in which what stands in backticks is code, as nodes. */
const withCode = (text) => text.split(/`([^`]+)`/).map((part, at) =>
  (at % 2 === 1 ? make("code", "", part) : part));

/* A paragraph of a lesson. */
function makeParagraph({ isCode, text }) {
  if (isCode) return make("pre", "", text);
  const paragraph = make("p");
  paragraph.append(...withCode(text));
  return paragraph;
}

/* What came of a case, by whose button the program is at its start. Of one that is hidden nothing is
 * told but whether it is right. */
function makeCase(told, at, names) {
  const { title, isHidden, misses } = told;
  const isRight = misses.get(names).length === 0;
  const name = title || `case ${at + 1}`;
  const why = isHidden ? "not right (its input is hidden)" : missedIn(told, names);
  const item = make("li", isRight ? "right" : "missed");
  const start = make("button", "", name);
  start.type = "button";
  start.dataset.case = at;
  start.title = "Have the program at the start of this case, to step through it";
  item.append(isHidden ? name : start, `: ${isRight ? "right" : why}`);
  return item;
}

/* That an earlier try has more cases right than the latest one, or "". */
function bestTold(tries = []) {
  const best = tries[bestOf(tries)];
  return best === undefined || best.right <= tries.at(-1).right ? ""
    : ` The best of your ${counted(tries.length, "try").replace("trys", "tries")} has `
      + `${best.right} of ${best.of} right.`;
}

/** What is said of the latest try of an exercise, and the class of its look: of one case what is
 * missed. */
function verdictOf({ told, cases, isSolved, mistake, tries }, isChecking, names) {
  const [, line] = /^Line (\d+):/.exec(mistake) ?? [];
  if (line) return ["end", `Not checked: line ${line} has a mistake.`];
  if (mistake) return ["end", `Not checked. ${mistake}`];
  if (isChecking) return ["", "It is being checked."];
  if (told === undefined) {
    const of = cases.length > 1 ? ` with ${cases.length} cases` : "";
    return ["", `${isSolved ? "Solved before. " : ""}Run the program, or check it${of}: what comes `
      + "out is compared."];
  }
  const right = rightOf(told);
  if (right === told.length) return ["done", "Solved."];
  const isOne = cases.length === 1 && !told[0].isHidden;
  const why = told.guards?.length > 0 ? told.guards.join(" ") : isOne ? missedIn(told[0], names)
    : `${right} of ${cases.length} cases are right.`;
  return ["end", why + bestTold(tries)];
}

/** The exercises of the lesson that is open, and what came of the one that is tried. */
class LessonView {
  constructor(session) {
    this.session = session;
    this.lesson = null;
    this.turn = 0;
  }

  get exercise() {
    return this.lesson?.exercises[this.number - 1];
  }

  /** Opens a lesson at an exercise. The link is that to the lesson. */
  open(lesson, number, link) {
    this.lesson = lesson;
    this.number = number;
    const hasFocus = $("exercises").contains(document.activeElement);
    setText($("lesson-title"), lesson.title || "Lesson");
    $("exercises").replaceChildren(...lesson.exercises.map(({ title }, at) => {
      const anchor = make("a", "", title || `Exercise ${at + 1}`);
      anchor.href = `${link}&exercise=${at + 1}`;
      return makeRow("li", [anchor]);
    }));
    $("lesson").hidden = false;
    $("examples").options[0].text = lesson.title ? `Lesson: ${lesson.title}` : "a lesson";
    this.show();
    // a link that was followed by a key has the focus on
    if (hasFocus) $("exercises").children[number - 1].firstChild.focus();
  }

  close() {
    this.lesson = null;
    $("lesson").hidden = true;
    $("examples").options[0].text = YOUR_OWN;
  }

  /* The session in which programs are judged, with a machine of its own. */
  get judging() {
    this.judge ??= new Session(new Machine(this.session.machine.kit.apart()));
    return this.judge;
  }

  /** Has no verdict of before, as the text is loaded that is checked next, or has a mistake. */
  begin(mistake) {
    this.turn++;
    Object.assign(this.exercise, { told: undefined, mistake });
    this.show();
  }

  /** Judges the program that is open by each case, and keeps it as a try. */
  async check() {
    const { exercise, session } = this;
    const { text, language } = session;
    this.begin("");
    const { turn } = this;
    exercise.checking = turn;
    this.showVerdict();
    const told = await judge(this.judging, exercise, { text, language }, () => this.pause(turn));
    Object.assign(exercise, { told, checking: 0 });
    const right = rightOf(told);
    if (right === told.length) exercise.isSolved = true;
    addTry(exercise, { text, language, right, of: told.length, at: Date.now() });
    if (exercise === this.exercise) this.show();
  }

  /* Has the page answer where judging takes long. */
  async pause(turn) {
    if (turn === this.turn && performance.now() - this.pausedAt < JUDGED_MS) return;
    await new Promise((done) => setTimeout(done));
    this.pausedAt = performance.now();
    // a check that another one overtakes goes no further: both have the same machine
    if (turn !== this.turn) await new Promise(() => {});
  }

  showHint() {
    const { exercise } = this;
    if (!exercise) return;
    exercise.hinted = Math.min((exercise.hinted ?? 0) + 1, exercise.hints.length);
    this.show();
  }

  show() {
    const { lesson, number, exercise } = this;
    const { exercises } = lesson;
    const solved = exercises.filter(({ isSolved }) => isSolved).length;
    const by = headOf(lesson.handedIn ?? "")?.name;
    const asHandedIn = lesson.handedIn === undefined ? ""
      : `, as it was handed in${by ? ` by ${by}` : ""}`;
    setText($("lesson-solved"), `${solved} of ${exercises.length} solved${asHandedIn}`);
    [...$("exercises").children].forEach((item, at) => {
      item.className = exercises[at].isSolved ? "solved" : "";
      if (at + 1 === number) item.firstChild.setAttribute("aria-current", "step");
      else item.firstChild.removeAttribute("aria-current");
      const said = exercises[at].isSolved ? "solved" : "not solved yet";
      item.firstChild.setAttribute("aria-description", said);
    });
    setText($("exercise-title"), exercise.title);
    const rules = rulesOf(exercise) ? [{ isCode: false, text: rulesOf(exercise) }] : [];
    const given = exercise.given ? [{ isCode: true, text: exercise.given.trimEnd() }] : [];
    $("exercise-about").replaceChildren(
      ...[...lesson.about, ...exercise.about, ...rules, ...given].map(makeParagraph));
    this.showHints();
    this.showVerdict();
  }

  showHints() {
    const { hints, hinted = 0 } = this.exercise;
    $("exercise-hints").replaceChildren(...hints.slice(0, hinted).map((hint) => {
      const item = make("li");
      item.append(...withCode(hint));
      return item;
    }));
    const button = document.querySelector("[data-action=hint]");
    button.hidden = hints.length === 0;
    button.setAttribute("aria-disabled", hinted === hints.length);
  }

  /* What came of the latest try, and of several cases a line of each. */
  showVerdict() {
    const { exercise, turn, session: { names } } = this;
    const { told, cases, checking } = exercise;
    const [look, sentence] = verdictOf(exercise, checking === turn, names);
    $("exercise-check").className = `check ${look}`;
    setText($("exercise-check"), sentence);
    const isListed = cases.length > 1 || cases[0].made.length > 0;
    const all = told !== undefined && isListed && told.guards.length === 0 ? told : [];
    $("exercise-cases").replaceChildren(...all.map((each, at) => makeCase(each, at, names)));
  }
}

/* ---- the grades of a class */

/** The table of what several have handed in. */
class GradesView {
  /** Shows the rows of a table, and what could not be read. */
  show(lesson, exercises, rows, unread) {
    this.text = csvOf(rows, exercises);
    this.name = `${fileNameOf(lesson.title, "words").replace(/\.hex$/, "")}.csv`;
    setText($("grades-title"), `Grades: ${lesson.title || "Lesson"}`);
    setText($("grades-note"), [
      `${counted(rows.length, "file")}. Points are the cases that are right in the latest try, and in `
      + "the best one.", ...unread].join(" "));
    const heads = ["Name", ...exercises.map(([{ title }, number]) => `${number} ${title}`), "Latest",
      "Best", "Notes"];
    $("grades-table").tHead.replaceChildren(makeRow("tr", heads.map((text) => {
      const cell = make("th", "", text);
      cell.scope = "col";
      return cell;
    })));
    $("grades-table").tBodies[0].replaceChildren(...rows.map((row) =>
      this.rowOf(row, exercises, rows)));
    if (!$("grades").open) $("grades").showModal();
  }

  rowOf(row, exercises, rows) {
    const { latest, best } = sumsOf(row);
    const name = make("th", "", row.name);
    [name.scope, name.title] = ["row", row.file];
    const points = exercises.map(([, number]) => {
      const tries = row.results.find((result) => result.number === number)?.tries ?? [];
      const [one, other] = [tries.at(-1), tries[bestOf(tries)]];
      if (one === undefined) return "";
      return one.right === other.right ? `${one.right} of ${one.of}`
        : `${one.right} of ${one.of}, best ${other.right}`;
    });
    const cells = [...points, latest, best, notesOf(row, rows).join("; ")];
    return makeRow("tr", [name, ...cells.map((text) => make("td", "", String(text)))]);
  }
}

/* ---- the bitmap */

/* The sizes that a bitmap may have, in pixels, and where its first word is. */
const BITMAP_SIZES = [[16, 16], [32, 32], [64, 32], [64, 64], [128, 128], [256, 256], [512, 256]];
const BITMAP_PLACES = { data: "data", gp: "gp", heap: "heap" };

/** Words of memory as pixels, each with 8 bits of red, of green and of blue. */
class BitmapView {
  constructor(session) {
    this.session = session;
    $("bitmap-size").append(...BITMAP_SIZES.map(([width, height], at) =>
      new Option(`${width} × ${height}`, at)));
    $("bitmap-size").value = 3;
    $("bitmap-at").append(...Object.keys(BITMAP_PLACES).map((name) =>
      new Option(`${hex(RARS_PLACES[name])} (${name})`, name)));
    for (const id of ["bitmap-size", "bitmap-at"]) {
      $(id).addEventListener("change", () => this.render());
    }
    $("bitmap").addEventListener("keydown", (event) => this.press(event));
  }

  /* A key goes to the program's keyboard. */
  press(event) {
    const { key, ctrlKey, altKey, metaKey } = event;
    const letter = { Enter: "\n", Backspace: "\b" }[key] ?? key;
    if (letter.length !== 1 || ctrlKey || altKey || metaKey) return;
    event.preventDefault();
    event.stopPropagation();
    this.session.type(letter);
  }

  render() {
    if ($("panel-bitmap").hidden) return;
    const { machine: { kit }, machine } = this.session;
    const [width, height] = BITMAP_SIZES[$("bitmap-size").value];
    const from = (RARS_PLACES[$("bitmap-at").value] - kit.base) / 4;
    const isThere = from >= 0 && from + width * height <= kit.words.length;
    setText($("bitmap-note"), isThere ? "" : "The memory has no such words: choose the one of RARS, "
      + "under More.");
    const canvas = $("bitmap");
    if (canvas.width !== width || canvas.height !== height) {
      Object.assign(canvas, { width, height });
    }
    const pixels = new Uint32Array(width * height);
    for (let at = 0; at < pixels.length; at++) {
      const word = isThere ? kit.words[from + at] : 0;
      // red stands lowest in a picture's word, and blue in the program's
      pixels[at] = 0xff000000 | (word & 0xff) << 16 | word & 0xff00 | word >>> 16 & 0xff;
    }
    const data = new ImageData(new Uint8ClampedArray(pixels.buffer), width, height);
    canvas.getContext("2d").putImageData(data, 0, 0);
  }
}

/* ---- the executed instructions */

/** A histogram of the executed instructions by name, and their mix by kind. */
class CountsView {
  constructor(session) {
    this.session = session;
    this.body = $("counts").tBodies[0];
    for (const group of Object.keys(GROUPS)) {
      const part = make("span", `of-${group}`);
      $("mix").append(part);
      $("legend").append(make("li", `of-${group}`));
    }
  }

  render() {
    const counts = this.session.machine.counts();
    const total = counts.reduce((sum, { count }) => sum + count, 0);
    this.renderMix(counts, total);
    const most = counts[0]?.count ?? 1;
    const rows = resize(this.body, counts.length, () => this.makeRow());
    counts.forEach(({ name, word, count }, at) => {
      const [nameCell, barCell, countCell, share] = rows[at].children;
      rows[at].className = `of-${groupOf(word)}`;
      setText(nameCell, name);
      barCell.firstChild.style.width = `${100 * count / most}%`;
      setText(countCell, count.toLocaleString("en"));
      setText(share, percent(count, total));
    });
  }

  makeRow() {
    const name = make("th");
    name.scope = "row";
    const bar = make("td", "bar-cell");
    bar.append(make("i", "bar"));
    return makeRow("tr", [name, bar, make("td", "count"), make("td", "share")]);
  }

  renderMix(counts, total) {
    const said = [];
    Object.entries(GROUPS).forEach(([group, name], at) => {
      let count = 0;
      for (const entry of counts) if (groupOf(entry.word) === group) count += entry.count;
      const share = total ? percent(count, total) : "";
      $("mix").children[at].style.flexGrow = count;
      $("mix").children[at].hidden = count === 0;
      $("mix").children[at].title = `${name} ${share}`;
      setText($("legend").children[at], count ? `${name} ${share}` : "");
      if (count) said.push(`${name} ${share}`);
    });
    $("mix").setAttribute("aria-label", said.join(", ") || "Nothing was executed yet.");
    $("mix").classList.toggle("empty", total === 0);
  }
}

function percent(count, total) {
  const share = 100 * count / total;
  if (share < 0.05) return "< 0.1 %";
  return `${share < 10 ? share.toFixed(1) : Math.round(share)} %`;
}
