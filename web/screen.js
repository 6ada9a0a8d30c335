"use strict";

// A board in the page: its terminal, and beside it what its hart holds. It stands in the place of the
// program while it is open.

/* The keys that are typed as a byte of their own, and those that a terminal sends as a sequence. */
const KEY_BYTES = { Enter: "\r", Backspace: "\x7f", Delete: "\x1b[3~", Escape: "\x1b" };
const ARROW_BYTES = {
  ArrowUp: "\x1b[A", ArrowDown: "\x1b[B", ArrowRight: "\x1b[C", ArrowLeft: "\x1b[D",
  Home: "\x1b[H", End: "\x1b[F",
};

/* The CSRs that are shown of a board. */
const BOARD_CSRS = [
  "mstatus", "mtvec", "mie", "mepc", "mcause", "mtval", "mscratch", "mcounteren",
];

/* How many rows of RAM are shown of a board, and of how many words. */
const BOARD_ROWS = 6;
const BOARD_COLUMNS = 4;

/** What a key types into a terminal, or "" where it is a key of the browser. */
function typedBy({ key, ctrlKey, altKey, metaKey }) {
  if (altKey || metaKey) return "";
  if (ctrlKey) return /^[a-z[\]\\^_]$/i.test(key) ? controlOf(key) : "";
  if (key.length === 1) return key;
  return KEY_BYTES[key] ?? ARROW_BYTES[key] ?? "";
}

/* The control character of a letter: Ctrl and V is left to the browser, which pastes. */
function controlOf(key) {
  const letter = key.toUpperCase();
  return letter === "V" ? "" : String.fromCharCode(letter.charCodeAt(0) & 31);
}

/** The view of a board. */
class BoardView {
  constructor(board) {
    Object.assign(this, { board, isDue: false, follows: true });
    this.csrs = ["mode", ...BOARD_CSRS, "mtime", "mtimecmp"].map((name) => this.makeCell("csr", name));
    this.registers = ABI_NAMES.map((name, number) =>
      this.makeCell("hart", number ? name : "pc", number ? `x${number}` : ""));
    $("board-csrs").append(...this.csrs);
    $("board-registers").append(...this.registers);
    board.onChange = () => this.renderSoon();
    this.listen();
  }

  makeCell(kind, name, other) {
    const parts = [make("span", "name", name), make("span", "value")];
    if (kind === "hart") parts.splice(1, 0, make("span", "number", other));
    const cell = makeRow("div", parts);
    cell.className = kind;
    cell.setAttribute("role", "listitem");
    return cell;
  }

  get isOpen() {
    return !$("board").hidden;
  }

  /** Opens an image, and runs it. Returns "", or why it can't be opened. */
  open(name, bytes) {
    const mistake = this.board.open(name, bytes);
    if (mistake) return mistake;
    this.show(true);
    setText($("board-title"), name);
    this.board.run();
    $("terminal").focus();
    return "";
  }

  close() {
    this.board.pause();
    this.show(false);
    $("listing").focus();
  }

  /* Shows the board in the place of the program, or the program. */
  show(isBoard) {
    $("board").hidden = !isBoard;
    document.body.classList.toggle("on-board", isBoard);
  }

  listen() {
    const { board } = this;
    $("board-run").addEventListener("click", () => (board.isRunning ? board.pause() : board.run()));
    $("board-step").addEventListener("click", () => board.step());
    $("board-reset").addEventListener("click", () => {
      board.reset();
      board.run();
      $("terminal").focus();
    });
    $("board-close").addEventListener("click", () => this.close());
    $("board-stops").addEventListener("change", () => this.takeStops());
    $("board-address").addEventListener("change", () => this.renderMemory());
    $("terminal").addEventListener("keydown", (event) => this.press(event));
    $("terminal").addEventListener("scroll", ({ target }) => {
      this.follows = target.scrollTop + target.clientHeight >= target.scrollHeight - 4;
    });
    $("terminal").addEventListener("paste", (event) => {
      event.preventDefault();
      this.type(event.clipboardData.getData("text").replace(/\r?\n/g, "\r"));
    });
    $("board-typing").addEventListener("submit", (event) => {
      event.preventDefault();
      this.type(`${$("board-line").value}\r`);
      $("board-line").value = "";
    });
  }

  /* Tab stays a key of the browser, so that one can leave the terminal by keys. */
  press(event) {
    const isCopy = event.ctrlKey && event.key === "c" && !getSelection().isCollapsed;
    const typed = isCopy ? "" : typedBy(event);
    if (typed === "") return;
    event.preventDefault();
    this.type(typed);
  }

  type(text) {
    this.board.type(new TextEncoder().encode(text));
  }

  /* Renders before the browser next shows the page. */
  renderSoon() {
    if (this.isDue) return;
    this.isDue = true;
    requestAnimationFrame(() => {
      this.isDue = false;
      if (this.board.kit !== undefined) this.render();
    });
  }

  render() {
    this.renderTerminal();
    this.renderState();
    this.renderHart();
    this.renderMemory();
  }

  /* Takes the breakpoints from their field: addresses. None is changed where one is no address. */
  takeStops() {
    const all = $("board-stops").value.split(/[\s,]+/).filter((word) => word).map(parseHex);
    const unit = this.board.kit?.hasCompressed ? 2 : 4;
    const areSound = all.every((address) => address % unit === 0);
    $("board-stops").setAttribute("aria-invalid", !areSound);
    $("board-stops").title = areSound ? ""
      : `Addresses are wanted, which are multiples of ${unit}, as 0x80000010.`;
    if (areSound) this.board.stops = new Set(all);
  }

  /* Shows RAM from an address on that the field has, or a register. */
  renderMemory() {
    const { kit } = this.board;
    if (kit === undefined) return;
    const said = $("board-address").value.trim().toLowerCase();
    const register = registerNamed(said);
    const wanted = said === "pc" ? kit.pc : register === undefined ? parseHex(said) : kit.x[register];
    const last = RAM_BYTES / 4 - BOARD_ROWS * BOARD_COLUMNS;
    const isThere = wanted >= RAM_START && wanted < RAM_START + RAM_BYTES;
    $("board-address").setAttribute("aria-invalid", !isThere);
    $("board-address").title = isThere ? "" : `RAM goes from ${hex(RAM_START)} to `
      + `${hex(RAM_START + RAM_BYTES - 1)}. A register, as sp, can stand here too.`;
    if (!isThere) return;
    const first = Math.min(Math.floor((wanted - RAM_START) / 4), last);
    const makeOne = () => makeRow("tr", [make("th"), ...Array.from({ length: BOARD_COLUMNS }, () => make("td"))]);
    const rows = resize($("board-memory").tBodies[0], BOARD_ROWS, makeOne);
    for (let row = 0; row < BOARD_ROWS; row++) {
      const at = first + row * BOARD_COLUMNS;
      const [head, ...cells] = rows[row].children;
      setText(head, hexOf(RAM_START + 4 * at));
      cells.forEach((cell, column) => setText(cell, hexOf(kit.words[at + column])));
    }
  }

  /* What was printed, and the cursor behind it. One who has scrolled up stays there. */
  renderTerminal() {
    setText($("printed"), this.board.screen.text);
    if (this.follows) $("terminal").scrollTop = $("terminal").scrollHeight;
  }

  renderState() {
    const { board } = this;
    const { isRunning, isWaiting, isAtStop, ending, steps } = board;
    const going = isWaiting ? "It waits for what you type." : "It runs.";
    const paused = isAtStop ? `It stopped before ${hex(board.kit.pc)}.` : "It is paused.";
    setText($("board-state"), ending || (isRunning ? going : paused));
    setText($("board-run"), isRunning ? "Pause" : "Go on");
    for (const id of ["board-run", "board-step"]) {
      $(id).setAttribute("aria-disabled", ending !== "");
    }
    const seconds = (board.running / 1000).toFixed(1);
    setText($("board-steps"), `${counted(steps, "step")}, ${seconds} s`);
  }

  renderHart() {
    const { kit } = this.board;
    this.registers.forEach((cell, number) =>
      setText(cell.lastChild, hex(number ? kit.x[number] : kit.pc)));
    const mode = kit.csrs[CSR.user] === 1 ? "user" : "machine";
    const values = [mode, ...BOARD_CSRS.map((name) => hex(kit.csrs[CSR[name]])),
      numbered(kit.time), kit.alarm === Infinity ? "none" : numbered(kit.alarm)];
    values.forEach((value, at) => setText(this.csrs[at].lastChild, value));
    setText($("board-next"), kit.textAt(kit.pc - RAM_START, kit.pc));
  }
}
