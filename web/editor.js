"use strict";

// The editor: a text with the numbers of its lines, its colours, and its mistakes while one types.

/* How long one has not typed before the text is read. */
const READ_AFTER_MS = 200;

/* How many characters a text has at most that is read while one types, and coloured. */
const MOST_LIVE = 1 << 17;

/* How many lines are coloured above and below those in view. */
const COLOURED_AROUND = 50;

/* How much room the assembler has while one types. Repetitions can make much of a short text. */
const ROOM_LIVE = 1 << 24;

/* What stands above the text, by the language that it is read as. */
const LANGUAGE_NOTES = {
  assembly: "RV32IM, with the ABI's names, labels, pseudo-instructions, sections and macros. The "
    + "program starts at _start, else at main, else at its first instruction.",
  words: "Words of hexadecimal digits. # begins a comment, and name: is a label of the next word.",
  halves: "Half-words of hexadecimal digits, as compressed code has them. # begins a comment, and name: "
    + "is a label of the next one.",
};

/** Where the lines of a text begin. */
const lineStartsOf = (text) => {
  const starts = [0];
  for (let at = text.indexOf("\n"); at >= 0; at = text.indexOf("\n", at + 1)) starts.push(at + 1);
  return starts;
};

/* How far a line is indented by Tab, and behind a label. */
const INDENT = "    ";

/* How many mistakes of a text are told at most (docs/LIMITS.md). */
const MOST_MISTAKES = 20;

/* How many lines end in a part of a text. */
const linesIn = (text, from, to) => {
  let count = 0;
  for (let at = text.indexOf("\n", from); at >= 0 && at < to; at = text.indexOf("\n", at + 1)) count++;
  return count;
};

/** Where each line of a text comes from that was changed at one place: a list of numbers by its lines,
 * of which `origins` has those by the lines before. A line that is new has 0. */
function originsAfter(origins, before, after) {
  const most = Math.min(before.length, after.length);
  let start = 0;
  while (start < most && before[start] === after[start]) start++;
  let end = 0;
  while (end < most - start && before.at(-1 - end) === after.at(-1 - end)) end++;
  const first = linesIn(before, 0, start);
  const behind = linesIn(before, before.length - end, before.length);
  const old = origins.slice(first, origins.length - behind);
  const count = linesIn(after, 0, after.length) + 1 - first - behind;
  const lines = new Array(count).fill(0);
  // what was put in at the start of a line stands before it
  const isBefore = start === 0 || before[start - 1] === "\n";
  const shift = isBefore ? count - old.length : 0;
  old.forEach((line, at) => { if (lines[at + shift] === 0) lines[at + shift] = line; });
  return [...origins.slice(0, first), ...lines, ...origins.slice(origins.length - behind)];
}

/** The panel in which a program is written, in the place of the listing. */
class EditorView {
  constructor(session) {
    this.session = session;
    // the text, which a field gives with other ends of lines than a file may have
    this.text = "";
    this.onChange = () => {};
    this.onStop = () => {};
    this.mistakes = [];
    this.starts = [0];
    this.colouredLines = [0, 0];
    this.blocks = ["above", "in-view", "below"].map((name) => make("div", name));
    this.row = make("div", "mark");
    $("colours").append(this.row, ...this.blocks);
    this.marks = [];
    this.loaded();
    for (const [id, name] of Object.entries(LANGUAGES)) $("language").append(new Option(name, id));
    $("text").addEventListener("input", () => this.change());
    $("text").addEventListener("keydown", (event) => this.press(event));
    $("text").addEventListener("scroll", () => this.follow());
    new ResizeObserver(() => this.follow()).observe($("text"));
    $("language").addEventListener("change", () => { this.isChosen = true; });
    for (const id of ["language", "base", "size", "stack"]) {
      $(id).addEventListener("change", () => this.change());
    }
    $("mistakes").addEventListener("click", ({ target }) => {
      if (target.dataset.at) this.goTo(Number(target.dataset.at));
    });
    $("numbers").addEventListener("click", ({ clientY }) => {
      const line = Math.floor((clientY - $("text").getBoundingClientRect().top - this.paddingAbove
        + $("text").scrollTop) / this.lineHeight) + 1;
      if (line >= 1 && line <= this.starts.length) this.onStop(line);
    });
  }

  get language() {
    return $("language").value;
  }

  get isOpen() {
    return !$("editor").hidden;
  }

  /** Whether the text is another than that of the program that is open, or is to be read otherwise, or
   * for another memory. */
  get isChanged() {
    const { text, language, machine: { kit, hasStack } } = this.session;
    return this.text !== text || this.language !== language
      || parseHex($("base").value.trim()) !== kit.base || Number($("size").value) !== kit.size
      || $("stack").checked !== hasStack;
  }

  /** The number of the line in which the cursor is. */
  get cursorLine() {
    return linesIn($("text").value, 0, $("text").selectionStart) + 1;
  }

  get lineHeight() {
    return parseFloat(getComputedStyle($("text")).lineHeight);
  }

  get paddingAbove() {
    return parseFloat(getComputedStyle($("text")).paddingTop);
  }

  /** Takes up the program that was just opened. */
  fill() {
    const { text, language } = this.session;
    if (this.text !== text) this.putText(text);
    this.loaded();
    $("language").value = language;
    this.isChosen = false;
    this.fillMemory();
    this.forget();
    if (this.isOpen) this.changed();
  }

  /* Tells no mistake of the text that was there before. */
  forget() {
    setText($("mistake"), "");
    $("mistakes").replaceChildren();
  }

  /* Has another text in the field, from its start on. */
  putText(text) {
    this.text = $("text").value = text;
    $("text").setSelectionRange(0, 0);
    $("text").scrollTop = $("text").scrollLeft = 0;
  }

  /** Has another text, which is not loaded. */
  replace(text, language) {
    this.putText(text);
    $("language").value = language;
    this.before = $("text").value;
    this.origins = new Array(lineStartsOf(this.before).length).fill(0);
    this.forget();
    this.changed();
  }

  /** The text is that of the program that is open: each line stands where it stood. */
  loaded() {
    this.before = $("text").value;
    this.origins = Array.from(lineStartsOf(this.before), (_, at) => at + 1);
  }

  /** The number that a line of the program that is open has in the text, or 0. */
  lineNow = (line) => (line === 0 ? 0 : this.origins.indexOf(line) + 1);

  /** Where the breakpoints stand in the text, as they are kept. */
  get stopPlaces() {
    const { stopPlaces, language } = this.session;
    if (language !== this.language) return [];
    return language === "assembly" ? stopPlaces.map(this.lineNow).filter((line) => line > 0)
      : stopPlaces;
  }

  /** Takes up the memory of the program that is open. */
  fillMemory() {
    const { machine } = this.session;
    $("base").value = hex(machine.kit.base);
    $("size").value = machine.kit.size;
    $("stack").checked = machine.hasStack;
  }

  /** Has the editor in the place of the listing. */
  open() {
    if (this.isOpen) return;
    $("reading").hidden = true;
    $("editor").hidden = false;
    document.body.classList.add("editing");
    this.changed();
  }

  /** Has the listing again. What stands in the editor stays. */
  close() {
    $("editor").hidden = true;
    $("reading").hidden = false;
    document.body.classList.remove("editing");
    setText($("mistake"), "");
  }

  /* The text was changed by hand, or what it is read for. */
  change() {
    const { value } = $("text");
    this.text = value;
    this.origins = originsAfter(this.origins, this.before, value);
    this.before = value;
    setText($("mistake"), "");
    this.changed();
    this.onChange();
  }

  /* Shows a text that was changed. Its mistakes are marked when it is read. */
  changed() {
    this.mistakes = [];
    this.show();
    this.readLater();
  }

  /* ---- keys */

  press(event) {
    const { key, shiftKey, ctrlKey, altKey, metaKey } = event;
    if (ctrlKey || altKey || metaKey || event.isComposing) return;
    if (key === "Tab") this.indent(shiftKey);
    else if (key === "Enter") this.breakLine();
    else return;
    event.preventDefault();
  }

  /* Puts a text in the place of what is between two places, so that it can be undone. */
  put(text, from, to) {
    $("text").setSelectionRange(from, to);
    if (document.execCommand("insertText", false, text)) return;
    $("text").setRangeText(text, from, to, "end");
    this.change();
  }

  /* Begins a line as far in as the one before, and behind a label alone further in. */
  breakLine() {
    const { value, selectionStart, selectionEnd } = $("text");
    const line = value.slice(value.lastIndexOf("\n", selectionStart - 1) + 1, selectionStart);
    const [blanks] = /^[ \t]*/.exec(line);
    const isLabel = blanks === "" && /^[\w.$]+:\s*(#.*)?$/.test(line);
    this.put(`\n${isLabel ? INDENT : blanks}`, selectionStart, selectionEnd);
  }

  /* Moves the lines of the selection in or out. Without one it adds blanks up to the next stop. */
  indent(isOut) {
    const { value, selectionStart, selectionEnd } = $("text");
    const from = value.lastIndexOf("\n", selectionStart - 1) + 1;
    if (selectionStart === selectionEnd && !isOut) {
      const blanks = INDENT.length - (selectionStart - from) % INDENT.length;
      return this.put(" ".repeat(blanks), selectionStart, selectionEnd);
    }
    const end = value.indexOf("\n", Math.max(selectionStart, selectionEnd - 1));
    const to = end < 0 ? value.length : end;
    const lines = value.slice(from, to).split("\n");
    const moved = lines.map((line) => (isOut ? line.replace(/^( {1,4}|\t)/, "")
      : line && INDENT + line)).join("\n");
    if (moved === value.slice(from, to)) return undefined;
    this.put(moved, from, to);
    const shorter = to - from - moved.length;
    if (selectionStart !== selectionEnd) $("text").setSelectionRange(from, from + moved.length);
    else $("text").selectionStart = $("text").selectionEnd = Math.max(from, selectionStart - shorter);
    return undefined;
  }

  /* ---- mistakes */

  /* Reads the text when nothing more was typed for a while. */
  readLater() {
    clearTimeout(this.waiting);
    this.waiting = setTimeout(() => this.read(), READ_AFTER_MS);
  }

  read() {
    if (!this.isOpen) return;
    if ($("text").value.length <= MOST_LIVE) this.settleLanguage();
    this.mistakes = this.mistakesNow();
    this.show();
    this.showMistakes();
  }

  /** Has a text that is assembly, and no words, read so, as a file is, unless words were chosen. */
  settleLanguage() {
    const { value } = $("text");
    if (this.isChosen || this.language !== "words") return;
    if (!isAssembly(value, this.session.machine.kit)) return;
    try {
      parseWords(value);
    } catch (error) {
      if (!(error instanceof ProgramError)) throw error;
      $("language").value = "assembly";
    }
  }

  /* The mistakes of the text. A long one is read when it is loaded, and so is what takes much room. */
  mistakesNow() {
    const { value } = $("text");
    if (value.length > MOST_LIVE || value.trim() === "") return [];
    const base = parseHex($("base").value.trim());
    try {
      this.session.read(
        value, this.language, Number.isNaN(base) ? 0 : base, MOST_BYTES, ROOM_LIVE);
    } catch (error) {
      if (!(error instanceof ProgramError)) throw error;
      return error.mistakes;
    }
    return [];
  }

  /* ---- what is shown */

  show() {
    const { value } = $("text");
    setText($("language-note"), LANGUAGE_NOTES[this.language]);
    const isPlain = value.length > MOST_LIVE;
    $("code").classList.toggle("plain", isPlain);
    this.starts = lineStartsOf(value);
    this.wrong = this.wrongIn(value, this.starts);
    this.showNumbers(this.starts.length);
    this.showColours();
    this.follow();
    this.render();
  }

  /** Marks the line that is next, or at fault, and those with breakpoints. */
  render() {
    if (!this.isOpen) return;
    const { session } = this;
    const { machine, notice, mistake } = session;
    const next = mistake ? 0 : this.lineNow(session.lineOf(machine.indexOf(machine.kit.pc)));
    const kind = notice.isFault ? "fault" : "pc";
    const stops = session.language === "assembly" ? this.stopPlaces : [];
    const shown = [kind, next, ...stops].join();
    if (shown === this.marksShown) return;
    this.marksShown = shown;
    this.row.className = `mark ${kind}`;
    this.row.hidden = next === 0;
    this.row.style.setProperty("--line", next - 1);
    this.marks = stops.map((line) => this.makeMark("stop", line));
    if (next > 0) this.marks.push(this.makeMark(kind, next));
    for (const mark of $("numbers").querySelectorAll(".mark")) mark.remove();
    $("numbers").append(...this.marks);
    if (next > 0 && next !== this.nextShown && !session.isRunning) this.reveal(next);
    this.nextShown = next;
  }

  makeMark(kind, line) {
    const mark = make("i", `mark ${kind}`);
    mark.style.setProperty("--line", line - 1);
    return mark;
  }

  /* Scrolls as little as needed to have a line in view. */
  reveal(line) {
    const { lineHeight } = this;
    const { scrollTop, clientHeight } = $("text");
    const [top, bottom] = [(line - 2) * lineHeight, (line + 2) * lineHeight];
    if (top >= scrollTop && bottom <= scrollTop + clientHeight) return;
    $("text").scrollTop = Math.max(0, top < scrollTop ? top : bottom - clientHeight);
    this.follow();
  }

  showNumbers(count) {
    const wrong = new Set(this.mistakes.map(({ line }) => line));
    const shown = [count, ...wrong].join();
    if (shown === this.numbersShown) return;
    this.numbersShown = shown;
    const parts = [];
    let text = "";
    for (let line = 1; line <= count; line++) {
      if (wrong.has(line)) parts.push(text, make("b", "", String(line)));
      text = wrong.has(line) ? "\n" : `${text}${line}\n`;
    }
    $("numbers").replaceChildren(...parts, text, ...this.marks);
  }

  /* The first line that is in view, and the one below the last. */
  linesInView() {
    const { scrollTop, clientHeight } = $("text");
    const { lineHeight: height } = this;
    return [Math.floor(scrollTop / height), Math.ceil((scrollTop + clientHeight) / height)];
  }

  /* Shows the text below the one that is typed: with colours where it is in view and around there,
   * and above and below as it stands. */
  showColours() {
    const { value } = $("text");
    const text = value.length > MOST_LIVE ? "" : value;
    const [first, last] = this.linesInView();
    this.colouredLines = [Math.max(0, first - COLOURED_AROUND), last + COLOURED_AROUND];
    const [from, to] = this.colouredLines.map((line) => this.starts[line] ?? text.length);
    const [above, inView, below] = this.blocks;
    setText(above, text.slice(0, from));
    inView.replaceChildren(...this.coloured(text, from, to));
    // a last line that is empty has its height too
    setText(below, `${text.slice(to)}\n`);
  }

  /* What stands between two places of the text, in parts, each with its colour, and those at
   * mistakes marked. */
  coloured(text, from, to) {
    const nodes = [];
    let at = from;
    const push = (end, kind, isWrong) => {
      if (end <= at) return;
      const className = `${kind ? `is-${kind}` : ""}${isWrong ? " is-wrong" : ""}`.trim();
      const part = text.slice(at, end);
      nodes.push(className ? make("span", className, part) : part);
      at = end;
    };
    const add = (until, kind) => {
      const end = Math.min(until, to);
      for (const [wrongFrom, wrongTo] of this.wrong) {
        if (at < wrongFrom && wrongFrom < end) push(wrongFrom, kind, false);
        if (at >= wrongFrom && at < wrongTo) push(Math.min(wrongTo, end), kind, true);
      }
      push(end, kind, false);
    };
    const { machine: { kit } } = this.session;
    const parts = this.language === "assembly" ? colouredIn(text, kit, from, to) : [];
    for (const { start, end, kind } of parts) {
      add(start, "");
      add(end, kind);
    }
    add(to, "");
    return nodes;
  }

  /* The places of mistakes in the text, from where each begins to the end of its word. */
  wrongIn(text, starts) {
    const isHere = ({ line }) => line > 0 && line <= starts.length;
    return this.mistakes.filter(isHere).map(({ line, column }) => {
      const end = (starts[line] ?? text.length + 1) - 1;
      const from = Math.min(starts[line - 1] + column - 1, Math.max(starts[line - 1], end - 1));
      const [word] = /^[^\s,()]*/.exec(text.slice(from, end));
      return [from, Math.max(from + word.length, Math.min(from + 1, end))];
    });
  }

  showMistakes() {
    const starts = lineStartsOf($("text").value);
    $("mistakes").replaceChildren(...this.mistakes.map(({ line, column, text }) => {
      const button = make("button", "", line > 0 ? `Line ${line}: ${text}` : text);
      button.type = "button";
      button.dataset.at = (starts[line - 1] ?? 0) + column - 1;
      return makeRow("li", [button]);
    }));
    if (this.mistakes.length < MOST_MISTAKES) return;
    $("mistakes").append(make("li", "note", `There may be more: ${MOST_MISTAKES} are told at most.`));
  }

  /** Goes to the first mistake of the text that was to be loaded, and says what is wrong where no line
   * has a mistake: those of lines are listed. */
  goToMistake(mistake) {
    this.read();
    const [first] = this.mistakes;
    setText($("mistake"), first ? "" : mistake);
    if (first?.line > 0) this.goTo((this.starts[first.line - 1] ?? 0) + first.column - 1);
    else $("text").focus();
  }

  /* Puts the cursor at a place of the text. */
  goTo(at) {
    $("text").focus();
    $("text").setSelectionRange(at, at);
    const line = linesIn($("text").value, 0, at) + 1;
    $("text").scrollTop = Math.max(0, (line - 4) * this.lineHeight);
  }

  /* Has the numbers and the colours stand where the text stands, beside its scroll bars, and
   * colours what has come into view. */
  follow() {
    const { scrollTop, scrollLeft, offsetHeight, offsetWidth } = $("text");
    const { clientHeight, clientWidth } = $("text");
    $("code").style.setProperty("--bar-below", `${offsetHeight - clientHeight}px`);
    $("code").style.setProperty("--bar-beside", `${offsetWidth - clientWidth}px`);
    const [first, last] = this.linesInView();
    const [from, to] = this.colouredLines;
    if (first < from || last > to) this.showColours();
    $("numbers").scrollTop = $("colours").scrollTop = scrollTop;
    $("colours").scrollLeft = scrollLeft;
  }
}
