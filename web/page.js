"use strict";

// The page: its buttons, keys, files and links, and how it starts.

/** The title of a lesson that is kept, as the menu has it. */
const titleOfKept = ({ title, handedIn }) =>
  `Lesson: ${title}${handedIn === undefined ? "" : ", as it was handed in"}`;

const UNREADABLE = "can't be read: it is a folder, or it was changed after it was chosen.";

/** The bytes of a file, or null where the browser can't read it. */
async function contentOf(file) {
  try {
    return new Uint8Array(await file.arrayBuffer());
  } catch {
    return null;
  }
}

/** The page over one session. */
class Page {
  constructor(session) {
    this.session = session;
    this.listing = new ListingView(session);
    this.registers = new RegistersView(session);
    this.memory = new MemoryView(session);
    this.editor = new EditorView(session);
    this.lesson = new LessonView(session);
    this.tabs = new TabsView(() => this.render());
    this.board = new BoardView(new Board(session.machine.kit.module));
    this.work = new Work(this, new Keeping(() => localStorage, () => sessionStorage));
    this.views = [
      this.listing, this.registers, this.memory, new ConsoleView(session), new FramesView(session),
      new LogView(session), new CountsView(session), new BitmapView(session), this.editor,
    ];
    this.grades = new GradesView();
    this.wasWaiting = false;
    this.handlers = this.makeHandlers();
    this.fillMenus();
    this.listen();
    session.onChange = () => this.render();
    session.onEnd = () => this.checkLesson();
    session.onStops = () => this.work.changeStops();
    this.listing.onRunTo = () => this.act("runToLine");
    this.editor.onChange = () => {
      this.mayLeaveText = false;
      this.work.change();
      this.renderChanged();
    };
    this.editor.onStop = (line) => this.toggleStopsOf(line);
  }

  makeHandlers() {
    const { session } = this;
    // what one sees is what runs
    const fresh = (go) => () => { if (this.freshen()) go(); };
    return {
      step: fresh(() => session.step()),
      stepBack: () => session.stepBack(),
      stepOver: fresh(() => session.stepOver()),
      stepOut: fresh(() => session.stepOut()),
      runToOutput: fresh(() => session.runToOutput()),
      run: fresh(() => session.run()),
      pause: () => session.pause(),
      runBack: () => session.runBack(),
      runToLine: fresh(() => this.runToLine()),
      reset: () => session.reset(),
      breakpoint: () => this.toggleBreakpoint(),
      program: () => this.showListing(),
      slower: () => this.setSpeed(session.speed - 1),
      faster: () => this.setSpeed(session.speed + 1),
      radix: () => this.nextRadix(),
      names: () => this.setNames(session.names === NAMES.abi ? "number" : "abi"),
      change: () => this.openChange("", ""),
      details: () => this.tabs.next(),
      unit: () => this.setUnit(this.memory.unit === 4 ? 1 : 4),
      around: () => this.goToMemory("around"),
      address: () => this.goToMemory("address"),
      memoryUp: () => this.pageMemory(-8),
      memoryDown: () => this.pageMemory(8),
      calls: () => $("calls").focus(),
      console: () => $("input").focus(),
      endInput: () => session.endInput(),
      examples: () => $("examples").focus(),
      preset: () => this.goToMore("preset"),
      edit: () => this.showEditor(),
      create: () => this.create(),
      kept: () => this.showKept(),
      open: () => $("file").click(),
      save: () => this.work.save(),
      link: () => this.showLink(),
      lesson: () => $("exercises").querySelector("[aria-current]")?.focus(),
      check: () => this.check(),
      hint: () => this.lesson.showHint(),
      handIn: () => this.showHandedIn(),
      closeLesson: () => this.closeLesson(),
      theme: () => this.changeTheme(),
      keys: () => this.showHelp(),
    };
  }

  act(name) {
    this.handlers[name]();
  }

  /* ---- menus and labels */

  fillMenus() {
    $("speed").append(...SPEEDS.map((speed, at) =>
      new Option(speed === Infinity ? "full" : `${speed.toLocaleString("en")}/s`, at)));
    $("speed").value = this.session.speed;
    const other = new Option("another, as the editor says", "");
    other.hidden = true;
    $("preset").append(other, ...PRESETS.map(({ name }, at) => new Option(name, at)));
    $("size").append(...SIZES.map((size) => new Option(`${size / 1024} KiB`, size)));
    for (const [id, { name, hasTraps }] of Object.entries(ENVIRONMENTS)) {
      $("calls").append(new Option(hasTraps ? name : `calls of ${name}`, id));
    }
    this.fillExamples();
    for (const button of document.querySelectorAll("[data-action]")) {
      const { label, key } = ACTIONS[button.dataset.action];
      button.title = `${label} (${key})`;
      button.setAttribute("aria-keyshortcuts", key);
      button.addEventListener("click", () => this.act(button.dataset.action));
    }
    $("lesson-table").tBodies[0].append(...LINES_TOLD.map(([line, about]) => {
      const cell = make("th");
      cell.scope = "row";
      cell.append(make("code", "", line));
      return makeRow("tr", [cell, make("td", "", about)]);
    }));
    for (const { label, key } of Object.values(ACTIONS)) {
      const keyCell = make("td");
      keyCell.append(make("kbd", "", key));
      $("key-table").tBodies[0].append(makeRow("tr", [keyCell, make("td", "", label)]));
    }
  }

  fillExamples() {
    const faults = document.createElement("optgroup");
    faults.label = "Programs that fault";
    const other = new Option(YOUR_OWN, "");
    other.hidden = true;
    $("examples").append(other);
    for (const { id, name, isFault } of EXAMPLES) {
      (isFault ? faults : $("examples")).append(new Option(name, id));
    }
    $("examples").append(faults);
    this.fillOwn();
  }

  /** Has what is kept on this computer in the menu of examples, the latest first. */
  fillOwn() {
    $("own")?.remove();
    const group = document.createElement("optgroup");
    [group.id, group.label] = ["own", "Kept on this computer"];
    const { keeping } = this.work;
    for (const { id, name } of keeping.all("programs")) {
      group.append(new Option(shortened(name, LABEL_SHOWN), `program ${id}`));
    }
    for (const lesson of keeping.all("lessons")) {
      group.append(new Option(shortened(titleOfKept(lesson), LABEL_SHOWN), `lesson ${lesson.id}`));
    }
    if (group.children.length > 0) $("examples").append(group);
    if ($("keeping").open) this.showKept();
  }

  /** Has the menu of examples say that the program is one's own, under a name, and no link lead to it. */
  nameOwn(name) {
    this.session.name = name;
    setText($("program-title"), name);
    this.example = $("examples").value = "";
    if (!location.hash.includes("program=")) return;
    history.replaceState(null, "", location.pathname + location.search);
  }

  setSpeed(speed) {
    this.session.speed = Math.max(0, Math.min(speed, SPEEDS.length - 1));
    $("speed").value = this.session.speed;
  }

  nextRadix() {
    const all = Object.keys(RADIXES);
    this.setRadix(all[(all.indexOf(this.registers.radix) + 1) % all.length]);
  }

  setRadix(radix) {
    this.registers.radix = $("radix").value = radix;
    this.registers.render();
  }

  setNames(choice) {
    this.session.names = NAMES[choice];
    $("names").value = choice;
    if (this.lesson.exercise) this.lesson.show();
    this.render();
  }

  setUnit(unit) {
    this.memory.unit = unit;
    $("unit").value = unit;
    this.memory.render();
  }

  changeTheme() {
    const root = document.documentElement;
    const isDark = matchMedia("(prefers-color-scheme: dark)").matches;
    const now = root.dataset.theme ?? (isDark ? "dark" : "light");
    root.dataset.theme = now === "dark" ? "light" : "dark";
  }

  /* The keys, and the calls of the environment that is chosen, by the registers' names. */
  showHelp() {
    const { machine: { environment }, names } = this.session;
    const [number, result] = [names[environment.number], names[REGISTER.A0]];
    setText($("call-title"), environment.hasTraps
      ? "Machine mode: traps go to the handler at mtvec, and devices stand at addresses"
      : `System calls of ${environment.name}: the number is in ${number}, and what is read or given in `
        + result);
    const told = environment.hasTraps
      ? DEVICES_TOLD.map(([address, ...others]) => [hex(address), ...others])
      : Object.entries(environment.calls).map(([call, { name, about }]) =>
        [call, name, withNames(about, names)]);
    $("call-table").tBodies[0].replaceChildren(...told.map((row) =>
      makeRow("tr", row.map((text) => make("td", "", text)))));
    $("help").showModal();
  }

  /* ---- what the page listens to */

  listen() {
    $("examples").addEventListener("change", (event) => this.openChoice(event.target.value));
    $("preset").addEventListener("change", ({ target }) => this.takePreset(target.value));
    $("speed").addEventListener("change", (event) => this.setSpeed(Number(event.target.value)));
    $("radix").addEventListener("change", (event) => this.setRadix(event.target.value));
    $("calls").addEventListener("change", ({ target }) => this.session.setCalls(target.value));
    $("names").addEventListener("change", (event) => this.setNames(event.target.value));
    $("unit").addEventListener("change", (event) => this.setUnit(Number(event.target.value)));
    $("around").addEventListener("change", (event) => this.showAround(event.target.value));
    $("address").addEventListener("change", () => this.showAddress());
    $("file").addEventListener("change", (event) => this.openFiles(event.target.files));
    $("typing").addEventListener("submit", (event) => this.send(event));
    this.listenToEditor();
    this.listenToImages();
    $("first-lesson").addEventListener("click", () => saveFile(FIRST_LESSON, "lesson.txt"));
    $("choose-calls").addEventListener("click", () => this.chooseCalls());
    $("export").addEventListener("click", () => this.work.exportAll());
    $("import").addEventListener("click", () => {
      $("keeping").close();
      $("file").click();
    });
    $("clear").addEventListener("click", () => $("clearing").showModal());
    $("clear-all").addEventListener("click", () => {
      this.work.clear();
      $("clearing").close();
    });
    $("exercises").addEventListener("click", ({ target }) => {
      // the browser tells no change where the page has this address already
      if (target.hash === location.hash) this.openLink();
    });
    $("copy").addEventListener("click", () => this.copyLink());
    this.listenToClass();
    $("changing").addEventListener("submit", (event) => {
      event.preventDefault();
      this.change();
    });
    this.registers.onChoose = (place, value) => this.openChange(place, value);
    this.memory.onChoose = (place, value) => this.openChange(place, value);
    for (const button of document.querySelectorAll("[data-close]")) {
      button.addEventListener("click", () => button.closest("dialog").close());
    }
    document.addEventListener("keydown", (event) => this.press(event));
    this.listenToPointer();
    this.listenToParts();
    window.addEventListener("resize", () => this.render());
    window.addEventListener("hashchange", () => this.openLink());
    this.listenToDrops();
  }

  /* What a class has: cases to begin at, a name to hand in by, and a table of grades. */
  listenToClass() {
    $("exercise-cases").addEventListener("click", ({ target }) => {
      if (target.dataset.case) this.startCase(Number(target.dataset.case));
    });
    $("student").addEventListener("input", () => this.showHandedIn());
    $("save-tries").addEventListener("click", () => this.saveHandedIn());
    $("sharing").addEventListener("submit", (event) => {
      event.preventDefault();
      this.saveHandedIn();
    });
    $("class-copy").addEventListener("click", () => this.saveClassCopy());
    $("save-grades").addEventListener("click", () => saveFile(this.grades.text, this.grades.name));
  }

  /* The buttons that boot an image: a file, or the one that was built into the page. */
  listenToImages() {
    $("boot").addEventListener("click", () => $("image").click());
    $("image").addEventListener("change", async ({ target }) => {
      const [file] = target.files;
      if (file) this.openImage(file.name, await contentOf(file));
      target.value = "";
    });
    $("boot-linux").hidden = IMAGE === null;
    $("boot-linux").addEventListener("click", async () =>
      this.openImage(IMAGE.name, await inflated(IMAGE.data, RAM_BYTES)));
  }

  /* Opens an image on the board. A program that runs is paused. */
  openImage(name, bytes) {
    $("more").open = false;
    this.session.pause();
    const mistake = bytes === null ? UNREADABLE : this.board.open(name, bytes);
    if (mistake === "") return;
    this.board.close();
    this.refuse(bytes === null ? `${name} ${mistake}` : `${name} was not opened. ${mistake}`);
  }

  listenToEditor() {
    $("editor").addEventListener("submit", (event) => {
      event.preventDefault();
      if (this.take()) this.showListing();
    });
    $("run-text").addEventListener("click", () => this.takeAndRun());
    $("to-listing").addEventListener("click", () => this.showListing());
    $("editor").addEventListener("keydown", (event) => {
      const isWithControl = event.ctrlKey || event.metaKey;
      if (event.key === "Escape") this.showListing();
      else if (isWithControl && event.key === "Enter") this.takeAndRun();
      else if (isWithControl && event.key === "s") this.work.save();
      else return;
      event.preventDefault();
    });
  }

  /** Has the editor in the place of the listing, and goes there. */
  showEditor() {
    this.editor.open();
    $("text").focus();
  }

  /** Has the listing in the place of the editor, and goes there. */
  showListing() {
    this.editor.close();
    this.listing.pcShown = undefined;
    this.render();
    $("listing").focus();
  }

  /* A menu that was used by a pointer gives the keys back to the page. */
  listenToPointer() {
    let isByPointer = false;
    document.addEventListener("pointerdown", () => { isByPointer = true; });
    document.addEventListener("keydown", () => { isByPointer = false; }, true);
    document.addEventListener("change", ({ target }) => {
      if (isByPointer && target.matches(":is(header, .controls, main) select")) target.blur();
    });
  }

  /* The parts of a narrow page, one of which is in view, and the menu of rare things, which closes
   * when the focus or a click goes elsewhere. */
  listenToParts() {
    $("parts").addEventListener("click", ({ target }) => {
      if (target.dataset.part) showPart(target.dataset.part);
    });
    $("main").addEventListener("scroll", markPart);
    markPart();
    for (const type of ["focusin", "pointerdown"]) {
      document.addEventListener(type, ({ target }) => {
        if (!$("more").contains(target)) $("more").open = false;
      });
    }
    $("more").addEventListener("keydown", ({ key }) => {
      if (key !== "Escape") return;
      $("more").open = false;
      $("more").firstElementChild.focus();
    });
  }

  listenToDrops() {
    const show = (isOver) => { $("drop").hidden = !isOver; };
    document.addEventListener("dragover", (event) => {
      event.preventDefault();
      show(true);
    });
    document.addEventListener("dragleave", (event) => { if (!event.relatedTarget) show(false); });
    document.addEventListener("drop", (event) => {
      event.preventDefault();
      show(false);
      this.openFiles(event.dataTransfer.files);
    });
  }

  press(event) {
    if (event.defaultPrevented || document.querySelector("dialog[open]")) return;
    if (this.board.isOpen) return;
    if (event.target === $("listing") && this.pressInListing(event)) return;
    if (event.target.matches("input, textarea, select") || !$("keys-on").checked) return;
    const action = actionOf(event);
    if (!action) return;
    event.preventDefault();
    this.act(action);
  }

  /* Arrow keys select a line. Returns whether the key was one of these. */
  pressInListing(event) {
    const { session } = this;
    if (event.ctrlKey || event.altKey || event.metaKey) return false;
    const page = Math.floor($("listing").clientHeight / LINE_HEIGHT) - 1;
    const moves = {
      ArrowDown: 1, ArrowUp: -1, PageDown: page, PageUp: -page, Home: -Infinity, End: Infinity,
    };
    const move = moves[event.key];
    if (move === undefined) return false;
    event.preventDefault();
    session.select(session.rowOf(session.selected) + move);
    this.listing.reveal(session.selected);
    return true;
  }

  /* Sends a line to the program. One that it can't read any more stays in the field. */
  send(event) {
    event.preventDefault();
    if (this.session.type(`${$("input").value}\n`)) $("input").value = "";
  }

  /* Goes to a field of memory. */
  goToMemory(id) {
    this.tabs.show("memory");
    $(id).focus();
  }

  /* Goes to a field of the menu of rare things. */
  goToMore(id) {
    $("more").open = true;
    $(id).focus();
  }

  showAround(choice) {
    this.memory.around = choice;
    if (choice === "address") return this.showAddress();
    this.markAddress(true);
    this.memory.render();
  }

  showAddress() {
    const { value } = $("address");
    this.markAddress(value.trim() === "" || this.memory.show(value));
  }

  /* Marks the field for an address as right, or as refused. */
  markAddress(isRight) {
    const where = whereMemoryIs(this.session.machine);
    $("address").setAttribute("aria-invalid", !isRight);
    $("address").title = isRight ? "" : `No address or label of the memory. ${where}`;
  }

  pageMemory(rows) {
    this.markAddress(true);
    this.memory.page(rows);
  }

  /* ---- changes by hand */

  /* Asks for another value of a register or of memory. A program that runs is paused. */
  openChange(place, value) {
    this.session.pause();
    const register = registerNamed(place);
    $("place").value = register === undefined ? place : this.session.names[register];
    $("value").value = value;
    setText($("change-mistake"), "");
    $("change").showModal();
    $(place ? "value" : "place").select();
  }

  change() {
    const mistake = this.session.change($("place").value, $("value").value, this.memory.unit);
    setText($("change-mistake"), mistake);
    if (!mistake) $("change").close();
  }

  /* ---- programs */

  /** Opens a program. Returns "", or why it can't be opened; then what was open stays. */
  tryToOpen(program, { example = "", own } = {}) {
    this.work.keep();
    const mistake = this.load(program, example);
    if (mistake) return mistake;
    this.example = example;
    this.editor.fill();
    this.work.begin({ example, own });
    this.renderChanged();
    if (this.session.mistake || this.lesson.exercise) this.editor.open();
    else if (this.editor.isOpen) this.editor.close();
    return "";
  }

  /* Has a program in the machine. Returns "", or why that can't be; then what was there stays. */
  load(program, example) {
    try {
      this.session.open(program);
    } catch (error) {
      if (!(error instanceof ProgramError)) throw error;
      return error.message;
    }
    $("examples").value = example;
    setText($("program-title"), this.session.name);
    this.markAddress(true);
    this.memory.open();
    this.render();
    return "";
  }

  /** Opens a program, or has the page say why not. */
  open(program, source) {
    const mistake = this.tryToOpen(program, source);
    if (mistake) this.refuse(`${program.name} was not opened. ${mistake}`);
  }

  refuse(sentence) {
    this.session.stop();
    this.session.say("Not opened", sentence, "end");
  }

  /* Opens the program again in another memory. */
  takePreset(choice) {
    const { name, program } = this.session;
    // another memory than that of RARS stays where it is
    const base = program.base === RARS_MEMORY.base ? 0 : program.base;
    const { size, hasStack, base: own = base } = PRESETS[choice];
    const mistake = this.load({ ...program, base: own, size, hasStack }, $("examples").value);
    if (mistake) this.refuse(`${name} was not opened. ${mistake}`);
    else this.editor.fillMemory();
  }

  /* Which of the presets the machine is, or "". */
  presetNow() {
    const { kit: { base, size }, hasStack } = this.session.machine;
    const isRars = base === RARS_MEMORY.base;
    const at = PRESETS.findIndex((preset) => preset.size === size && preset.hasStack === hasStack
      && (preset.base === RARS_MEMORY.base) === isRars);
    return at < 0 ? "" : String(at);
  }

  openExample(id, stops = []) {
    this.closeLesson();
    const example = EXAMPLES.find((each) => each.id === id);
    this.open({ ...example, stops }, { example: id });
  }

  /* Opens a program with nothing in it, which is kept beside the others, to be written. */
  create() {
    this.work.keep();
    this.closeLesson();
    const name = this.work.keeping.freeName(`${NEW_NAME} 1`);
    const { machine: { kit: { base, size }, hasStack }, calls } = this.session;
    this.open({ name, text: "", language: "assembly", base, size, hasStack, calls, isDraft: true });
    this.showEditor();
  }

  /* Opens what was chosen in the menu of examples. */
  openChoice(value) {
    // a letter that is typed may choose what is hidden
    if (value === "") return this.showExample();
    const [kind, which] = value.split(" ");
    if (kind === "program") this.openKept(which);
    else if (kind === "lesson") this.openKeptLesson(which, 1);
    else this.openExample(value);
    return undefined;
  }

  /* Has the menu of examples say what is open. */
  showExample() {
    $("examples").value = this.example;
  }

  /** Opens a program that was kept. Answers whether it is there. */
  openKept(id) {
    this.work.keep();
    const program = this.work.keeping.get("programs", id);
    if (!program) return false;
    this.closeLesson();
    const { name, text, language, base, size, hasStack, calls, stops = [] } = program;
    this.open(
      { name, text, language, base, size, hasStack, calls, stops, isDraft: true }, { own: id });
    return true;
  }

  /** Opens a lesson that was kept. Answers whether it is there. */
  async openKeptLesson(id, number) {
    this.work.keep();
    const kept = this.work.keeping.get("lessons", id);
    if (!kept) return false;
    try {
      const lesson = parseLesson(kept.text);
      if (kept.handedIn !== undefined) giveHandedIn(lesson, kept.handedIn);
      await this.openLesson(lesson, Math.min(number, lesson.exercises.length));
    } catch (error) {
      if (!(error instanceof ProgramError)) throw error;
      // an earlier page may have kept what this one refuses, and at the start no program is open
      if (this.session.text !== undefined) {
        this.refuse(`${titleOfKept(kept)} was not opened. ${error.message}`);
      }
      return false;
    }
    return true;
  }

  async openFiles(files) {
    const [file] = files;
    if (!file) return;
    if (files.length > 1) {
      await this.gradeFiles([...files]);
      $("file").value = "";
      return;
    }
    const mistake = mistakeOfSize(file.size);
    const bytes = mistake ? null : await contentOf(file);
    if (bytes === null) this.refuse(`${file.name} ${mistake || UNREADABLE}`);
    else await this.openBytes(file.name, bytes);
    $("file").value = "";
  }

  async openBytes(name, bytes) {
    const { machine: { kit }, machine: { hasStack }, calls } = this.session;
    const { base, size } = kit;
    if (isBoardImage(bytes)) return this.openImage(name, bytes);
    if (this.board.isOpen) this.board.close();
    try {
      if (isElf(bytes)) {
        const program = await programOfElf(kit, bytes);
        this.closeLesson();
        return this.open({ name, ...program });
      }
      const text = textOfFile(bytes, size, kit);
      if (text.startsWith(EXPORT_START)) return this.importAll(name, text);
      if (text.startsWith(HANDED_IN)) return await this.openHandedIn(text);
      if (isLesson(text)) return await this.openLesson(parseLesson(text), 1);
      refuseHeading(text);
      this.closeLesson();
      const language = isAssembly(text, kit) ? "assembly" : "words";
      this.open({ name, text, language, base, size, hasStack, calls });
    } catch (error) {
      if (!(error instanceof ProgramError)) throw error;
      this.refuse(`${name} was not opened. ${error.message}`);
    }
  }

  /* Loads what stands in the editor, or says there what is wrong with it, and has nothing run. Answers
   * whether it is loaded. */
  take() {
    const { session, editor } = this;
    editor.settleLanguage();
    const mistake = this.load(this.programTyped(), $("examples").value);
    if (mistake) {
      editor.open();
      editor.goToMistake(mistake);
      session.stop();
      session.say("Not run", "What is wrong with the text stands below it.", "end");
    } else {
      editor.loaded();
      editor.fillMemory();
      setText($("mistake"), "");
      this.render();
    }
    if (this.lesson.exercise) this.lesson.begin(mistake);
    return !mistake;
  }

  /* The program that stands in the editor. */
  programTyped() {
    const { session, editor } = this;
    return {
      ...session.program,
      text: editor.text,
      language: editor.language,
      base: parseHex($("base").value.trim()),
      size: Number($("size").value),
      hasStack: $("stack").checked,
      about: "",
      code: editor.isChanged ? null : session.machine.code,
      isDraft: false,
      lineNow: editor.lineNow,
    };
  }

  /* Loads what stands in the editor where it was changed. Answers whether it is what runs. */
  freshen() {
    return !this.editor.isChanged || this.take();
  }

  takeAndRun() {
    if (!this.take()) return;
    // until one types on
    this.mayLeaveText = true;
    this.session.run();
  }

  /* Runs to the line that is selected, or in the editor to that of the cursor. */
  runToLine() {
    const { session, editor } = this;
    const line = editor.isOpen ? session.lineWithCode(editor.cursorLine) : undefined;
    if (line !== undefined) session.selected = session.starts.get(line)[0];
    session.runToLine();
  }

  /* ---- breakpoints */

  /* Sets a breakpoint at the line that is selected, or in the editor at that of the cursor, or takes
   * it away. */
  toggleBreakpoint() {
    const { session, editor } = this;
    if (editor.isOpen && session.sources.size > 0) this.toggleStopsOf(editor.cursorLine);
    else session.toggleBreakpoint(session.selected);
  }

  /* Sets a breakpoint at a line of the text, or at the next instruction below it. A text in which that
   * is not known is loaded first. */
  toggleStopsOf(line) {
    const { session, editor } = this;
    const before = editor.origins[line - 1];
    if (session.starts.has(before)) return session.toggleStopsOf(before);
    if (!this.freshen()) return undefined;
    const there = session.lineWithCode(line);
    return there === undefined ? undefined : session.toggleStopsOf(there);
  }

  async showLink() {
    const { program } = this.session;
    const before = program.given === "" ? "" : `${program.given}.text\n`;
    const hash = await encodeLink({ ...program, text: before + program.text });
    this.share("A link to this program", "", hash);
    $("link").select();
  }

  /* Shows what was tried of the lesson as a link, which can be saved as a file too. */
  async showHandedIn() {
    const { lesson } = this.lesson;
    if (lesson === null) return;
    this.work.keep();
    this.work.keepLesson();
    const isOpen = $("shared").open;
    if (!isOpen) $("student").value = this.work.keeping.read("name") ?? "";
    const name = nameIn($("student").value);
    this.work.keeping.write("name", name);
    const count = lesson.exercises.flatMap(({ tries = [] }) => tries).length;
    const tries = count === 1 ? "The 1 try" : `The ${numbered(count)} tries`;
    const best = lesson.exercises.map(({ tries: all = [] }, at) => [at + 1, triesTold(all)])
      .filter(([, told]) => told).map(([number, told]) => `Exercise ${number}: ${told}.`);
    const what = `${tries} of this lesson, as a file, or as a link that holds the lesson too. `
      + `${best.join(" ")} `;
    const hash = await encodeHandedIn(lesson, name);
    // a letter may have been typed meanwhile
    if (name !== nameIn($("student").value)) return;
    this.share("Hand in", what, hash);
    if (!isOpen) $(name === "" ? "student" : "save-tries").focus();
  }

  /* Saves what was tried as a file, by the name that was given. */
  saveHandedIn() {
    const name = nameIn($("student").value);
    if (name === "") {
      setText($("shared-note"), "Write your name first: your teacher sees it.");
      $("student").focus();
      return;
    }
    this.work.handIn(name);
    $("shared").close();
  }

  /* Shows a link. What was tried of a lesson can be saved too. */
  share(title, what, hash) {
    const link = location.href.replace(/#.*$/, "") + hash;
    setText($("shared-title"), title);
    $("save-tries").hidden = $("by").hidden = what === "";
    $("link").value = link;
    const isLong = link.length > 8000 ? " Some programs that send mail cut such a long one." : "";
    const isFile = location.protocol === "file:"
      ? " It leads to a file of this computer: put the page on a server to send it." : "";
    setText($("shared-note"), `${what}${counted(link.length, "character")}.${isLong}${isFile}`);
    if (!$("shared").open) $("shared").showModal();
  }

  /* Puts the link on the clipboard, or says that the browser did not let the page. */
  async copyLink() {
    $("link").select();
    try {
      await navigator.clipboard.writeText($("link").value);
      setText($("shared-note"), "The link is on the clipboard.");
    } catch {
      setText($("shared-note"), "The browser keeps the clipboard to itself: press Ctrl+C.");
    }
  }

  /** Opens the program of the page's own link, and answers whether there is one. */
  async openLink() {
    try {
      const found = await decodeLesson(location.hash);
      if (found !== null) {
        await this.openLesson(found.lesson, found.number);
        return true;
      }
      const program = await decodeLink(location.hash);
      if (program === null) return false;
      this.closeLesson();
      this.open({ name: "Program of the link", ...program });
    } catch (error) {
      if (!(error instanceof ProgramError)) throw error;
      this.refuse(error.message);
    }
    return true;
  }

  /* ---- what is kept on this computer */

  /* Shows what is kept, to be renamed, taken away, written to a file or read from one. */
  showKept() {
    this.work.keep();
    const { keeping } = this.work;
    const programs = keeping.all("programs").map((entry) => this.keptRow("programs", entry));
    const lessons = keeping.all("lessons").map((entry) => this.keptRow("lessons", entry));
    const count = `${counted(programs.length, "program")} and ${counted(lessons.length, "lesson")}.`;
    const { isFull, lacking } = this.work;
    const why = `There is no room to keep ${lacking}. Export all, and delete what may go. `;
    setText($("keeping-note"), (isFull ? why : "") + count);
    $("keeping-list").tBodies[0].replaceChildren(...programs, ...lessons);
    if (!$("keeping").open) $("keeping").showModal();
  }

  /* A row of what is kept: its name, how long it is, and a button that takes it away. */
  keptRow(kind, entry) {
    const { id, text } = entry;
    const name = kind === "programs" ? entry.name : titleOfKept(entry);
    const head = make("th");
    head.scope = "row";
    head.append(kind === "programs" ? this.nameField(entry) : make("span", "", name));
    const button = make("button", "", "Delete");
    button.type = "button";
    button.setAttribute("aria-label", `Delete ${name}`);
    button.addEventListener("click", () => {
      // what is gone can't be had back: the second click is meant
      if (button.textContent === "Delete") button.textContent = "Delete for good";
      else this.work.remove(kind, id);
    });
    const remove = make("td");
    remove.append(button);
    return makeRow("tr", [head, make("td", "note", counted(text.length, "character")), remove]);
  }

  /* A field with the name of a program that is kept, by which it is renamed. */
  nameField({ id, name }) {
    const field = make("input");
    Object.assign(field, { type: "text", value: name, spellcheck: false, autocomplete: "off" });
    field.setAttribute("aria-label", `Name of ${name}`);
    field.addEventListener("change", () => this.work.rename(id, field.value.trim()));
    return field;
  }

  /** Asks what is to go, where there is no room for something: by name. */
  askForRoom() {
    if (document.querySelector("dialog[open]") === null) this.showKept();
  }

  /* Keeps what a file has that was exported, beside what is kept. */
  importAll(name, text) {
    this.work.keep();
    const count = this.work.keeping.imported(text);
    if (count === null) throw new ProgramError(0, "It is no file of all that is kept, or is damaged.");
    this.fillOwn();
    const { programs, lessons, lost } = count;
    const said = `${counted(programs, "program")} and ${counted(lessons, "lesson")} of ${name} are kept.`;
    this.session.pause();
    if (lost === 0) return this.session.say("Imported", said, "done");
    return this.session.say("Imported in part", `${said} There was no room for ${numbered(lost)} more.`,
      "end");
  }

  /* ---- lessons */

  /* Opens a lesson at an exercise. Of one that is open already what was tried stays. */
  async openLesson(lesson, number) {
    refuseMemory(lesson, this.session);
    this.work.keep();
    const open = this.lesson.lesson;
    const isSame = open?.text === lesson.text && open.handedIn === lesson.handedIn;
    const own = isSame ? this.lesson.lesson : lesson;
    if (!isSame) this.work.recall(own);
    own.link ??= own.handedIn === undefined ? await encodeLesson(own.text)
      : await encodedHandedIn(own, own.handedIn);
    this.lesson.open(own, number, own.link);
    const { title, language, calls, base, size, hasStack, program, tried, cases, given, seed } =
      this.lesson.exercise;
    const [{ input, memory, made: [call = null] }] = cases;
    const name = title || "Exercise";
    // what a student has to begin with may be empty, or have mistakes to find
    const isDraft = true;
    this.open(
      { name, text: program, language, calls, input, memory, call, base, size, hasStack, isDraft,
        given, seed, ...tried });
    // what others handed in is kept when something is tried of it
    if (own.handedIn === undefined) this.work.keepLesson();
  }

  /* Opens a text that was handed in, over its lesson, which is open or kept. */
  async openHandedIn(text) {
    const { title } = headOf(text);
    const { lesson: { lesson }, work: { keeping } } = this;
    const all = lesson === null ? [] : [lesson];
    const of = [...all, ...keeping.all("lessons")].find((each) => each.title === title);
    if (of === undefined) {
      throw new ProgramError(0, `It was handed in of the lesson "${title}": open this lesson first.`);
    }
    const opened = parseLesson(of.text);
    giveHandedIn(opened, text);
    await this.openLesson(opened, 1);
  }

  /* Judges the program that is open by the cases of the exercise. */
  async checkLesson() {
    if (!this.lesson.exercise) return;
    await this.lesson.check();
    this.work.keep();
    this.work.keepLesson();
  }

  /* Judges the text in the editor. */
  check() {
    if (this.lesson.exercise && this.take()) this.checkLesson();
  }

  /* Has the program of the exercise at the start of a case, the call that missed something first. */
  startCase(at) {
    const { exercise } = this.lesson;
    const { title, input, memory, made, isHidden } = exercise.cases[at];
    if (isHidden) return;
    const call = exercise.told[at].call ?? made[0] ?? null;
    this.load({ ...this.session.program, input, memory, call }, $("examples").value);
    this.showListing();
    const given = givenIn({ input, memory }, call);
    this.session.say("Ready", `At the start of ${title || `case ${at + 1}`}. ${given}`.trim());
  }

  /* Saves the lesson that is open without its hidden cases. */
  saveClassCopy() {
    const { lesson } = this.lesson;
    $("help").close();
    try {
      if (lesson === null) throw new ProgramError(0, "No lesson is open.");
      saveFile(withoutHidden(lesson.text), fileNameOf(lesson.title, "assembly").replace(/s$/, "txt"));
    } catch (error) {
      if (!(error instanceof ProgramError)) throw error;
      this.refuse(error.message);
    }
  }

  /* Grades what several have handed in, by the lesson that is among the files, or is open. */
  async gradeFiles(files) {
    const given = await Promise.all(files.map(async (file) => {
      const bytes = file.size > MOST_TEXT ? null : await contentOf(file);
      return { file: file.name, text: bytes && textIn(bytes) };
    }));
    const isOfClass = ({ text }) => text !== null && !isLesson(text);
    const own = given.find(({ text }) => text !== null && isLesson(text));
    try {
      const lesson = own ? parseLesson(own.text) : this.lesson.lesson;
      if (lesson === null) {
        throw new ProgramError(0, "Several files are graded by a lesson: open it first, or drop it "
          + "with them.");
      }
      refuseMemory(lesson, this.session);
      await this.gradeAll(lesson, given.filter(isOfClass),
        given.filter(({ text }) => text === null).map(({ file }) => `${file} is no text.`));
    } catch (error) {
      if (!(error instanceof ProgramError)) throw error;
      this.refuse(error.message);
    }
  }

  async gradeAll(lesson, given, unread) {
    const exercises = lesson.exercises.map((exercise, at) => [exercise, at + 1]);
    const { judging } = this.lesson;
    const rows = [];
    for (const each of given) {
      rows.push(await gradeOne(judging, lesson, exercises, each));
      this.session.say("Grading", `${rows.length} of ${given.length}.`, "run");
      await new Promise((done) => setTimeout(done));
    }
    finishRows(rows, exercises, this.session.machine.kit);
    this.session.say("Graded", `${counted(rows.length, "file")}.`, "done");
    this.grades.show(lesson, exercises, rows, unread);
  }

  closeLesson() {
    if (!this.lesson.exercise) return;
    this.work.keep();
    this.lesson.close();
    this.memory.render();
  }

  /* ---- showing */

  /** Opens what the page's link has, or what was open when the page was left, or else the first
   * example. */
  async start() {
    const { program, lesson, number, example, stops } = this.work.keeping.latestOpen;
    const hasLink = location.hash.length > 1;
    const isOpen = !hasLink && (program !== undefined && this.openKept(program)
      || lesson !== undefined && await this.openKeptLesson(lesson, number));
    const { id } = EXAMPLES.find((each) => each.id === example) ?? EXAMPLES[0];
    if (!isOpen && !hasLink) this.openExample(id, id === example ? stops : []);
    else if (!isOpen) this.openExample(EXAMPLES[0].id);
    await this.openLink();
    const { notice: { heading, kind }, sentence } = this.session;
    if (this.work.keeping.isLasting) return;
    this.session.say(heading, `${sentence} ${KEPT_NOTES.short}`, kind);
  }

  /* Whether the program in the machine is the text in the editor. */
  renderChanged() {
    $("unloaded").hidden = !this.editor.isChanged;
  }

  /* The button by which the calls are chosen that the program seems to be written for. */
  renderOffer() {
    const { calls } = this.session.notice;
    $("choose-calls").hidden = calls === null;
    const { name, hasTraps } = ENVIRONMENTS[calls] ?? {};
    if (calls !== null) setText($("choose-calls"), `Choose ${hasTraps ? name : `${name}'s calls`}`);
  }

  chooseCalls() {
    this.session.setCalls(this.session.notice.calls);
    this.session.run();
  }

  /* Has the focus where a program that waits for input reads it, and gives it back when the program
   * has ended. */
  goToInput() {
    const { session } = this;
    if (session.isWaiting === this.wasWaiting) return;
    if (session.isWaiting) {
      const at = document.activeElement;
      if (at === $("text") && !this.mayLeaveText || at === $("input")) return;
      this.wasWaiting = true;
      this.focusBefore = at;
      $("input").focus();
    } else if (!session.isRunning) {
      this.wasWaiting = false;
      if (document.activeElement !== $("input") || $("input").value !== "") return;
      if (this.focusBefore === document.body) $("input").blur();
      else this.focusBefore.focus();
    }
  }

  render() {
    const { session } = this;
    const { machine, notice } = session;
    setText($("heading"), notice.heading);
    setText($("sentence"), session.sentence);
    $("state").className = `state ${notice.kind}`;
    $("state").firstElementChild.setAttribute("aria-busy", session.isRunning);
    setText($("steps"), counted(machine.steps, "step"));
    $("calls").value = session.calls;
    $("preset").value = this.presetNow();
    setText($("kept"), `can go back ${machine.history.length.toLocaleString("en")}`);
    $("kept").title = `The records of the latest ${STEPS_KEPT.toLocaleString("en")} steps at least `
      + "are kept.";
    for (const view of this.views) view.render();
    this.renderChanged();
    this.renderOffer();
    this.goToInput();
    const enabled = {
      pause: session.isRunning,
      stepBack: machine.history.length > 0 && !session.isRunning,
      runBack: machine.history.length > 0 && !session.isRunning,
      run: !session.isRunning,
      runToLine: !session.isRunning,
      stepOver: !session.isRunning,
      stepOut: !session.isRunning && depthOf(machine) > 0,
      runToOutput: !session.isRunning,
    };
    for (const [name, isOn] of Object.entries(enabled)) {
      document.querySelector(`[data-action=${name}]`).setAttribute("aria-disabled", !isOn);
    }
  }
}

/* The parts of the page that need a machine. */
const PARTS = ["menus", "controls", "main", "parts"];

/** Says why there is no machine in the page, which then has nothing to press. */
function refuseBrowser(sentence) {
  for (const id of PARTS) $(id).hidden = true;
  $("lesson").hidden = true;
  $("refusal").textContent = sentence;
  $("refusal").hidden = false;
}

async function startPage() {
  if (!hasWebAssembly()) {
    refuseBrowser("This browser can't run the machine: it has no WebAssembly, or it is switched off. "
      + "Chromium, Firefox and Safari of 2024 and later have it.");
    return;
  }
  const kit = await Kit.load(await inflated(MODULE, Infinity));
  const page = new Page(new Session(new Machine(kit)));
  globalThis.rrs = page;
  for (const id of PARTS) $(id).hidden = false;
  await page.start();
  document.documentElement.dataset.ready = "true";
}

startPage().catch((error) => refuseBrowser(`The machine could not be started: ${error.message}`));
