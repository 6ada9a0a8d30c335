"use strict";

// What one works at: the text in the editor, where it is kept, and whether it is saved as a file.

/* How long one has not typed before the text is kept. */
const KEEP_AFTER_MS = 400;

const KEPT_NOTES = {
  lasting: "Your programs, and what you tried of lessons, stay in this browser on this computer.",
  short: "This browser keeps nothing for this page: save your program before you leave.",
  full: "There is no room in this browser to keep this program: save it before you leave.",
};

/* What a program is called that is new. */
const NEW_NAME = "Program";

/* Has the browser save a text as a file. */
function saveFile(text, name) {
  const link = make("a");
  link.href = URL.createObjectURL(new Blob([text], { type: "text/plain" }));
  link.download = name;
  link.click();
  setTimeout(() => URL.revokeObjectURL(link.href), 10000);
}

/** The work of a page. */
class Work {
  constructor(page, keeping) {
    Object.assign(this, { page, keeping });
    this.unsaved = new Set();
    this.own = undefined;
    this.isFull = false;
    addEventListener("pagehide", () => this.keep());
    document.addEventListener("visibilitychange", () => this.keep());
    addEventListener("storage", ({ key }) => this.hear(key));
    addEventListener("beforeunload", (event) => {
      this.keep();
      if (this.unsaved.size > 0) event.preventDefault();
    });
  }

  /** Whether there is work that was not saved as a file. */
  get isUnsaved() {
    return this.unsaved.has(this.subject);
  }

  /* What the text in the editor belongs to: an exercise, or a program. */
  get subject() {
    const { exercise } = this.page.lesson;
    return exercise ?? this.own;
  }

  /** Another program is open: an example, or one that was kept under the id `own`, or is from
   * elsewhere and is kept from now on. */
  begin({ example = "", own }) {
    Object.assign(this, { own, example });
    this.version = own && this.keeping.get("programs", own)?.at;
    const { exercise } = this.page.lesson;
    if (exercise) this.keepPlace();
    else if (example) this.keeping.latestOpen = { example };
    else this.keepProgram();
    this.show();
  }

  /** The text in the editor was changed. */
  change() {
    const isProgram = !this.page.lesson.exercise;
    if (isProgram) this.takeName();
    this.unsaved.add(this.subject);
    this.keepLater();
    this.show();
  }

  /** The breakpoints were changed. */
  changeStops() {
    const { lesson: { exercise }, editor: { stopPlaces: stops } } = this.page;
    if (exercise || this.own) this.keepLater();
    else this.keeping.latestOpen = { example: this.example, stops };
  }

  keepLater() {
    this.isToBeKept = true;
    clearTimeout(this.waiting);
    this.waiting = setTimeout(() => this.keep(), KEEP_AFTER_MS);
  }

  /** Keeps what was changed. */
  keep() {
    clearTimeout(this.waiting);
    if (!this.isToBeKept) return;
    this.isToBeKept = false;
    const { lesson: { exercise }, editor: { text, language, stopPlaces: stops } } = this.page;
    if (exercise) exercise.tried = { text, language, stops, at: Date.now() };
    if (exercise) this.keepLesson();
    else this.keepProgram();
    this.show();
  }

  /* Has an id for a program that has none, and a name that no other one has. One that was kept, and is
   * opened from elsewhere again, is that one. */
  takeName() {
    if (this.own) return;
    const { session, editor } = this.page;
    const same = this.keeping.all("programs").find(({ name, text }) =>
      name === session.name && text === editor.text);
    this.own = same?.id ?? newId();
    this.version = same?.at;
    this.page.nameOwn(same?.name ?? this.keeping.freeName(session.name));
  }

  /* Another tab may have kept another text of the program: then this one is a program of its own. */
  partFromOthers(text) {
    const there = this.own && this.keeping.get("programs", this.own);
    if (!there || there.at === this.version || there.text === text) return;
    this.own = undefined;
    this.page.session.name = this.keeping.freeName(there.name);
  }

  keepProgram() {
    const { session, editor } = this.page;
    const { text, language, stopPlaces: stops } = editor;
    this.partFromOthers(text);
    this.takeName();
    const { machine: { kit: { base, size }, hasStack }, name, calls } = session;
    const entry = { name, text, language, base, size, hasStack, calls, stops };
    const at = this.keeping.put("programs", this.own, entry);
    if (at > 0) this.version = at;
    if (at > 0) this.keeping.latestOpen = { program: this.own };
    this.tellRoom(at > 0, name);
    this.page.fillOwn();
  }

  /** Keeps the lesson, with what was tried and solved of it, here and in other tabs. */
  keepLesson() {
    const { lesson } = this.page.lesson;
    if (lesson === null) return;
    const exercises = this.keeping.mergeLesson(lesson);
    if (exercises !== null) this.takeUp(exercises);
    this.keepPlace();
    this.tellRoom(exercises !== null, lesson.title || "Lesson");
    this.page.fillOwn();
  }

  /* Keeps which exercise is open. */
  keepPlace() {
    const { lesson, number } = this.page.lesson;
    this.keeping.latestOpen = { lesson: idOfLesson(lesson), number };
  }

  /** Gives a lesson back what was kept of it. */
  recall(lesson) {
    const kept = this.keeping.get("lessons", idOfLesson(lesson))?.exercises ?? [];
    const merged = mergedExercises(kept, lesson.exercises);
    lesson.exercises.forEach((each, at) => Object.assign(each, merged[at]));
  }

  /* ---- other tabs */

  /* Another tab has kept something, or taken it away: under a key, or all. */
  hear(key) {
    if (key !== null && !key.startsWith(KEY_START)) return;
    const [kind, id] = Keeping.kindOf(key ?? "") ?? [];
    this.page.fillOwn();
    if (kind === "programs" && id === this.own) this.hearProgram();
    const { lesson } = this.page.lesson;
    if (kind !== "lessons" || lesson === null || id !== idOfLesson(lesson)) return;
    const kept = this.keeping.get("lessons", id);
    if (kept !== null) this.takeUp(mergedExercises(kept.exercises, lesson.exercises));
  }

  /* The open program was kept by another tab: what was not changed here is as it is there. */
  hearProgram() {
    const there = this.keeping.get("programs", this.own);
    if (there === null || this.isToBeKept) return;
    this.version = there.at;
    if (there.name !== this.page.session.name) this.page.nameOwn(there.name);
    if (there.text !== this.page.editor.text) this.page.editor.replace(there.text, there.language);
    this.page.renderChanged();
  }

  /* Has in the open lesson what was done of its exercises here and in other tabs. */
  takeUp(exercises) {
    const { lesson, exercise } = this.page.lesson;
    const { at } = exercise.tried ?? {};
    lesson.exercises.forEach((each, number) => Object.assign(each, exercises[number]));
    this.page.lesson.show();
    const { tried } = exercise;
    if (this.isToBeKept || tried === undefined || tried.at === at) return;
    if (tried.text !== this.page.editor.text) this.page.editor.replace(tried.text, tried.language);
    this.page.renderChanged();
  }

  /* ---- programs and lessons by name */

  /** Gives a program that is kept another name. */
  rename(id, name) {
    this.keep();
    const { keeping, own, page } = this;
    const entry = keeping.get("programs", id);
    const isOther = entry !== null && name !== "" && name !== entry.name;
    const at = isOther ? keeping.put("programs", id, { ...entry, name: keeping.freeName(name) }) : 0;
    if (at > 0 && id === own) {
      this.version = at;
      page.nameOwn(keeping.get("programs", id).name);
    }
    page.fillOwn();
  }

  /** Takes away a program or a lesson that is kept. What is open stays open. */
  remove(kind, id) {
    this.keeping.remove(kind, id);
    // what was changed last is not kept again at once
    if (id === this.own) this.forget();
    if (this.isFull) this.keepAgain();
    this.page.fillOwn();
  }

  /* Keeps what there was no room for. */
  keepAgain() {
    if (this.page.lesson.exercise) this.keepLesson();
    else this.keepProgram();
    this.show();
  }

  /* What is open is kept when it is changed next. */
  forget() {
    clearTimeout(this.waiting);
    this.isToBeKept = false;
  }

  /* Asks what is to go, where something finds no room: once, until there is room again. */
  tellRoom(isRoom, name) {
    const wasFull = this.isFull;
    Object.assign(this, { isFull: !isRoom, lacking: name });
    if (this.isFull && !wasFull) this.page.askForRoom();
  }

  /* ---- files */

  /** Saves the text in the editor as a file. */
  save() {
    const { editor, session } = this.page;
    saveFile(editor.text, fileNameOf(session.name, editor.language));
    this.unsaved.delete(this.subject);
    this.show();
  }

  /** Saves the tries of the lesson as a file, by the name of the one who hands them in. */
  handIn(by) {
    const { lesson } = this.page.lesson;
    const name = fileNameOf(`${lesson.title}.${by}`, "assembly").replace(/\.s$/, ".handed-in.txt");
    saveFile(handedIn(lesson, by), name);
    for (const exercise of lesson.exercises) this.unsaved.delete(exercise);
    this.show();
  }

  /** Saves all that is kept as one file. */
  exportAll() {
    this.keep();
    saveFile(this.keeping.exported(), "rrs-kept.json");
    this.unsaved.clear();
    this.show();
  }

  /** Takes away what is kept on this computer. */
  clear() {
    this.forget();
    this.keeping.clear();
    this.isFull = false;
    this.page.fillOwn();
  }

  show() {
    const note = this.isFull ? "full" : this.keeping.isLasting ? "lasting" : "short";
    setText($("kept-note"), KEPT_NOTES[note]);
    $("kept-note").className = note === "lasting" ? "" : "warning";
    const unsaved = note === "lasting" ? "not saved as a file" : "not kept: save it as a file";
    setText($("unsaved"), this.isUnsaved ? unsaved : "");
  }
}
