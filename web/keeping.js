"use strict";

// What stays on this computer: programs, and lessons with what was tried, each under a key of its own.
// Several tabs may keep at the same time. Nothing here knows the page.

/* What the name of each key begins with. A browser may have one storage for all pages that are
 * opened from files, so no other key is read, written or cleared. */
const KEY_START = "rrs.";

/* What is kept, each with what its keys begin with behind that, and what each has to have. */
const KEPT = {
  programs: { start: "program.", noun: "program" },
  lessons: { start: "lesson.", noun: "lesson" },
};

/* How many tries of an exercise are kept. */
const MOST_TRIES = 50;

/* What a file begins with that has all that is kept, and its version. */
const EXPORT_START = '{"rrs kept":1,';

/** A storage for as long as the page is open. */
class ShortStorage extends Map {
  getItem(key) { return this.get(key) ?? null; }
  setItem(key, text) { this.set(key, text); }
  removeItem(key) { this.delete(key); }
  get length() { return this.size; }
  key(at) { return [...this.keys()][at]; }
}

/** Programs and lessons in a storage of texts. */
class Keeping {
  /** Over the storage that `open` gives, and that of this tab alone, which `openOfTab` gives. Where the
   * first throws, or takes nothing and has nothing, all is kept for as long as the page is open. */
  constructor(open, openOfTab = () => new ShortStorage()) {
    this.latest = 0;
    try {
      this.ofTab = openOfTab();
    } catch {
      this.ofTab = new ShortStorage();
    }
    try {
      this.storage = open();
      this.isLasting = takesOrHas(this.storage);
    } catch {
      this.isLasting = false;
    }
    if (!this.isLasting) this.storage = new ShortStorage();
    this.takeOfBefore();
  }

  /** What is kept under a name, or null. */
  read(name) {
    try {
      return JSON.parse(this.storage.getItem(KEY_START + name));
    } catch {
      return null;
    }
  }

  /** Keeps something under a name. Answers whether there is room for it. */
  write(name, value) {
    try {
      this.storage.setItem(KEY_START + name, JSON.stringify(value));
      return true;
    } catch {
      return false;
    }
  }

  /** What was open last: in this tab, or else in any. */
  get latestOpen() {
    try {
      return JSON.parse(this.ofTab.getItem(`${KEY_START}latest`)) ?? this.read("latest") ?? {};
    } catch {
      return this.read("latest") ?? {};
    }
  }

  /** Keeps what is open: `{ program }` by its id, `{ lesson, number }`, or `{ example, stops }`. */
  set latestOpen(value) {
    this.write("latest", value);
    try {
      this.ofTab.setItem(`${KEY_START}latest`, JSON.stringify(value));
    } catch {
      // what is open in any tab is known all the same
    }
  }

  /** The programs or the lessons that are kept, the latest first. */
  all(kind) {
    const start = KEY_START + KEPT[kind].start;
    const ids = this.keys().filter((key) => key.startsWith(start))
      .map((key) => key.slice(start.length));
    const found = ids.map((id) => this.get(kind, id)).filter((entry) => entry !== null);
    return found.sort((one, other) => other.at - one.at);
  }

  /** The program or the lesson of an id, or null. */
  get(kind, id) {
    const entry = soundEntry(kind, this.read(KEPT[kind].start + id));
    return entry && { ...entry, id };
  }

  /** Keeps a program or a lesson under an id, as the latest one. Answers the time by which it is known
   * from what another tab keeps there, or 0 where there is no room for it: then what was kept stays. */
  put(kind, id, entry) {
    this.latest = Math.max(Date.now(), this.latest + 1);
    const { latest: at } = this;
    return this.write(KEPT[kind].start + id, { ...entry, id: undefined, at }) ? at : 0;
  }

  remove(kind, id) {
    this.storage.removeItem(KEY_START + KEPT[kind].start + id);
  }

  /** What a key is of: `[kind, id]`, or undefined. */
  static kindOf(key) {
    for (const [kind, { start }] of Object.entries(KEPT)) {
      if (key.startsWith(KEY_START + start)) return [kind, key.slice((KEY_START + start).length)];
    }
    return undefined;
  }

  /** A name that no program has that is kept: the one that is given, or with a number behind it. */
  freeName(name) {
    const names = new Set(this.all("programs").map((entry) => entry.name));
    if (!names.has(name)) return name;
    const plain = name.replace(/ \d+$/, "");
    let number = 2;
    while (names.has(`${plain} ${number}`)) number++;
    return `${plain} ${number}`;
  }

  /** All that is kept, as the text of a file. */
  exported() {
    const all = Object.keys(KEPT).map((kind) => `"${kind}":${JSON.stringify(this.all(kind))}`);
    return `${EXPORT_START}${all.join(",")}}`;
  }

  /** Keeps what such a text has, beside what is kept: a program whose id has another text here gets an
   * id and a name of its own, and a lesson is merged. Answers how many of each are kept, and how many
   * have found no room; or null where it is no such text. */
  imported(text) {
    const given = exportIn(text);
    if (given === null) return null;
    const count = { programs: 0, lessons: 0, lost: 0 };
    for (const kind of Object.keys(KEPT)) {
      for (const entry of [...given[kind]].reverse()) {
        const isKept = kind === "programs" ? this.takeProgram(entry) : this.mergeLesson(entry) !== null;
        count[isKept ? kind : "lost"]++;
      }
    }
    return count;
  }

  takeProgram(entry) {
    const there = this.get("programs", entry.id);
    const isKept = ({ id, name, text }) => text === entry.text && (id === entry.id || name === entry.name);
    if (this.all("programs").some(isKept)) return true;
    const id = there === null && entry.id ? entry.id : newId();
    return this.put("programs", id, { ...entry, name: this.freeName(entry.name) }) > 0;
  }

  /** Keeps a lesson with what was done of it, beside what is kept of it. Answers its exercises as they
   * are now, or null where there is no room for them. */
  mergeLesson(lesson) {
    const id = idOfLesson(lesson);
    const exercises = mergedExercises(this.get("lessons", id)?.exercises ?? [], lesson.exercises);
    const { text, title, handedIn } = lesson;
    return this.put("lessons", id, { text, title, handedIn, exercises }) ? exercises : null;
  }

  /** Takes away what is kept, and nothing else that the storage has. */
  clear() {
    for (const key of this.keys()) this.storage.removeItem(key);
    this.ofTab.removeItem(`${KEY_START}latest`);
  }

  /* The keys of what is kept. */
  keys() {
    const { storage } = this;
    return Array.from({ length: storage.length }, (_, at) => storage.key(at))
      .filter((key) => key?.startsWith(KEY_START));
  }

  /* Takes up what a page of before kept: lists of a few programs and lessons. */
  takeOfBefore() {
    const lessons = this.read("lessons") ?? [];
    for (const kind of Object.keys(KEPT)) {
      const entries = this.read(kind);
      if (!Array.isArray(entries)) continue;
      const sound = entries.map((entry) => soundEntry(kind, entry)).filter((entry) => entry !== null);
      const areKept = sound.reverse().map((entry) => (kind === "lessons"
        ? this.mergeLesson(entry) !== null : this.put(kind, entry.id ?? newId(), entry) > 0));
      if (!areKept.includes(false)) this.storage.removeItem(KEY_START + kind);
    }
    const latest = this.read("latest");
    if (typeof latest?.lesson !== "number" || soundEntry("lessons", lessons[0]) === null) return;
    this.write("latest", { lesson: idOfLesson(lessons[0]), number: latest.lesson });
  }
}

/* Whether a storage takes a text, or is full. */
function takesOrHas(storage) {
  const key = `${KEY_START}trial`;
  try {
    storage.setItem(key, "1");
    storage.removeItem(key);
    return true;
  } catch {
    return storage.length > 0;
  }
}

const newId = () => `${Date.now()}-${Math.random().toString(36).slice(2)}`;

/** The id under which a lesson is kept, by its text, and by what was handed in of it. */
function idOfLesson({ text, handedIn = "" }) {
  let [one, other] = [0xdeadbeef, 0x41c6ce57];
  for (const letter of `${text}\0${handedIn}`) {
    const code = letter.codePointAt(0);
    one = Math.imul(one ^ code, 2654435761);
    other = Math.imul(other ^ code, 1597334677);
  }
  return `${text.length}-${(one >>> 0).toString(36)}${(other >>> 0).toString(36)}`;
}

/* What is sound of an entry that was read, or null where it is none. */
function soundEntry(kind, entry) {
  if (typeof entry?.text !== "string") return null;
  const at = Number.isFinite(entry.at) ? entry.at : 0;
  if (kind === "programs") return { ...entry, at, name: String(entry.name ?? "Program") };
  const exercises = Array.isArray(entry.exercises) ? entry.exercises.map(soundExercise) : [];
  return { ...entry, at, title: String(entry.title ?? ""), exercises };
}

/* What is sound of what is kept of an exercise. */
function soundExercise(given) {
  const { tried, tries, isSolved } = given ?? {};
  return {
    tried: typeof tried?.text === "string" ? tried : undefined,
    tries: (Array.isArray(tries) ? tries : []).filter((each) => typeof each?.text === "string"),
    isSolved: isSolved === true,
  };
}

/* What stands in the text of an export, or null. */
function exportIn(text) {
  try {
    const given = JSON.parse(text);
    if (given["rrs kept"] !== 1) return null;
    return Object.fromEntries(Object.keys(KEPT).map((kind) =>
      [kind, given[kind].map((entry) => soundEntry(kind, entry)).filter((entry) => entry !== null)]));
  } catch {
    return null;
  }
}

/** What was done of the exercises of a lesson here, beside what is kept of them: of each the text that
 * is later, each try, and whether it is solved. */
function mergedExercises(kept, own) {
  return Array.from({ length: Math.max(kept.length, own.length) }, (_, at) => {
    const { tried, tries, isSolved } = own[at] ?? {};
    const other = kept[at] ?? soundExercise();
    const isOther = tried === undefined || (other.tried?.at ?? 0) > (tried.at ?? 0);
    return {
      tried: isOther ? other.tried ?? tried : tried,
      tries: mergedTries(other.tries, tries ?? []),
      isSolved: other.isSolved || isSolved === true,
    };
  });
}

/* Tries of two tabs, each once, in the order in which they were made. One that is made again at once
 * stands for both. */
function mergedTries(kept, own) {
  const all = new Map([...kept, ...own].map((each) => [`${each.at ?? 0} ${each.text}`, each]));
  const inOrder = [...all.values()].sort((one, other) => (one.at ?? 0) - (other.at ?? 0));
  const tries = inOrder.filter(({ text }, at) => inOrder[at + 1]?.text !== text);
  // the best one stays
  while (tries.length > MOST_TRIES) tries.splice(bestOf(tries) === 0 ? 1 : 0, 1);
  return tries;
}

/** The name of the file that a program is saved as. */
function fileNameOf(name, language) {
  const plain = name.replace(/\.(s|S|asm|txt|hex)$/, "").replace(/[^\w.-]+/g, "-")
    .replace(/^[-.]+|-+$/g, "").slice(0, 60);
  return `${plain || "program"}${language === "assembly" ? ".s" : ".hex"}`;
}
