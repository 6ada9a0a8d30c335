"""Pages that are known to be wrong, of which the trials have to find each mistake."""

import pathlib
import shutil
import subprocess
import tempfile

import join
from trials import actions, boards, changing, generated, grading, keeping, looks, policy, teaching
from trials.report import Differs, Report, differing_counts, same
from trials.together import Desk, Trial, make_all
from trials.view import EXPECTED, WEB, Subject


def low_contrast(machine):
    """Makes the trial of looks, and fails where a text has too little contrast."""
    try:
        looks.light(machine)
    except Differs as differs:
        if str(differs).startswith("what has too little contrast"):
            raise


# a file, what stands in it, and what stands there instead
IN_NODE = [
    ("wording.js", '"zero", "ra", "sp"', '"zero", "sp", "ra"'),
    ("machine.js", "if (end !== null) kit.undo(history.next, kit.addresses);", ""),
    ("terminal.js", "Object.assign(this, mark);", ""),
    ("kit.js", "const first = this.at.texts + start;", "const first = this.at.texts;"),
    ("assembly.js", "subarray(0, byte - 1)", "subarray(0, byte)"),
    ("assembly.js", "line: Math.max(0, each.line - before)", "line: each.line"),
    ("rars.js", "if (labels.has(name)) edits", "if (labels.size > 9) edits"),
    ("rars.js", "below & below - 1", "below & 1"),
    ("judging.js", "if (isOwnWord(session, index)) add(", "if (false) add("),
    ("judging.js", "      if (!isOwnWord(session, index)) continue;\n      const next", "      const next"),
    ("judging.js", "required.filter((each) => countOf(each) < each.times)", "required.slice(0, 0)"),
    ("judging.js", "if (before === after || isTold(register)) continue;", "continue;"),
    ("judging.js", "const limit = ofCase.limit ?? exercise.limit;", "const { limit } = exercise;"),
    ("lesson.js", 'return !isHidden || !isOfCase && word !== "hidden case";', "return true;"),
    ("grading.js", "right > tries[best].right", "right >= tries[best].right"),
    ("grading.js", 'if (plain === "" || plain === begun) continue;', 'if (plain === "") continue;'),
    ("grading.js", "return other === undefined || other === title", "return true"),
    ("lesson.js", "exercise.now.registers.filter(([other]) => other !== register)",
     "exercise.now.registers"),
    ("lesson.js", "/^\\s*(hidden|hidden[", "/^\\s*(hidden["),
    ("lesson.js", "if (!exercise?.first ||", "if (true ||"),
    ("lesson.js", "sayOnce(exercise.now.said, NAMES.abi[register], line);", ""),
    ("lesson.js", "  refuseUnused(exercise);\n", ""),
    ("traps.js", "if (kind === OUTCOME.WAITING) traps.time = Math.max(traps.time, traps.alarm);", ""),
    ("traps.js", "this.time += by;", "this.time++;"),
    ("machine.js", "if (extra?.cause !== undefined) return true;", ""),
    ("machine.js", "(word >>> 28 & 3) << 8", "0"),
    ("machine.js", "history.takeChangesBack(changes, kit.addresses);", ""),
    ("machine.js", "if (reserved !== undefined) this.kit.reserved.set(reserved);", ""),
    ("kit.js", "1 | 2 | 4 | BIT_PROFILE", "1 | 2 | 4"),
    ("kit.js", "PROFILE.USER_MODE | PROFILE.BITS", "PROFILE.USER_MODE"),
    ("machine.js", "if (isAboveTable(word)) return ROWS_AT + kit.rowOf(word);", ""),
    ("machine.js", "this.environment.hasProcesses || this.environment.hasTraps",
     "this.environment.hasProcesses"),
    ("kit.js", "if (!isLoaded) this.hasCompressed = hadCompressed;", ""),
    ("kit.js", "this.pc += this.sizeOf(bits);", "this.pc += 4;"),
    ("kit.js", "this.u32[change + RECORD.stored] = size;", "this.u32[change + RECORD.stored] = 1;"),
    ("kit.js", "before = 256 * before + this.bytes[at + each];", "before = this.bytes[at];"),
    ("kit.js", "u32[change + RECORD.rdBefore] = x[rd];", "u32[change + RECORD.rdBefore] = 0;"),
    ("machine.js", "FAULT.MISALIGNED) return kit.pc % kit.unit === 0;",
     "FAULT.MISALIGNED) return kit.pc % 4 === 0;"),
    ("convention.js", "const back = (pc + size) % 2 ** 32;", "const back = (pc + 4) % 2 ** 32;"),
    ("session.js", "(kit.pc + kit.sizeOf(bits)) % 2 ** 32", "(kit.pc + 4) % 2 ** 32"),
    ("session.js", "!labels.has(index + 1) && !entered.has(index + 1)", "!labels.has(index + 1)"),
    ("program.js", "sources.set(index + 4 / unit,", "sources.set(index + 1,"),
    ("traps.js", "(this.kit.unit === 2 ? PROFILE.COMPRESSED : 0)", "0"),
    ("judging.js", "kit.wordOf(kit.bitsAt(kit.base + kit.unit * index) ?? 0)",
     "kit.bitsAt(kit.base + kit.unit * index) ?? 0"),
    ("wording.js", "((bits & 3) === 3 ? 1 << (bits >>> 12 & 3) : 4)", "1 << (bits >>> 12 & 3)"),
    ("convention.js", "if (after !== before && frame.isPlain)", "if (after < before)"),
    ("judging.js", "if (value === wanted) continue;", "if (value >= wanted) continue;"),
    ("executable.js", "const start = at - where.distance;", "const start = at;"),
    ("convention.js", "&& this.top?.returns === this.returns;", ";"),
    ("convention.js", "if (history.lowest < this.state.step) this.goBack(history.lowest);", ""),
    ("records.js", "if (this.steps < this.lowest) this.lowest = this.steps;", ""),
    ("session.js", "&& depthOf(this.machine) > this.depth", ""),
    ("session.js", "Math.floor((now - this.nextAt) / each) + 1", "1"),
    ("wording.js", "if (!machine.hasStack && machine", "if (machine.hasStack && machine"),
    ("judging.js", "kit.bytes.set(memory.bytes, places.get(memory.label).offset);", "{}"),
    ("lesson.js", "if (isLesson(text) || ", "if (!isLesson(text) || "),
    ("grading.js", "exercise.tries.some(", "exercise.tries.every("),
    ("board.js", "this.typed.length > 0 && this.kit.receive(this.typed[0])",
     "this.typed.length > 0"),
    ("board.js", "this.isAtStop = stops.has(kit.pc);", ""),
    ("board.js", "&& this.kit.time === time;", "&& false;"),
    ("board.js", "return this.ahead;", "return 0;"),
    ("board.js", "regmap: [2],", "regmap: [1],"),
    ("board.js", "    kit.hasCompressed = true;\n", ""),
    ("board.js", "deviceTree(RAM_BYTES, kit.hasCompressed)", "deviceTree(RAM_BYTES, false)"),
    ("board.js", 'if (letter === "\\b") this.column = Math.max(0, this.column - 1);', ""),
]
IN_BROWSER = [
    (actions.by_each_way, "page.js", '"click", () => this.act(', '"click", () => void ('),
    (looks.theme, "style.css", "--back: light-dark(#eef1f5,", "--back: light-dark(#eef1f6,"),
    (looks.light, "style.css", ".state.wait {", ".state.waits {"),
    # a contrast of 4.3
    (low_contrast, "style.css", "--soft: light-dark(#566273,", "--soft: light-dark(#5f6c7d,"),
    (looks.focus, "style.css", "outline: 2px solid var(--accent)", "outline: none"),
    (teaching.while_one_types, "editor.js", "column - 1, Math.max(", "column, Math.max("),
    (policy.policy, "index.html", "default-src 'none'", "default-src 'self'"),
    (keeping.text_stays, "page.js", "editor.goToMistake(mistake);", "editor.fill();"),
    (keeping.lesson_stays, "keeping.js", "isSolved: other.isSolved || isSolved", "isSolved: isSolved"),
    (keeping.cleared, "keeping.js", "\n      .filter((key) => key?.startsWith(KEY_START))", ""),
    (keeping.saved, "work.js", "this.unsaved.delete(this.subject);", ""),
    (keeping.panel, "editor.js", 'if (key === "Tab") this', 'if (key === "F9") this'),
    (changing.calls_meant, "page.js", "this.session.setCalls(this.session.notice.calls);", ""),
    (looks.first_look, "style.css", ".menus {\n  display: flex;", ".menus {\n  display: block;"),
    (looks.one_screen, "style.css", "height: 100vh; height: 100dvh;", "height: 60rem;"),
    (looks.narrow, "style.css", "scroll-snap-type: x mandatory;", ""),
    (looks.boxes, "style.css", "  .toolbar .speed select { font-size: 0.85rem; }\n", ""),
    (looks.twice_as_large, "style.css", "  .controls { position: static; }\n", ""),
    (teaching.lesson_of_cases, "views.js", "const why = isHidden ?", "const why = false ?"),
    (teaching.lesson_on_a_phone, "keeping.js", "`${text}\\0${handedIn}`", "`${text}`"),
    (grading.guards, "page.js", "given, seed, ...tried });", "seed, ...tried });"),
    (grading.cases_started, "page.js", "const call = exercise.told[at].call ?? made[0] ?? null;",
     "const call = null;"),
    (grading.named, "page.js", 'if (name === "") {', "if (false) {"),
    (grading.named, "page.js",
     'if (!isOpen) $(name === "" ? "student" : "save-tries").focus();', ""),
    (grading.class_in_the_page, "grading.js", "namesOf(kit).has(part)) return part;",
     "part !== null) return part;"),
    (grading.class_in_the_page, "views.js", "const [one, other] = [tries.at(-1), tries[bestOf(tries)]];",
     "const [one, other] = [tries.at(-1), tries.at(-1)];"),
    (grading.rars, "views.js", "word & 0xff) << 16 | word & 0xff00 | word >>> 16 & 0xff", "word & 0xffffff)"),
    (keeping.two_tabs, "keeping.js", "(other.tried?.at ?? 0) > (tried.at ?? 0)", "false"),
    (keeping.two_tabs, "keeping.js", "this.get(\"lessons\", id)?.exercises ?? []", "[]"),
    (keeping.two_tabs, "keeping.js", "this.ofTab.setItem(", "this.ofTab.getItem("),
    (keeping.two_tabs, "work.js", 'addEventListener("storage"', 'addEventListener("none"'),
    (keeping.two_tabs_of_a_program, "work.js", "    this.partFromOthers(text);\n", ""),
    (keeping.many, "keeping.js", "if (this.all(\"programs\").some(isKept)) return true;", ""),
    (keeping.second_program, "work.js", "this.own = same?.id ?? newId();", 'this.own = "1";'),
    (keeping.full, "keeping.js", "return storage.length > 0;", "return false;"),
    (keeping.full, "page.js", 'if (document.querySelector("dialog[open]") === null) this', "if (false) this"),
    (keeping.handed_in_file, "page.js", "giveHandedIn(lesson, kept.handedIn);", "{}"),
    (keeping.kept_by_a_page_of_before, "keeping.js", "    this.takeOfBefore();\n", ""),
    (changing.run_after_typing, "page.js", "return !this.editor.isChanged || this.take();", "return true;"),
    (changing.run_after_typing, "page.js", "      session.stop();\n      session.say(\"Not run\"",
     "      session.say(\"Not run\""),
    (changing.line_of_a_fault, "session.js", "const where = isFault ?", "const where = !isFault ?"),
    (changing.line_of_a_fault, "editor.js", "this.origins = originsAfter(this.origins, this.before, value);",
     ""),
    (changing.breakpoints_of_the_text, "work.js", "this.keepLater();\n    else this.keeping.latestOpen",
     "{}\n    else this.keeping.latestOpen"),
    (changing.menu_by_letters, "page.js", 'if (value === "") return', "if (false) return"),
    (looks.forced_colours, "style.css", ".line:not(.pc) { border-left-color: Canvas; }", ""),
    (boards.board, "screen.js",
     '$("board-step").addEventListener("click", () => board.step());', ""),
    (boards.refused, "page.js", "if (this.board.isOpen) this.board.close();", ""),
]

# those that are given a browser, and no page
OF_A_BROWSER = (policy.policy, *keeping.OF_A_BROWSER, *looks.OF_A_BROWSER)


def page_with(folder, name, old, new):
    """Makes a page in a folder, with one text in the place of another, and has it tried."""
    folder.mkdir()
    for source in WEB.iterdir():
        if source.suffix in (".js", ".css", ".html"):
            shutil.copy(source, folder)
    path = folder / name
    text = path.read_text(encoding="utf-8")
    if text.count(old) != 1:
        raise SystemExit(f"web/check: {name} has not once: {old}")
    path.write_text(text.replace(old, new), encoding="utf-8")
    Subject.scripts = folder
    Subject.page = folder / "rrs.html"
    text = join.joined(folder, Subject.module.read_bytes(), "../../README.md")
    Subject.page.write_text(text, encoding="utf-8")


def search(number, folder, trial, of_desk, edit):
    """The search for a mistake by a trial, in a page of its own."""

    def finds(desk):
        page_with(folder / str(number), *edit)
        [said] = Trial(trial, of_desk).make(desk).said
        same("whether it is found, and not by a fault of the trial", [True, False],
             [said.startswith("failed: "), "Traceback" in said])

    finds.__doc__ = f"finds a mistake in {edit[0]}: {edit[1]}"
    return Trial(finds, lambda desk: desk)


def counts():
    """notices a trial that is left out, and a comparison too few"""
    lines = (EXPECTED / "counts.txt").read_text(encoding="utf-8").splitlines()
    counted = dict(line.rsplit(" ", 1) for line in lines)
    first = next(iter(counted))
    one_less = {**counted, first: str(int(counted[first]) - 1)}
    without = {name: count for name, count in counted.items() if name != first}
    stored = "\n".join(lines)
    same("whether it notices", [True, True, False], [
        bool(differing_counts(stored, got)) for got in (one_less, without, counted)])


def status():
    """ends with status 1 where comparisons are missing"""
    run = subprocess.run([WEB / "check", "--wrong"], capture_output=True, text=True, check=False)
    same("status", [1, True], [run.returncode, "failed: as many comparisons" in run.stdout])


def self_test(path):
    """Tries each wrong page. Answers 0 where each mistake is found."""
    report = Report()
    with tempfile.TemporaryDirectory() as name:
        edits = [(generated.cases, None, edit) for edit in IN_NODE] + [
            (trial, Desk.browser if trial in OF_A_BROWSER else Desk.page_apart, edit)
            for trial, *edit in IN_BROWSER]
        trials = [Trial(counts), Trial(status), *(
            search(number, pathlib.Path(name), *edit) for number, edit in enumerate(edits))]
        make_all(trials, path, report.take)
    print(f"web/check --self-test: {len(trials) - len(report.failed)} of {len(trials)} mistakes were "
          "found")
    return 1 if report.failed else 0
