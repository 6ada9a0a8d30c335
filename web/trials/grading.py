"""Exercises that hold, and a class that is graded: guards, cases that are stepped, names, and 200 who have
handed in, of whom some have copied."""

import csv
import json
import pathlib
import re
import subprocess
import tempfile

from trials import firefox
from trials.guarded import GUARDED, TITLE, class_of
from trials.report import same
from trials.view import WEB, Subject, js

LESSON = WEB.parent / "examples" / "lesson" / "guards.txt"
CLASS = 200
CASES = "[...document.querySelectorAll('#exercise-cases li')].map((item) => item.textContent)"
SORTED = "en"


def grade(*words):
    run = subprocess.run([WEB / "grade", *words], capture_output=True, text=True, check=False)
    return run.returncode, run.stdout, run.stderr.strip()


def handed_in_class(folder):
    """The files of a class in a folder, and the lines of its table, sorted by their names."""
    students = class_of(CLASS)
    for student in students:
        (folder / student.file).write_text(student.text(), encoding="utf-8")
    return students, [folder / student.file for student in students]


def rows_of(text):
    return list(csv.reader(text.splitlines()))


def by_name(rows):
    """Rows by their names, which stand in each once, with the names of files alone, and those who
    have equal programs in the order of the alphabet."""
    def plain(note):
        return "; ".join(re.sub(r" as (.*)", lambda found: " as " + ", ".join(
            sorted(found[1].split(", "))), part) for part in note.split("; "))
    return {row[0]: [row[0], pathlib.Path(row[1]).name, *row[2:-1], plain(row[-1])] for row in rows}


def class_graded():
    """web/grade --csv: 200 hand-ins have the points that are known, and copies are found"""
    with tempfile.TemporaryDirectory() as name:
        folder = pathlib.Path(name)
        students, paths = handed_in_class(folder)
        status, out, errors = grade("--csv", LESSON, "all", *paths)
        head, *rows = rows_of(out)
        same("status and errors", (0, ""), (status, errors))
        same("the heading", ["name", "file", "1 A product without mul: small ones", "latest", "best",
                             "notes"], [*head[:3], *head[-3:]])
        same("the rows", by_name(student.row() for student in students), by_name(rows))
        copied = [row for row in rows if row[-1]]
        same("how many have copied or been copied from", sum(
            bool(student.equal) for student in students), len(copied))
        same("the order", sorted([row[0] for row in rows], key=order), [row[0] for row in rows])
        (folder / "other.txt").write_text("handed in: Loops\nby: Zoe\n\nexercise 1: a\n")
        (folder / "none.txt").write_bytes(b"\xff\xfe\xff\x00\x01")
        status, out, errors = grade("--csv", LESSON, "1", paths[0], folder / "other.txt",
                                    folder / "none.txt")
        same("a file of another lesson, and one that is no text", (
            2, f'handed in of another lesson: "Loops", and not "{TITLE}"',
            f"web/grade: {folder / 'none.txt'}: not a text"),
            (status, next(row for row in rows_of(out) if row[0] == "Zoe")[-1], errors))
        same("without --csv", (1, f'{folder / "other.txt"} (Zoe): handed in of another lesson: "Loops", '
                               f'and not "{TITLE}"\n', ""),
             grade(LESSON, "1", folder / "other.txt"))
        text = "by: Ada\n\nexercise 1: a\n" + "".join(
            "try: 1 of 1 right\n" + "".join(f"| {line}\n" for line in GUARDED[1][kind][0].splitlines())
            for kind in (2, 0, 1))
        (folder / "three.txt").write_text(f"handed in: {TITLE}\n{text}")
        same("the best and the latest try", f"{folder / 'three.txt'} (Ada): not right, 2 of 4 cases, the "
             "latest of 3 tries; the best is try 2, 4 of 4",
             grade(LESSON, "1", folder / "three.txt")[1].split("\n")[0])
    return f"{CLASS} hand-ins"


def order(name):
    """A name as an alphabet sorts it: without marks, and numbers by what they are."""
    plain = name.replace("É", "E").replace("Ö", "O").replace("'", "")
    return [int(part) if part.isdigit() else part.lower() for part in re.split(r"(\d+)", plain)]


def class_copy():
    """web/grade --class: a copy without what hidden cases have, which opens"""
    status, out, errors = grade("--class", LESSON)
    same("status and errors", (0, ""), (status, errors))
    same("what is hidden", [], [word for word in ("hidden", "5040", "3628800", "razzirr", "93648", "273")
                                if word in out])
    same("that all else is there", [True, True, True], [word in out for word in (
        "hint: Save ra", "call: factorial(4) = 24", "given:")])
    with tempfile.TemporaryDirectory() as name:
        copy = pathlib.Path(name) / "copy.txt"
        copy.write_text(out)
        program = pathlib.Path(name) / "a.s"
        program.write_text(GUARDED[1][0][0])
        same("by the copy", f"{program}: right, 2 of 2 cases\n", grade(copy, "1", program)[1])
        copy.write_text("lesson: a\nexercise: e\nhidden case: b\nregister: a0 = 1\n")
        same("hidden cases alone", (2, "", f'web/grade: {copy}: Line 2: "e" has hidden cases alone: give '
                                    "it an open one"), grade("--class", copy))
    return f"{out.count(chr(10))} lines"


# ---- in the page

OPEN_AND_CHECK = """(async () => {{
    document.querySelector("#exercises li:nth-child({number}) a").click();
    while (rrs.lesson.number !== {number}) await new Promise((done) => setTimeout(done, 5));
    rrs.showEditor();
    const text = document.getElementById("text");
    text.value = {text};
    text.dispatchEvent(new Event("input"));
    document.querySelector("[data-action=check]").click();
    while (!rrs.lesson.exercise.told || rrs.lesson.exercise.checking) {{
        await new Promise((done) => setTimeout(done, 5));
    }}
    const cases = [...document.querySelectorAll("#exercise-cases li")];
    return [rrs.lesson.exercise.told.map(({{ misses }}) =>
        Number([...misses.values()][0].length === 0)).join(""),
    document.getElementById("exercise-check").textContent,
    cases.map((item) => item.textContent).join(" ")];
}})()"""


def guards_by(ask):
    """Has each of the programs checked, and compares what is told."""
    for number, programs in GUARDED.items():
        for kind, (text, cases, why) in zip(("right", "round it", "nearly right"), programs, strict=True):
            got, verdict, told = ask(OPEN_AND_CHECK.format(number=number, text=json.dumps(text)))
            same(f"exercise {number}, {kind}", [cases, True], [got, why in f"{verdict} {told}"])
            same("its verdict", "Solved." if kind == "right" else "cases are right.",
                 verdict if kind == "right" else re.search(r"cases are right\.", verdict)[0])


def open_lesson(machine):
    machine.give(LESSON)
    machine.page.wait("$('lesson-title').textContent === 'Functions with guards'")


def guards(machine):
    """each guard: a program that is right, one that goes round it, and one that nearly is right"""
    open_lesson(machine)
    guards_by(machine.page.ask)
    page = machine.page
    same("what is told of the rules", True, "It has to call factorial itself" in page.ask(
        "rulesOf(rrs.lesson.lesson.exercises[1])").replace("call factorial 3 times", ""))
    got = page.ask(OPEN_AND_CHECK.format(number=1, text=json.dumps("times: mul a0, a0, a1\n ret\n")))
    same("what is forbidden", ["0000", "Line 1: mul may not stand in this program. The best of your 4 tries "
                               "has 4 of 4 right.", ""], got)
    got = page.ask(OPEN_AND_CHECK.format(number=4, text=json.dumps("kount: ret\n"))
                   .replace("!rrs.lesson.exercise.told", "!rrs.lesson.exercise.mistake")
                   .replace("rrs.lesson.exercise.told.map", "[].map"))
    same("a label that what is given needs", "Not checked. What is given uses count: the program needs this "
         "label.", got[1])
    machine.keys("q")


def cases_started(machine):
    """a click on a case has the program at its start, to be stepped to where it goes wrong"""
    page = machine.page
    open_lesson(machine)
    text = GUARDED[3][2][0]
    page.ask(OPEN_AND_CHECK.format(number=3, text=json.dumps(text)))
    same("which cases can be started", ["as they stand", "one alone"], page.ask(
        "[...document.querySelectorAll('#exercise-cases button')].map((item) => item.textContent)"))
    page.click("#exercise-cases li:nth-child(2) button")
    machine.says("Ready", "At the start of one alone. The case has the call greatest(numbers, 1), and "
                 "numbers = -8.")
    machine.leave_fields()
    first = [machine.register(name) for name in ("x11", "x8", "x2")]
    same("where it starts", ["0x00000001", "0x5a5a0008", "0x0000fff0"], first)
    same("its memory", 0xfffffff8, page.ask(
        "rrs.session.machine.kit.words[rrs.session.places.get('numbers').index]"))
    machine.keys("s")
    same("a step", ["1 step", "0x00000000"], [page.text("#steps"), machine.register("x5")])
    machine.run()
    machine.says("Returned", "greatest(numbers, 1) has returned: a0 is 0 (0x00000000).")
    machine.run("B")
    same("and back", first, [machine.register(name) for name in ("x11", "x8", "x2")])
    # what is given is joined to the program, and stands in the listing
    page.ask(OPEN_AND_CHECK.format(number=4, text=json.dumps(GUARDED[4][2][0])))
    page.click("#exercise-cases li:nth-child(1) button")
    same("what is given", ["main:", "auipc a0, 0x00000000", "la   a0, text"], [
        part.strip() for part in page.ask("[...document.querySelectorAll('#line-0 .text > *')]"
                                          ".map((part) => part.textContent)")])
    same("and what is said of it", True, page.ask(
        "document.getElementById('line-0').ariaLabel.includes('given')"))
    machine.leave_fields()
    machine.run()
    same("its output", "0 0", page.text("#output"))
    machine.keys("q")


def named(machine):
    """who hands in gives a name; what was the best and the latest is told"""
    page = machine.page
    open_lesson(machine)
    for kind in (2, 0, 1):
        page.ask(OPEN_AND_CHECK.format(number=1, text=json.dumps(GUARDED[1][kind][0])))
    machine.leave_fields()
    machine.keys("D")
    page.wait("$('shared').open && document.activeElement.id === 'student'")
    same("the tries", True, "Exercise 1: best 4 of 4, latest 2 of 4." in page.text("#shared-note"))
    page.press("Enter")
    same("without a name", [True, "Write your name first: your teacher sees it."], [
        page.ask("$('shared').open"), page.text("#shared-note")])
    page.type("Ada Lovelace")
    page.wait("$('shared-note').textContent.startsWith('The 3 tries')")
    with tempfile.TemporaryDirectory() as name:
        page.browser.send("Browser.setDownloadBehavior", behavior="allow", downloadPath=name)
        path = pathlib.Path(name) / "Functions-with-guards.Ada-Lovelace.handed-in.txt"
        page.press("Enter")
        page.browser.wait_saved(path)
        page.wait("!$('shared').open")
        same("the file", [f"handed in: {TITLE}", "by: Ada Lovelace"], path.read_text().split("\n")[:2])
        same("its grade", True, grade(LESSON, "1", path)[1].startswith(
            f"{path} (Ada Lovelace): not right, 2 of 4 cases, the latest of 3 tries; the best is try 2"))
    machine.leave_fields()
    machine.keys("D")
    page.wait("$('shared').open && document.activeElement.id === 'save-tries'")
    link = page.ask("$('link').value").split("#", 1)[1]
    machine.escape()
    machine.choose("three")
    page.ask(f"location.hash = {js(link)}")
    page.wait("!$('lesson').hidden")
    same("who opens the link", "1 of 5 solved, as it was handed in by Ada Lovelace",
         page.text("#lesson-solved"))
    page.ask("history.replaceState(null, '', location.pathname)")
    machine.keys("q")


TABLE = """[...document.querySelectorAll('#grades-table tbody tr')].map((row) =>
    [...row.children].map((cell) => cell.textContent))"""


def shown_of(student):
    """The row of a student, as the page shows it."""
    row = student.row()
    cells = []
    for exercise, programs in GUARDED.items():
        of = len(programs[0][1])
        points = [cases.count("1") for _, cases in student.tries[exercise]]
        best = f", best {max(points)}" if points and max(points) != points[-1] else ""
        cells.append(f"{points[-1]} of {of}{best}" if points else "")
    return [student.name, *cells, *row[-3:]]


def compare_table(rows, students):
    wanted = {student.name: shown_of(student) for student in students}
    got = {row[0]: row for row in rows}
    for row in (*wanted.values(), *got.values()):
        row[-1] = ";".join(sorted(re.split(r", | as |; ", row[-1])))
    same("the table", wanted, got)


def class_in_the_page(machine):
    """the files of 200 are dropped with the lesson: the table has the points, and the copies"""
    page = machine.page
    machine.choose("three")
    with tempfile.TemporaryDirectory() as name:
        folder = pathlib.Path(name)
        students, paths = handed_in_class(folder)
        root = page.send("DOM.getDocument")["root"]["nodeId"]
        node = page.send("DOM.querySelector", nodeId=root, selector="#file")["nodeId"]
        page.send("DOM.setFileInputFiles", nodeId=node, files=[str(path) for path in paths[:2]])
        page.wait("$('heading').textContent === 'Not opened'")
        machine.says("Not opened", "Several files are graded by a lesson: open it first, or drop it with "
                     "them.")
        page.send("DOM.setFileInputFiles", nodeId=node,
                  files=[str(path) for path in (*paths[:9], LESSON, *paths[9:])])
        page.wait("$('grades').open", 300)
        compare_table(page.ask(TABLE), students)
        same("the title", f"Grades: {TITLE}", page.text("#grades-title"))
        page.browser.send("Browser.setDownloadBehavior", behavior="allow", downloadPath=name)
        page.click("#save-grades")
        path = folder / "Functions-with-guards.csv"
        page.browser.wait_saved(path)
        same("what is saved", by_name(student.row() for student in students),
             by_name(rows_of(path.read_text(encoding="utf-8"))[1:]))
    machine.escape()
    return f"{CLASS} hand-ins"


RARS_SOURCE = """.eqv RED 0xff0000
.eqv AT s0
.macro plot(%n, %colour)
    li   t0, %colour
    sw   t0, %n(AT)
.end_macro
.macro say(%text)
    .data
it: .asciz %text
    .text
    la   a0, it
    li   a7, 4
    ecall
.end_macro
    .text
main:
    li   AT, 0x10040000
    plot(0, RED)
    plot(260, 0x00ff00)
    say("press, ")
    li   s1, 0xffff0000
wait:
    lw   t0, 0(s1)
    bnez t0, got
    b    wait
got:
    lw   a0, 4(s1)
    li   a7, 11
    ecall
    li   a7, 10
    ecall
"""
PIXELS = """[[0, 0], [1, 1], [2, 2]].map(([x, y]) =>
    [...document.getElementById("bitmap").getContext("2d").getImageData(x, y, 1, 1).data].join())"""


def type_rars(ask):
    """Has the program for RARS run in RARS's memory, with the bitmap of the heap beside it."""
    ask(f"""(() => {{
        rrs.closeLesson();
        rrs.open({{ name: "rars", text: {json.dumps(RARS_SOURCE)}, language: "assembly", calls: "rars",
            base: 0x10000000, size: 1 << 20, hasStack: true }}, {{}});
        const at = document.getElementById("bitmap-at");
        at.value = "heap";
        at.dispatchEvent(new Event("change"));
        rrs.tabs.show("bitmap");
        rrs.session.run();
    }})()""")


def rars_shown(ask, wait, press):
    """Looks at the program for RARS: its pixels, the key that it reads, and the way back."""
    type_rars(ask)
    wait("document.getElementById('output').textContent === 'press, '")
    same("the pixels", ["255,0,0,255", "0,255,0,255", "0,0,0,255"], ask(PIXELS))
    ask("document.getElementById('bitmap').focus()")
    press("k")
    wait("!rrs.session.isRunning")
    same("the key", "press, k", ask("document.getElementById('output').textContent"))
    ask("rrs.session.runBack()")
    wait("!rrs.session.isRunning && rrs.session.machine.steps === 0")
    same("the pixels at the start", 3 * ["0,0,0,255"], ask(PIXELS))


def rars(machine):
    """a program as RARS has it: names, macros, pixels and a key, in RARS's memory"""
    page = machine.page
    machine.choose("three")
    rars_shown(page.ask, page.wait, page.press)
    machine.leave_fields()
    same("the chosen memory", "3", page.ask("document.getElementById('preset').value"))
    machine.choose_preset("0")
    same("another memory", ["0x00000000", True], [
        page.ask("document.getElementById('base').value"),
        "choose the one of RARS" in page.text("#bitmap-note")])
    machine.choose_preset("3")
    same("that of RARS again", ["0x10000000", ""], [
        page.ask("document.getElementById('base').value"), page.text("#bitmap-note")])
    machine.choose_preset("0")
    machine.edit("csrr a0, mstatus\n")
    machine.leave_fields()
    machine.run()
    same("a CSR", "Choose machine mode", page.text("#choose-calls"))
    page.click("#choose-calls")
    same("and the choice", "machine", page.ask("rrs.session.calls"))
    page.wait("!rrs.session.isRunning")
    page.ask("rrs.session.setCalls('linux')")


def class_in_firefox(path):
    """Firefox: the guards, a class of 200, and a program as RARS has it"""
    browser = firefox.Firefox(path)
    try:
        browser.go(Subject.page.as_uri())
        browser.wait("document.documentElement.dataset.ready")
        text = LESSON.read_text(encoding="utf-8")
        browser.ask(f"rrs.openLesson(window.parseLesson({json.dumps(text)}), 1)")
        guards_by(browser.ask)
        students = class_of(CLASS)
        files = [[student.file, student.text()] for student in students]
        # it takes longer than a question may
        browser.ask(f"(rrs.openFiles({json.dumps(files)}.map(([name, text]) => new File([text], name))),"
                    " null)")
        browser.wait("document.getElementById('grades').open", 300)
        compare_table(browser.ask(TABLE), students)
        browser.ask("document.getElementById('grades').close()")
        rars_shown(browser.ask, browser.wait, browser.press)
    finally:
        browser.close()


TRIALS = [guards, cases_started, named, class_in_the_page, rars]
