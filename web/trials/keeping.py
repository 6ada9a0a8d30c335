"""What stays: the text in the editor, programs and lessons on this computer, and files that are
saved."""

import pathlib
import tempfile
import time

from trials import firefox
from trials.report import same
from trials.teaching import CURRENT, LESSON, MISTAKES
from trials.view import FORGET, Subject, js, opened

ESCAPE = "\ue00c"
TEXT = "document.getElementById('text').value"
ASKED = "Page.javascriptDialogOpening"
KEYS = "Object.keys(localStorage).filter((key) => key.startsWith('rrs.')).length > 0"
KEPT = "[...document.querySelectorAll('#own option')].map((option) => option.textContent)"
IS_EDITING = "!document.getElementById('editor').hidden"
PROGRAM = "main: li a0, 5\n  ebreak\n"
# Seconds until what a page stored has come to the other processes of the browser.
HANDED_ON = 0.3


def leave(page):
    """Leaves the page. Chromium hands what it stored to its other processes in a while, and one of
    them may open the next page."""
    page.go("about:blank")
    time.sleep(HANDED_ON)


def reopen(machine, address=None):
    """Leaves the page, and opens it again."""
    leave(machine.page)
    machine.page.go(address or Subject.page.as_uri())
    machine.page.wait_ready()


def open_keeping(browser):
    """A page that keeps what it has from one time that it is opened to the next, with nothing kept."""
    machine = opened(browser, Subject.page.as_uri(), keeps=True)
    machine.page.ask(FORGET)
    reopen(machine)
    # what other trials have left
    was_asked(machine)
    return machine


def was_asked(machine):
    """Whether the page has asked to be left since this was asked last."""
    events = machine.page.browser.events
    asked = [event for event in events if event["method"] == ASKED]
    for event in asked:
        events.remove(event)
    return bool(asked)


def text_stays(browser):
    """nothing is lost: Escape, the listing and a refused Load keep the text, and so does leaving"""
    machine = open_keeping(browser)
    page = machine.page
    first = page.ask("rrs.session.text")
    machine.keys("e")
    page.replace("#text", "main: foo a0, 5\n")
    machine.escape()
    same("what is open, and what is said of the text", [first, True], [
        page.ask("rrs.session.text"), page.ask("!document.getElementById('unloaded').hidden")])
    machine.keys("e")
    same("the text after Escape", "main: foo a0, 5\n", page.ask(TEXT))
    page.click("#take")
    same("after a Load that is refused", [True, "main: foo a0, 5\n", first], [
        page.ask(IS_EDITING), page.ask(TEXT), page.ask("rrs.session.text")])
    page.click("#to-listing")
    machine.wait_closed()
    reopen(machine)
    same("whether the page asks before it is left", True, was_asked(machine))
    same("the text when the page is opened again", ["main: foo a0, 5\n", True],
         [page.ask(TEXT), page.ask(IS_EDITING)])
    machine.says("To be edited", "Line 1: no such instruction or directive: foo")
    page.replace("#text", PROGRAM)
    page.press("Enter", "Ctrl")
    page.wait("!rrs.session.isRunning")
    machine.leave_fields()
    same("a0", "0x00000005", machine.register("x10"))
    page.ask("rrs.openExample('sum')")
    same("the menu", ["Hello"], page.ask(KEPT))
    reopen(machine)
    same("an example that is opened again", "sum", page.ask("$('examples').value"))
    page.ask("rrs.openChoice($('own').firstElementChild.value)")
    same("the program of the menu", PROGRAM, page.ask("rrs.session.text"))
    page.send("Page.close")


def lesson_stays(browser):
    """nothing is lost: a lesson stays with its ticks and what was tried, and another text of it"""
    machine = open_keeping(browser)
    page = machine.page
    machine.give(LESSON)
    page.wait("!document.getElementById('lesson').hidden")
    machine.keys("e")
    loop = "1: lw a3, (a1); add a0, a0, a3; addi a1, a1, 4; addi a2, a2, -1; bnez a2, 1b\nebreak"
    text = page.ask(TEXT).replace("ebreak", loop)
    page.replace("#text", text)
    page.press("Enter", "Ctrl")
    page.wait("$('lesson-solved').textContent === '1 of 3 solved'")
    machine.leave_fields()
    page.click("#exercises li:nth-child(2) a")
    page.wait(f"{CURRENT} === 'Count down'")
    machine.keys("e")
    page.replace("#text", "# not done")
    for address in (None, page.ask("location.href")):
        reopen(machine, address)
        page.wait(f"{CURRENT} === 'Count down'")
        same("the lesson when it is opened again", ["Loops", "1 of 3 solved", "# not done"],
             [page.text("#lesson-title"), page.text("#lesson-solved"), page.ask(TEXT)])
    page.ask("$('exercises').firstElementChild.firstElementChild.click()")
    page.wait(f"{CURRENT} === 'The sum of a list'")
    same("what was tried of the first", text, page.ask("rrs.session.text"))
    page.ask("history.replaceState(null, '', location.pathname); rrs.openExample('sum')")
    same("the menu", ["Lesson: Loops"], page.ask(KEPT))
    # of an earlier page: this one refuses it
    page.ask("""(() => {
        const { keeping } = rrs.work;
        const [lesson] = keeping.all("lessons");
        keeping.remove("lessons", lesson.id);
        keeping.put("lessons", "one", { ...lesson, text: lesson.text.replace("program:", "x") });
        keeping.latestOpen = { lesson: "one", number: 1 };
    })()""")
    reopen(machine)
    same("a lesson that this page refuses", True, page.ask("$('lesson').hidden"))
    machine.says("Ready")
    page.ask("rrs.openChoice('lesson one')")
    page.wait("$('heading').textContent === 'Not opened'")
    page.send("Page.close")


def cleared(browser):
    """what is kept has keys of its own, which one button clears, and is told where there is none"""
    machine = open_keeping(browser)
    page = machine.page
    page.ask("localStorage['other.page'] = 'stays'; null")
    machine.edit("li a0, 5")
    page.wait(f"{KEYS} && {KEPT}.length === 1")
    same("what is said of it", True, page.text("#kept-note").startswith("Your programs"))
    page.click("#more summary")
    page.click("#clear")
    page.click("#clear-all")
    same("what is left", [False, "stays", []], [
        page.ask(KEYS), page.ask("localStorage['other.page']"), page.ask(KEPT)])
    page.ask("localStorage.clear()")
    page.send("Page.addScriptToEvaluateOnNewDocument", source="""
        Object.defineProperty(window, "localStorage", { get() { throw new Error("none"); } })""")
    reopen(machine)
    short = "This browser keeps nothing for this page: save your program before you leave."
    same("what is said without a storage", [short, True], [
        page.text("#kept-note"), page.text("#sentence").endswith(f" {short}")])
    machine.edit(PROGRAM)
    machine.run()
    same("whether it works on", "0x00000005", machine.register("x10"))
    page.ask("rrs.openExample('sum')")
    same("and keeps it as long as it is open", ["Hello"], page.ask(KEPT))
    page.send("Page.close")


def saved(browser):
    """Save writes a file, and then the page does not ask before it is left"""
    machine = open_keeping(browser)
    page = machine.page
    with tempfile.TemporaryDirectory() as name:
        browser.send("Browser.setDownloadBehavior", behavior="allow", downloadPath=name)
        machine.keys("e")
        page.replace("#text", PROGRAM)
        same("the note", "not saved as a file", page.text("#unsaved"))
        page.press("s", "Ctrl")
        path = pathlib.Path(name) / "Hello.s"
        page.wait("$('unsaved').textContent === ''")
        page.browser.wait_saved(path)
        same("the file", PROGRAM, path.read_text())
        reopen(machine)
        same("whether the page asks then", False, was_asked(machine))
        same("the program", PROGRAM, page.ask(TEXT))
        page.ask("rrs.openExample('words')")
        machine.leave_fields()
        machine.keys("W")
        page.browser.wait_saved(pathlib.Path(name) / "Three-words-of-hexadecimal-digits.hex")
    page.send("Page.close")


def panel(browser):
    """the editor is a panel: the exercise and the program of before stay, and one key runs the text"""
    machine = open_keeping(browser)
    page = machine.page
    machine.give(LESSON)
    page.wait("!document.getElementById('lesson').hidden")
    machine.keys("s")
    machine.keys("e")
    same("what is open, and what is in view", [None, True, True, True], [
        page.ask("document.querySelector('dialog[open]')"), *(page.ask(f"""(() => {{
            const {{ top, bottom }} = document.querySelector("{part}").getBoundingClientRect();
            return top >= 0 && bottom <= innerHeight;
        }})()""") for part in ("#exercise-about", "#registers", "#text"))])
    page.replace("#text", "main:\n  foo a0\n")
    page.wait(f"{MISTAKES}.length === 1")
    page.press("Enter", "Ctrl")
    same("what is marked, and the program of before", [["2"], "1 step", "text"], [
        page.ask("[...document.querySelectorAll('#numbers b')].map((b) => b.textContent)"),
        page.text("#steps"), page.ask("document.activeElement.id")])
    page.replace("#text", "")
    for part in ("main:", None, "li   a0, 14", None, "ebreak"):
        if part is None:
            page.press("Enter")
        else:
            page.type(part)
    same("lines that are indented", "main:\n    li   a0, 14\n    ebreak", page.ask(TEXT))
    page.press("Home")
    page.press("Tab")
    same("by Tab", "main:\n    li   a0, 14\n        ebreak", page.ask(TEXT))
    page.press("Tab", "Shift")
    page.press("Tab", "Shift")
    page.press("Tab")
    same("in and out", "main:\n    li   a0, 14\n    ebreak", page.ask(TEXT))
    page.press("Enter", "Ctrl")
    page.wait("!rrs.session.isRunning && $('exercise-check').className === 'check done'")
    same("where the focus is", ["text", True], [
        page.ask("document.activeElement.id"), page.ask(IS_EDITING)])
    page.send("Page.close")


# ---- several programs, lessons and tabs

LOOP = "1: lw a3, (a1); add a0, a0, a3; addi a1, a1, 4; addi a2, a2, -1; bnez a2, 1b\nebreak"
COUNT_DOWN = "main: li t0, 3\n1: addi t0, t0, -1\n  bnez t0, 1b\n  li a0, 0\n  ebreak\n"
SOLVED = "document.getElementById('lesson-solved').textContent"


def open_file(ask, name, text):
    """Opens a text as a file."""
    ask(f"rrs.openBytes({js(name)}, new TextEncoder().encode({js(text)}))")


def type_text(page, text):
    """Types a program in the place of the one that is there."""
    page.ask("rrs.showEditor()")
    page.replace("#text", text)


def two_tabs(browser):
    """nothing is lost: two tabs work at one lesson, and each has what the other did of it"""
    one = open_keeping(browser)
    other = opened(browser, Subject.page.as_uri(), keeps=True)
    text = LESSON.read_text(encoding="utf-8")
    for machine in (one, other):
        open_file(machine.page.ask, "loops.txt", text)
        machine.page.wait("!document.getElementById('lesson').hidden")
    solve_first(one.page)
    other.page.wait(f"{SOLVED} === '1 of 3 solved'")
    same("the text that the other tab follows", True, other.page.ask(f"{TEXT}.includes('bnez a2')"))
    # another text of the first, and the second, in the tab that was behind
    type_text(other.page, "# of the other tab\n")
    other.page.ask("rrs.work.keep()")
    one.page.wait(f"{TEXT} === '# of the other tab\\n'")
    other.page.ask("$('exercises').children[1].firstElementChild.click()")
    other.page.wait(f"{CURRENT} === 'Count down'")
    type_text(other.page, "# in the second\n")
    type_text(one.page, "# typed at last\n")
    for machine, number in ((other, 2), (one, 1)):
        reopen(machine)
        machine.page.wait("!document.getElementById('lesson').hidden")
        same("which exercise each tab has open", number, machine.page.ask("rrs.lesson.number"))
        same("what is there when a tab is opened again", [
            "1 of 3 solved", "# typed at last\n", "# in the second\n", True], machine.page.ask(
                f"[{SOLVED}, ...rrs.lesson.lesson.exercises.slice(0, 2).map(({{ tried }}) => tried.text),"
                " rrs.lesson.lesson.exercises[0].tries[0].text.includes('bnez a2')]"))
    # a tab that hears of no other writes nothing away either
    one.page.ask("rrs.work.hear = () => {}; $('exercises').children[0].firstElementChild.click()")
    one.page.wait(f"{CURRENT} === 'The sum of a list'")
    other.page.ask("$('exercises').children[2].firstElementChild.click()")
    other.page.wait(f"{CURRENT} === 'A function'")
    type_text(other.page, "# in the third\n")
    other.page.ask("rrs.work.keep()")
    type_text(one.page, "# in the first\n")
    reopen(one)
    one.page.wait("!document.getElementById('lesson').hidden")
    same("what both did", ["# in the first\n", "# in the second\n", "# in the third\n"], one.page.ask(
        "rrs.lesson.lesson.exercises.map(({ tried }) => tried.text)"))
    one.page.send("Page.close")
    other.page.send("Page.close")


def solve_first(page):
    """Solves the first exercise of the lesson, by keys."""
    type_text(page, page.ask(TEXT).replace("ebreak", LOOP))
    page.press("Enter", "Ctrl")
    page.wait(f"{SOLVED} === '1 of 3 solved'")


def two_tabs_of_a_program(browser):
    """nothing is lost: a program that two tabs change becomes two, and one that one changes follows"""
    one = open_keeping(browser)
    one.page.ask("rrs.create()")
    type_text(one.page, "# first\n")
    one.page.ask("rrs.work.keep()")
    other = opened(browser, Subject.page.as_uri(), keeps=True)
    same("what the other tab has", "# first\n", other.page.ask(TEXT))
    type_text(one.page, "# second\n")
    one.page.ask("rrs.work.keep()")
    other.page.wait(f"{TEXT} === '# second\\n'")
    # both are changed, and then kept; what a tab writes comes to another one when it comes
    for machine, text in ((one, "# of one\n"), (other, "# of the other\n")):
        machine.page.ask(f"rrs.editor.replace({js(text)}, 'assembly'); rrs.work.isToBeKept = true; null")
    one.page.ask("rrs.work.keep()")
    other.page.wait("rrs.work.keeping.get('programs', rrs.work.own).text === '# of one\\n'")
    other.page.ask("rrs.work.keep()")
    wanted = [["Program 1", "# of one\n"], ["Program 2", "# of the other\n"]]
    programs = "rrs.work.keeping.all('programs').map(({ name, text }) => [name, text]).sort()"
    for machine in (one, other):
        machine.page.wait(f"{programs}.length === 2")
        same("the programs", wanted, machine.page.ask(programs))
    same("what each tab has open", ["Program 1", "Program 2"], [
        machine.page.text("#program-title") for machine in (one, other)])
    one.page.send("Page.close")
    other.page.send("Page.close")


MANY = [30, 14]


def put_many(ask):
    """Opens and tries 30 programs and 14 lessons, one after another."""
    lesson = LESSON.read_text(encoding="utf-8")
    ask(f"""(async () => {{
        const bytes = (text) => new TextEncoder().encode(text);
        const type = (text) => {{
            const field = document.getElementById("text");
            field.value = text;
            field.dispatchEvent(new Event("input"));
        }};
        for (let number = 1; number <= {MANY[0]}; number++) {{
            rrs.create();
            type(`li a0, ${{number}}\\nebreak\\n`);
        }}
        for (let number = 1; number <= {MANY[1]}; number++) {{
            await rrs.openBytes("lesson.txt", bytes({js(lesson)}.replace("Loops", `Lesson ${{number}}`)));
            type(`# tried ${{number}}\\n`);
        }}
        rrs.work.keep();
        rrs.closeLesson();
    }})()""")


def has_many(ask):
    """Compares what is kept with what was put there, each opened by the menu."""
    same("the menu", MANY, ask("""["program", "lesson"].map((kind) => [...document.querySelectorAll(
        "#own option")].filter(({ value }) => value.startsWith(kind)).length)"""))
    same("each program and each lesson", True, ask(f"""(async () => {{
        const choices = [...document.querySelectorAll("#own option")].map(({{ value }}) => value);
        const seen = [];
        for (const choice of choices) {{
            await rrs.openChoice(choice);
            while (rrs.lesson.lesson === null && choice.startsWith("lesson")) {{
                await new Promise((done) => setTimeout(done, 1));
            }}
            const {{ title }} = rrs.lesson.lesson ?? {{}};
            seen.push(`${{title ?? rrs.session.name}}: ${{rrs.editor.text}}`);
            rrs.closeLesson();
        }}
        const wanted = [
            ...Array.from({{ length: {MANY[0]} }}, (_, at) => `Program ${{at + 1}}: li a0, ${{at + 1}}\\nebreak\\n`),
            ...Array.from({{ length: {MANY[1]} }}, (_, at) => `Lesson ${{at + 1}}: # tried ${{at + 1}}\\n`),
        ];
        return wanted.every((each) => seen.includes(each)) && seen.length === wanted.length;
    }})()"""))


def many(browser):
    """14 lessons and 30 programs stay, each with its text, also as one file that is read again"""
    machine = open_keeping(browser)
    page = machine.page
    put_many(page.ask)
    reopen(machine)
    has_many(page.ask)
    with tempfile.TemporaryDirectory() as name:
        browser.send("Browser.setDownloadBehavior", behavior="allow", downloadPath=name)
        machine.leave_fields()
        machine.keys("K")
        page.click("#export")
        path = pathlib.Path(name) / "rrs-kept.json"
        browser.wait_saved(path)
        page.click("#keeping [data-close]")
        page.ask(FORGET)
        reopen(machine)
        same("with nothing kept", [], page.ask(KEPT))
        machine.edit("# beside them")
        page.wait(f"{KEPT}.length === 1")
        machine.escape()
        machine.give(path)
        machine.says("Imported", "30 programs and 14 lessons of rrs-kept.json are kept.")
        same("the one that was there", 1, page.ask(f"{KEPT}.filter((name) => name === 'Hello').length"))
        machine.give(path)
        same("each once, where it is read twice", MANY[0] + MANY[1] + 1, page.ask(f"{KEPT}.length"))
        page.ask("(({ id }) => rrs.work.remove('programs', id))("
                 "rrs.work.keeping.all('programs').find(({ name }) => name === 'Hello'))")
        has_many(page.ask)
        path.write_text('{"rrs kept":1,"programs":[')
        machine.give(path)
        machine.says("Not opened", "rrs-kept.json was not opened. It is no file of all that is kept, or "
                     "is damaged.")
    page.send("Page.close")


NAMES = "[...document.querySelectorAll('#keeping-list input')].map((field) => field.value)"


def second_program(browser):
    """a second program of one's own stands beside the first, and both have names that can be changed"""
    machine = open_keeping(browser)
    page = machine.page
    machine.keys("e")
    page.replace("#text", "# of the example\n")
    machine.escape()
    machine.keys("N")
    same("a new one", ["Program 1", "", "text"], [
        page.text("#program-title"), page.ask(TEXT), page.ask("document.activeElement.id")])
    page.type("li a0, 1\n")
    machine.escape()
    page.click("#more summary")
    page.click("[data-action=create]")
    page.type("li a0, 2\n")
    machine.escape()
    same("the menu", ["Program 2", "Program 1", "Hello"], page.ask(KEPT))
    machine.keys("K")
    same("what is told of them", ["3 programs and 0 lessons.", ["Program 2", "Program 1", "Hello"]], [
        page.text("#keeping-note"), page.ask(NAMES)])
    page.replace("#keeping-list tr:nth-child(2) input", "Sorting")
    page.press("Tab")
    page.wait(f"{KEPT}.includes('Sorting')")
    page.replace("#keeping-list tr:nth-child(2) input", "Sorting")
    page.press("Tab")
    page.wait(f"{KEPT}.includes('Sorting 2')")
    same("a name that is there gets a number", {"Hello", "Sorting", "Sorting 2"}, set(page.ask(KEPT)))
    button = "#keeping-list tr:nth-child(3) button"
    gone = page.ask(NAMES)[2]
    page.click(button)
    same("what the first click asks", ["Delete for good", 3], [
        page.text(button), len(page.ask(NAMES))])
    page.click(button)
    page.wait(f"!{KEPT}.includes({js(gone)})")
    same("the others", 2, len(page.ask(NAMES)))
    page.click("#keeping [data-close]")
    reopen(machine)
    texts = "rrs.work.keeping.all('programs').map(({ text }) => text).sort()"
    same("their texts", 2, len(page.ask(texts)))
    page.send("Page.close")


FILL = """(() => {
    let size = 1 << 22;
    for (let number = 0; size >= 1; number++) {
        try {
            localStorage[`other.${number}`] = "x".repeat(size);
        } catch {
            size = Math.floor(size / 2);
        }
    }
})()"""


def full(browser):
    """where there is no room nothing goes by itself: the page asks, by name, and has it kept then"""
    machine = open_keeping(browser)
    page = machine.page
    machine.keys("N")
    page.type("# the first, " + 2000 * "-")
    machine.escape()
    page.ask("rrs.work.keep()")
    page.ask(FILL)
    machine.keys("N")
    page.wait("document.getElementById('keeping').open")
    same("what is asked", ["There is no room to keep Program 2. Export all, and delete what may go. "
                           "1 program and 0 lessons.", ["Program 1"]],
         [page.text("#keeping-note"), page.ask(NAMES)])
    same("what stands below", "There is no room in this browser to keep this program: save it before "
         "you leave.", page.text("#kept-note"))
    same("the first", ["Program 1"], page.ask(KEPT))
    for _ in range(2):
        page.click("#keeping-list button")
    page.wait(f"{KEPT}.join() === 'Program 2'")
    page.click("#keeping [data-close]")
    same("what is said then", True, page.text("#kept-note").startswith("Your programs"))
    type_text(page, "# the second")
    page.ask("rrs.work.keep()")
    page.ask(FILL)
    reopen(machine)
    same("what is open when the page is opened again, with no room", ["Program 2", True], [
        page.text("#program-title"), page.ask(f"{TEXT}.startsWith('# the second')")])
    page.ask("localStorage.clear()")
    page.send("Page.close")


def handed_in_file(browser):
    """a file that was handed in is opened over its lesson, and what is tried of it stays beside one's own"""
    machine = open_keeping(browser)
    page = machine.page
    text = LESSON.read_text(encoding="utf-8")
    with tempfile.TemporaryDirectory() as name:
        path = pathlib.Path(name) / "ada.txt"
        path.write_text("handed in: Loops\n\nexercise 1: The sum of a list\ntry: 0 of 1 right\n| nop\n\n"
                        "exercise 2: Count down\ntry: 1 of 1 right\n| # of ada\n")
        machine.give(path)
        machine.says("Not opened", 'ada.txt was not opened. It was handed in of the lesson "Loops": open '
                     "this lesson first.")
        open_file(page.ask, "loops.txt", text)
        page.wait("!document.getElementById('lesson').hidden")
        type_text(page, "# my own\n")
        machine.give(path)
    page.wait(f"{SOLVED} === '1 of 3 solved, as it was handed in'")
    same("its text, and that it is not kept yet", ["nop\n", ["Lesson: Loops"]], [
        page.ask(TEXT), page.ask(KEPT)])
    type_text(page, "# tried of ada\n")
    reopen(machine)
    page.wait(f"{SOLVED} === '1 of 3 solved, as it was handed in'")
    same("what was tried of it", "# tried of ada\n", page.ask(TEXT))
    same("the menu", ["Lesson: Loops, as it was handed in", "Lesson: Loops"], page.ask(KEPT))
    link = f"{Subject.page.as_uri()}{page.ask('rrs.lesson.lesson.link')}&exercise=1"
    for before, after in (("# tried of ada\n", "# by its link\n"), ("# by its link\n", "")):
        reopen(machine, link)
        page.wait(f"{SOLVED} === '1 of 3 solved, as it was handed in'")
        same("by its link", before, page.ask(TEXT))
        type_text(page, after)
    page.ask("history.replaceState(null, '', location.pathname)")
    page.ask("rrs.openChoice($('own').lastElementChild.value)")
    page.wait(f"{SOLVED} === '0 of 3 solved'")
    same("one's own", "# my own\n", page.ask(TEXT))
    page.send("Page.close")


OF_BEFORE = """(() => {
    localStorage["rrs.programs"] = JSON.stringify([
        { id: "1-1", name: "Old", text: "li a0, 1\\n", language: "assembly", base: 0, size: 65536,
            hasStack: true, calls: "rars" }, { text: 5 }]);
    localStorage["rrs.lessons"] = JSON.stringify([{ text: LESSON, title: "Loops", exercises: [
        { tries: [{ text: "nop\\n", right: 0, of: 1 }] }, { tried: { text: "# old\\n",
            language: "assembly" }, isSolved: true }, {}] }]);
    localStorage["rrs.latest"] = JSON.stringify({ lesson: 2 });
})()"""


def kept_by_a_page_of_before(browser):
    """what a page of before kept is there: its programs, and its lessons with what was tried"""
    machine = open_keeping(browser)
    page = machine.page
    page.ask(FORGET)
    leave(page)
    told = page.send("Page.addScriptToEvaluateOnNewDocument", source="if (location.protocol === 'file:') "
                     + OF_BEFORE.replace("LESSON", js(LESSON.read_text(encoding="utf-8"))))
    page.go(Subject.page.as_uri())
    page.wait_ready()
    page.send("Page.removeScriptToEvaluateOnNewDocument", identifier=told["identifier"])
    reopen(machine)
    same("what is open, and the menu", ["Count down", "# old\n", "1 of 3 solved", ["Old", "Lesson: Loops"], 1], [
        page.ask(CURRENT), page.ask(TEXT), page.ask(SOLVED), page.ask(KEPT),
        page.ask("rrs.lesson.lesson.exercises[0].tries.length")])
    page.send("Page.close")


def go_again(browser):
    """Leaves the page in Firefox, and opens it again."""
    browser.go("about:blank")
    browser.go(Subject.page.as_uri())
    browser.wait("document.documentElement.dataset.ready")


def put_text(browser, text):
    """Puts a text into the editor in Firefox."""
    browser.ask(f"(() => {{ const field = document.getElementById('text'); field.value = {js(text)};"
                " field.dispatchEvent(new Event('input')); })()")


def kept_in_firefox(path):
    """Firefox: many programs and lessons stay, two tabs work at one lesson, and what one sees runs"""
    browser = firefox.Firefox(path)
    try:
        browser.go(Subject.page.as_uri())
        browser.wait("document.documentElement.dataset.ready")
        runs_in_firefox(browser)
        stays_in_firefox(browser)
        tabs_of_firefox(browser)
    finally:
        browser.close()


def runs_in_firefox(browser):
    """Types a text, runs it by a key and a button, and looks at the line of a fault."""
    browser.press("N")
    put_text(browser, "li a0, 7\n# so\nlw t1, 0(zero)\nlw t1, 1(zero)\n")
    browser.press(ESCAPE, "s")
    browser.wait("rrs.session.machine.steps === 1")
    same("what a step runs", ["0x00000007", False], browser.ask(
        "[document.querySelector('#x10 .value').textContent, rrs.editor.isChanged]"))
    browser.press("e")
    browser.ask("document.querySelector('[data-action=run]').click()")
    browser.wait("document.getElementById('heading').textContent === 'Misaligned address'")
    same("the line of a fault, its mark, and what is in sight", [
        "Line 4: lw t1, 1(zero). The", ["mark fault", "3"], [True] * 3], browser.ask("""[
            document.getElementById("sentence").textContent.slice(0, 27),
            (({ className, style }) => [className, style.getPropertyValue("--line")])(
                document.querySelector("#numbers .mark")),
            ["text", "registers", "memory"].map((id) => document.getElementById(id).checkVisibility())]"""))
    put_text(browser, "foo\n")
    browser.press(ESCAPE, "r")
    browser.wait("document.getElementById('heading').textContent === 'Not run'")
    same("that a mistake stops it", ["text", 2], browser.ask(
        "[document.activeElement.id, rrs.session.machine.steps]"))


def stays_in_firefox(browser):
    """A second program beside the first, and then 30 of them, and 14 lessons."""
    put_text(browser, "# the first\n")
    browser.press(ESCAPE, "N")
    put_text(browser, "# the second\n")
    go_again(browser)
    same("two programs of one's own", [["Program 1", "# the first\n"], ["Program 2", "# the second\n"]],
         browser.ask("rrs.work.keeping.all('programs').map(({ name, text }) => [name, text]).sort()"))
    browser.ask(f"(() => {{ {FORGET} }})()")
    go_again(browser)
    put_many(browser.ask)
    go_again(browser)
    has_many(browser.ask)


def tabs_of_firefox(browser):
    """Two tabs work at one lesson."""
    first = browser.send("WebDriver:GetWindowHandle")["value"]
    browser.ask(f"(() => {{ {FORGET} }})()")
    text = LESSON.read_text(encoding="utf-8")
    second = browser.send("WebDriver:NewWindow", type="tab")["handle"]
    for tab in (first, second):
        browser.send("WebDriver:SwitchToWindow", handle=tab)
        browser.go(Subject.page.as_uri())
        browser.wait("document.documentElement.dataset.ready")
        open_file(browser.ask, "loops.txt", text)
        browser.wait("!document.getElementById('lesson').hidden")
    browser.send("WebDriver:SwitchToWindow", handle=first)
    put_text(browser, browser.ask(TEXT).replace("ebreak", LOOP))
    browser.ask("document.getElementById('run-text').click()")
    browser.wait(f"{SOLVED} === '1 of 3 solved'")
    browser.send("WebDriver:SwitchToWindow", handle=second)
    browser.wait(f"{SOLVED} === '1 of 3 solved'")
    browser.ask("document.getElementById('exercises').children[1].firstElementChild.click()")
    browser.wait("rrs.lesson.number === 2")
    put_text(browser, "# second\n")
    for tab in (second, first):
        browser.send("WebDriver:SwitchToWindow", handle=tab)
        go_again(browser)
        same("what is there in Firefox when a tab is opened again", ["1 of 3 solved", "# second\n", True],
             browser.ask(f"[{SOLVED}, rrs.lesson.lesson.exercises[1].tried.text,"
                         " rrs.lesson.lesson.exercises[0].tried.text.includes('bnez a2')]"))
    browser.send("WebDriver:SwitchToWindow", handle=second)
    browser.send("WebDriver:CloseWindow")
    browser.send("WebDriver:SwitchToWindow", handle=first)


OF_A_BROWSER = [
    text_stays, lesson_stays, cleared, saved, panel, two_tabs, two_tabs_of_a_program, many,
    second_program, full, handed_in_file, kept_by_a_page_of_before,
]
