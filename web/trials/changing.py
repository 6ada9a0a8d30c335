"""What a person changes by hand, what changed since the last stop, names, calls, and breakpoints
that are kept."""

import pathlib
import re
import tempfile

from trials.report import same
from trials.view import NOTHING, WEB, js

OPEN = "document.querySelector('dialog[open]')?.id ?? null"
FIELDS = "['place', 'value'].map((id) => document.getElementById(id).value)"


def set_to(machine, text):
    """Types a value into the dialog, whose field for it has the focus, and takes it."""
    machine.page.type(text)
    machine.page.press("Enter")


def changes_by_hand(machine):
    """registers and memory by a click and by a key; a step back takes the change back"""
    page = machine.page
    machine.choose("three")
    machine.keys("s")
    page.click("#x5 .value")
    same("what is asked for", ["change", ["t0", "0x00000000"], "value"], page.ask(
        f"[{OPEN}, {FIELDS}, document.activeElement.id]"))
    set_to(machine, "-2")
    machine.wait_closed()
    machine.says("Changed", "t0 = 0xfffffffe.")
    same("t0", "0xfffffffe", machine.register("x5"))
    page.choose("#around", "pc")
    machine.leave_fields()
    page.click("#memory .target")
    same("a word at a click", ["0x00000004", "0xf387e1b7"], page.ask(FIELDS))
    set_to(machine, "0x00300093")
    machine.wait_closed()
    same("the line", "addi ra, zero, 3", machine.line(1)[2])
    machine.keys("m")
    page.click("#memory .target")
    same("a byte at a click", ["0x00000004", "0x93"], page.ask(FIELDS))
    set_to(machine, "256")
    same("a value that is none", ["change", "A number is wanted: 0x and hexadecimal digits, 0b and "
                                  "binary ones, or decimal ones from -128 to 255."],
         [page.ask(OPEN), page.text("#change-mistake")])
    page.click("#change [data-close]")
    machine.keys("mu")
    same("the dialog by its key", [["", ""], "place"],
         page.ask(f"[{FIELDS}, document.activeElement.id]"))
    page.type("pc")
    page.press("Tab")
    page.type("8")
    page.click("#set")
    same("the pc", "0x00000008", machine.register("pc"))
    machine.keys("b")
    same("a step back", ["0x00000000", "0x00000000", "lui gp, 0xf387e000"],
         [machine.register("pc"), machine.register("x5"), machine.line(1)[2]])
    machine.edit("loop:\n0000006f # jal x0, loop")
    page.press("r")
    page.press("u")
    same("a run, behind the dialog", ["change", False, "Paused"],
         [page.ask(OPEN), page.ask("rrs.session.isRunning"), page.text("#heading")])
    machine.escape()


SINCE = ("[...document.querySelectorAll('.register.since')].map((cell) => [cell.id,"
         " cell.getAttribute('aria-description')])")
SINCE_MEMORY = ("[...document.querySelectorAll('#memory .since')].map((cell) =>"
                " [cell.textContent, cell.title])")


MARKS = """Object.fromEntries([...document.querySelectorAll("#memory td[title]:not([title=''])")]
    .map(({ className, title }) => [className.split(" ")[0], title]))"""


def since_the_last_stop(machine):
    """what changed since the machine stood last is marked, of registers and of memory"""
    page = machine.page
    machine.choose("fibonacci")
    same("at the start", [[], []], [page.ask(SINCE), page.ask(SINCE_MEMORY)])
    changed = "changed since the last stop"
    machine.keys("s")
    same("after a step", [["x2", f"the last written, {changed}"]], page.ask(SINCE))
    machine.keys("s")
    same("after another", [["x10", f"the last written, {changed}"]], page.ask(SINCE))
    page.click("#line-12 .gutter")
    machine.leave_fields()
    machine.run()
    same("after a run", [[name, changed] for name in ("x1", "x2", "x5")] + [
        ["x8", f"the last written, {changed}"]], page.ask(SINCE))
    same("a word of memory", [["0000000c", changed]], page.ask(SINCE_MEMORY))
    same("how it looks", True, page.ask(
        "getComputedStyle(document.querySelector('#memory .since')).backgroundColor"
        " !== getComputedStyle(document.querySelector('#memory .zero')).backgroundColor"))
    same("and a register", "underline", page.ask(
        "getComputedStyle(document.querySelector('.since .value')).textDecorationLine"))
    machine.keys("b")
    same("after a step back", [["x8", changed]], page.ask(SINCE))
    same("of memory", [], page.ask(SINCE_MEMORY))
    machine.keys("x")
    same("after a reset", [], page.ask(SINCE))
    said = {}
    for _ in range(3):
        machine.run()
        said.update(page.ask(MARKS))
    same("what the marks of memory say", ["changed since the start", changed],
         [said.get("changed"), said.get("since")])


def names(machine):
    """names of registers: the listing, the log, the state and the panel agree by one switch"""
    page = machine.page
    machine.choose("three")
    machine.keys("sss")

    def seen():
        return [machine.line(2)[2], *machine.rows("log")[0][2:], page.text("#sentence"),
                page.text("#x1 .name"), page.text("#x1 .number")]

    by_name = ["add ra, sp, gp", "add ra, sp, gp", "ra = 0x05bc9000",
               "add ra, sp, gp: ra = 0x05bc9000", "ra", "x1"]
    same("by names", by_name, seen())
    machine.keys("h")
    same("by numbers", ["add x1, x2, x3", "add x1, x2, x3", "x1 = 0x05bc9000",
                        "add x1, x2, x3: x1 = 0x05bc9000", "x1", "ra"], seen())
    machine.choose("ecall")
    machine.run()
    same("in a sentence", True, "system call 500 (x17)." in page.text("#sentence"))
    page.click("#x10 .value")
    same("in the dialog", ["x10", "0x00000000"], page.ask(FIELDS))
    machine.escape()
    machine.keys("h")
    machine.choose("three")
    machine.keys("sss")
    same("by names again", by_name, seen())


def calls_made(machine):
    """the calls that a program is in, with where they return to and sp at their entry"""
    page = machine.page
    machine.choose("fibonacci")
    same("no call", [[], "none"], [machine.rows("frames"), page.text("#frames-note")])
    page.click("#line-7 .gutter")
    machine.leave_fields()
    machine.run()
    machine.run()
    same("two calls", [["fib", "fib + 32", "0000fff0"], ["fib", "start + 8", "00010000"]],
         machine.rows("frames"))
    same("where they return to", ["from 0x00000034, back to 0x00000038",
                                  "from 0x00000008, back to 0x0000000c"],
         page.ask("[...document.querySelectorAll('#frames td:nth-child(2)')]"
                  ".map((cell) => cell.title)"))
    page.click("#line-7 .gutter")
    machine.leave_fields()
    machine.run("B")
    same("back at the start", [], machine.rows("frames"))
    machine.edit(f"13\n008000ef # jal ra, there\n13\n{80 * 'y'}: 00100073", base="80000000")
    machine.run()
    same("in a memory that begins elsewhere, with a long label",
         [[f"{60 * 'y'}…", "0x80000004", "00000000"]], machine.rows("frames"))
    machine.edit("li t0, 3001\nloop: addi t0, t0, -1\nbeqz t0, done\njal loop\ndone: ebreak")
    machine.run()
    same("of very many calls", [100, "2,900 more"],
         [len(machine.rows("frames")), page.text("#frames-note")])


def kept_breakpoints(machine):
    """Load keeps the breakpoints, and another program has none"""
    page = machine.page
    stops = "[...document.querySelectorAll('.line.stop')].map(({ id }) => id)"
    machine.choose("gcd")
    for line in (6, 8):
        page.click(f"#line-{line} .gutter")
    machine.leave_fields()
    text = page.ask("rrs.session.text")
    machine.edit("13 13\n" + text)
    same("two words on", ["line-8", "line-10"], page.ask(stops))
    machine.run()
    machine.says("Breakpoint", "Stopped before a breakpoint at 0x00000028, after 7 steps more.")
    machine.choose("gcd")
    same("another program", [], page.ask(stops))


def calls_of_others(machine):
    """a program with the calls of RARS, typed, from a file and from a link; and an example"""
    page = machine.page
    machine.choose("three")
    machine.keys("f")
    page.press("ArrowDown")
    machine.leave_fields()
    # ReadInt, PrintInt, Exit
    words = "00500893 00000073 00100893 00000073 00a00893 00000073"
    chosen = "document.querySelector('#calls').value"
    machine.edit(words)
    same("the calls of what is typed", "rars", page.ask(chosen))
    machine.run()
    machine.says("Waiting for input")
    page.replace("#input", "forty")
    page.press("Enter")
    page.wait("!rrs.session.isRunning")
    machine.says("Call refused", 'The ecall at 0x00000004 could not be served: "forty" is no '
                 "number from -2147483648 to 2147483647. The line is dropped: another can be "
                 "typed.")
    page.replace("#input", "-42")
    page.press("Enter")
    machine.leave_fields()
    machine.run()
    machine.says("Exit")
    same("the output", "-42", page.text("#output"))
    with tempfile.TemporaryDirectory() as name:
        path = pathlib.Path(name) / "read.hex"
        path.write_text(words)
        machine.give(path)
    same("the calls of a file", "rars", page.ask(chosen))
    machine.keys("l")
    page.wait("document.querySelector('#shared').open")
    link = page.ask("document.querySelector('#link').value")
    machine.escape()
    machine.choose("gcd")
    same("the calls of an example", "linux", page.ask(chosen))
    page.ask(f"location.hash = {js(link.split('#', 1)[1])}; null")
    page.wait("document.querySelector('#program-title').textContent === 'Program of the link'")
    same("the calls of a link", "rars", page.ask(chosen))
    machine.choose("three")


def calls_meant(machine):
    """a program of RARS under the calls of Linux is told so, and one click chooses RARS's"""
    page = machine.page
    page.ask("rrs.openExample('ecall')")
    machine.run()
    machine.says("Environment call", "Line 4: ecall. The ecall at 0x00000008 is none of Linux's: a7 = 1 is PrintInt "
                 "of RARS. Choose its calls here. Nothing was changed by it.")
    same("the button", "Choose RARS's calls", page.text("#choose-calls"))
    page.click("#choose-calls")
    page.wait("!rrs.session.isRunning")
    machine.says("Exit", "The program ended by the ecall at 0x00000010, with status 0.")
    same("what it prints, and the calls", ["42", "rars", True], page.ask(
        "[$('output').textContent, rrs.session.calls, $('choose-calls').hidden]"))
    machine.leave_fields()


CALL_TABLE = """["call-title", "call-table"].map((id) => document.getElementById(id)).map(
    (part) => part.tBodies ? [...part.tBodies[0].rows].map((row) =>
        [...row.cells].map((cell) => cell.textContent)) : part.textContent)"""


def calls_in_the_docs():
    """The numbers and names of the calls that BROWSER.md has of other simulators."""
    text = (WEB.parent / "docs" / "BROWSER.md").read_text(encoding="utf-8")
    rows = re.findall(r"^\| (RARS|Venus) \| (a[07]) \| (.*) \|$", text, re.MULTILINE)
    found = {}
    for name, register, calls in rows:
        found.setdefault(name, (register, []))[1].extend(call.split(" ") for call in calls.split(", "))
    return {name: (register, sorted(calls, key=lambda call: int(call[0])))
            for name, (register, calls) in found.items()}


def calls_shown(machine):
    """the calls that can be chosen, each environment's in a table, by the registers' names"""
    page = machine.page
    machine.choose("three")
    linux = [["29", "ioctl"], ["57", "close"], ["62", "lseek"], ["63", "read"], ["64", "write"],
             ["66", "writev"], ["79", "newfstatat"], ["80", "fstat"], ["93", "exit"],
             ["94", "exit_group"], ["160", "uname"], ["169", "gettimeofday"], ["172", "getpid"],
             ["174", "getuid"], ["175", "geteuid"], ["176", "getgid"], ["177", "getegid"],
             ["214", "brk"], ["278", "getrandom"], ["291", "statx"], ["403", "clock_gettime64"]]
    environments = {"Linux": ("a7", linux), **calls_in_the_docs()}
    for name, (register, calls) in environments.items():
        page.choose("#calls", name.lower())
        machine.leave_fields()
        machine.keys("?")
        title, rows = page.ask(CALL_TABLE)
        same(f"the calls of {name}", (
            f"System calls of {name}: the number is in {register}, and what is read or given in a0",
            calls), (title, [row[:2] for row in rows]))
        same(f"calls of {name} of which nothing is said", [], [row for row in rows if not row[2]])
        machine.escape()
    machine.keys("h?")
    title, rows = page.ask(CALL_TABLE)
    same("by numbers", [True, ["1", "print_int", "prints x11 in decimal"]], [
        "the number is in x10" in title, rows[0]])
    machine.escape()
    machine.keys("h")


# ---- the text that one sees

TYPED = "main: li a0, 1\n  li a0, 2\n  ebreak\n"
WITH_MISTAKE = "main: li a0, 3\n  foo a0\n"
SHOWN = ("[$('x10').lastChild.textContent, $('heading').textContent, rrs.editor.isChanged,"
         " rrs.session.isRunning]")


def type_in_editor(machine, text, leaves=True):
    """Types a program of assembly into the editor, and leaves it by Escape."""
    machine.leave_fields()
    machine.keys("e")
    machine.page.choose("#language", "assembly")
    machine.page.replace("#text", text)
    if leaves:
        machine.escape()


def run_after_typing(machine):
    """what one sees is what runs: a text that was changed is assembled first, and a mistake stops it"""
    page = machine.page
    ways = {"r": "0x00000002", "s": "0x00000001", "S": "0x00000001", "t": "0x00000002",
            "R": "0x00000002"}
    for key, value in ways.items():
        machine.choose("three")
        machine.keys("s")
        type_in_editor(machine, TYPED)
        same("the note", True, page.ask("$('unloaded').checkVisibility()"))
        machine.run(key)
        same(f"after {key}", [value, False], [machine.register("x10"), page.ask(
            "rrs.editor.isChanged")])
    for button, value in (("run", "0x00000002"), ("step", "0x00000001"), ("stepOver", "0x00000001")):
        machine.choose("three")
        type_in_editor(machine, TYPED, leaves=False)
        page.click(f"[data-action={button}]")
        page.wait("!rrs.session.isRunning")
        same(f"by the button {button}, in the editor, which stays", [value, True], [
            machine.register("x10"), page.ask("$('text').checkVisibility()")])
        machine.leave_fields()
    steps = page.text("#steps")
    for key in ("r", "s", "S"):
        type_in_editor(machine, WITH_MISTAKE)
        machine.keys(key)
        same(f"a mistake stops {key}", ["Not run", "What is wrong with the text stands below it.", True,
                                        steps, ["text", 17]], [
            page.text("#heading"), page.text("#sentence"), page.ask("$('text').checkVisibility()"),
            page.text("#steps"), page.ask("[document.activeElement.id, $('text').selectionStart]")])
        same("and is told once", ["", ["Line 2: no such instruction or directive: foo"]], [
            page.text("#mistake"), page.ask("[...$('mistakes').children].map((one) => one.textContent)")])
    type_in_editor(machine, "main: j main\n")
    machine.keys("r")
    page.wait("rrs.session.machine.steps > 1000")
    type_in_editor(machine, WITH_MISTAKE)
    machine.keys("r")
    page.wait("!rrs.session.isRunning")
    machine.says("Not run")
    type_in_editor(machine, TYPED)
    machine.keys("x")
    same("a reset keeps the program, and the text", [True, True], page.ask(
        "[rrs.editor.isChanged, rrs.session.text.includes('j main')]"))


FAULTS = """main:
    li   a0, 5
    la   t2, x
    lw   t1, 0(t2)
    li   t0, 0x40000000
    lw   t1, 0(t0)
    ebreak
.data
x:  .word 7
"""
# the lines that are marked beside the text, by what for, and the row below it
MARKED = """(() => {
    const line = (mark) => Number(mark.style.getPropertyValue("--line")) + 1;
    const marks = [...document.querySelectorAll("#numbers .mark")].map((mark) =>
        `${mark.className.replace("mark ", "")} ${line(mark)}`);
    const [row] = document.querySelectorAll("#colours .mark");
    return [marks, row.hidden ? "" : `${row.className.replace("mark ", "")} ${line(row)}`];
})()"""


def line_of_a_fault(machine):
    """a fault says its line, which the editor marks, as it does the next one, with registers in sight"""
    page = machine.page
    machine.choose("three")
    machine.take_memory_of_exec()
    type_in_editor(machine, FAULTS, leaves=False)
    page.press("Enter", "Ctrl")
    page.wait("!rrs.session.isRunning && $('heading').textContent === 'Load fault'")
    machine.says("Load fault", "Line 6: lw   t1, 0(t0). The instruction at 0x00000014 loads from "
                 f"0x40000000, where there is no memory. Memory goes from 0x00000000 to 0x000fffff. {NOTHING}")
    same("the mark", [["fault 6"], "fault 6"], page.ask(MARKED))
    same("where it stands", True, page.ask("""(() => {
        const { top, bottom } = document.querySelector("#numbers .mark").getBoundingClientRect();
        const text = $("text").getBoundingClientRect();
        const middle = text.top + rrs.editor.paddingAbove + 5.5 * rrs.editor.lineHeight;
        return top < middle && middle < bottom;
    })()"""))
    same("what is in sight", [True] * 4, page.ask("""["text", "registers", "memory", "output"].map((id) => {
        const { top, bottom } = $(id).getBoundingClientRect();
        return $(id).checkVisibility() && top >= 0 && top < bottom && top < innerHeight;
    })"""))
    page.click("[data-action=stepBack]")
    same("a step back", [["pc 5"], "pc 5"], page.ask(MARKED))
    page.click("[data-action=stepBack]")
    page.ask("$('text').setSelectionRange(0, 0); $('text').focus()")
    page.press("Enter")
    same("the mark goes with its line", [["pc 5"], "pc 5"], page.ask(MARKED))
    machine.escape()
    machine.choose("illegal")
    machine.run()
    same("of words no line is told", True, page.text("#sentence").startswith("The word at"))


def click_number(machine, line):
    """Clicks the number of a line beside the text."""
    where = machine.page.ask(f"""(() => {{
        const {{ left }} = $("numbers").getBoundingClientRect();
        const {{ top }} = $("text").getBoundingClientRect();
        const {{ paddingAbove, lineHeight }} = rrs.editor;
        return [left + 12, top + paddingAbove + ({line} - 0.5) * lineHeight - $("text").scrollTop];
    }})()""")
    machine.page.click_at(where)


def breakpoints_of_the_text(machine):
    """breakpoints stand beside the text, go with their lines, and are kept with the program"""
    page = machine.page
    machine.choose("three")
    type_in_editor(machine, FAULTS, leaves=False)
    click_number(machine, 4)
    same("a click loads the text first", [["stop 4", "pc 2"], False], [
        page.ask(MARKED)[0], page.ask("rrs.editor.isChanged")])
    click_number(machine, 8)
    same("of a line with no instruction that below it, or none", ["stop 4", "pc 2"], page.ask(MARKED)[0])
    page.ask("$('text').setSelectionRange(0, 0); $('text').focus()")
    page.type("# a program\n\n")
    same("two lines on", ["stop 6", "pc 4"], page.ask(MARKED)[0])
    page.press("Enter", "Ctrl")
    page.wait("$('heading').textContent === 'Breakpoint'")
    same("where it stops", [["stop 6", "pc 6"], "0x0000000c"], [
        page.ask(MARKED)[0], machine.register("pc")])
    page.ask("rrs.work.keep()")
    page.click("[data-action=breakpoint]")
    # the cursor is in the first lines, with the first instruction below
    same("by the button, at the cursor", ["stop 4", "stop 6", "pc 6"], sorted(
        page.ask(MARKED)[0], key=lambda mark: (mark[0] != "s", mark)))
    page.click("[data-action=run]")
    page.wait("$('heading').textContent === 'Load fault'")
    page.ask("rrs.work.keep(); rrs.openExample('sum')")
    same("none in another program", [], page.ask("rrs.session.stopPlaces"))
    page.ask("rrs.openChoice($('own').firstElementChild.value)")
    same("in the program again", [4, 6], page.ask("rrs.session.stopPlaces"))
    machine.leave_fields()
    machine.keys("e")
    click_number(machine, 6)
    same("one is taken away", [4], page.ask("rrs.session.stopPlaces"))
    page.replace("#text", page.ask("$('text').value") + "foo\n")
    page.ask("rrs.work.keep(); rrs.openChoice($('own').firstElementChild.value)")
    same("kept beside a mistake", [4], page.ask("rrs.session.stopPlaces"))
    page.put("#text", page.ask("$('text').value.replace('foo\\n', '')"))
    page.press("Enter", "Ctrl")
    page.ask("rrs.take()")
    same("and set when it is mended", [4], page.ask("rrs.session.stopPlaces"))
    machine.escape()


def menu_by_letters(machine):
    """a letter in the menu of examples goes to an example, and to nothing that is hidden"""
    page = machine.page
    page.ask("globalThis.thrown = []; addEventListener('error', ({ message }) => thrown.push(message));"
             " addEventListener('unhandledrejection', ({ reason }) => thrown.push(`${reason}`)); null")
    page.ask("rrs.openExample('sum')")
    machine.leave_fields()
    machine.keys("yy")
    same("what is open, and what was thrown", ["sum", "sum", []], page.ask(
        "[$('examples').value, rrs.example, thrown]"))
    page.ask("$('examples').value = ''; $('examples').dispatchEvent(new Event('change'))")
    same("where nothing is chosen", ["sum", []], page.ask("[$('examples').value, thrown]"))
    machine.leave_fields()


TRIALS = [
    calls_of_others, calls_meant, calls_shown, changes_by_hand, since_the_last_stop, names, calls_made,
    kept_breakpoints, run_after_typing, line_of_a_fault, breakpoints_of_the_text, menu_by_letters,
]
