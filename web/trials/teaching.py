"""What a class needs: assembly in the editor, its mistakes while one types, lessons, and remarks on
the calling convention."""

import pathlib
import re
import subprocess
import tempfile

from trials.opening import executable
from trials.report import same
from trials.view import WEB, js

LESSON = WEB.parent / "examples" / "lesson" / "loops.txt"
SOURCE = "main: li a0, 0x12345  # a number\n  call twice\n  ebreak\n.data\nx: .word 7\n.text\n" \
    "twice: add a0, a0, a0; ret\n"
MISTAKES = "[...document.querySelectorAll('#mistakes li')].map((item) => item.textContent)"
PARTS = "[...document.querySelectorAll('#line-{} .text > *')].map((part) => part.textContent)"


def type_source(machine, text):
    machine.keys("e")
    machine.page.choose("#language", "assembly")
    machine.page.replace("#text", text)


def assembly(machine):
    """the editor takes assembly: the listing has its lines, its labels, and what each becomes"""
    page = machine.page
    machine.choose("three")
    type_source(machine, SOURCE)
    page.click("#take")
    machine.wait_closed()
    machine.says("Ready", "32 bytes from 0x00000000 on.")
    same("the listing", [
        ["main:", "lui a0, 0x00012000", "li a0, 0x12345  # a number"], ["", "addi a0, a0, 837", ""],
        ["", "auipc ra, 0x00000008", "call twice"], ["", "jalr ra, 12(ra)", ""],
        ["", "ebreak", "ebreak"], ["twice:", "add a0, a0, a0", "add a0, a0, a0"],
        ["", "jalr zero, 0(ra)", "ret"], ["x:", ".word 7", ".word 7"],
    ], [page.ask(PARTS.format(index)) for index in range(8)])
    same("what a line says", "main, 0x00000000, lui a0, 0x00012000, line 1, next", page.ask(
        "document.querySelector('#line-0').ariaLabel"))
    machine.run()
    machine.says("Breakpoint instruction")
    same("a0", "0x0002468a", machine.register("x10"))
    page.replace("#address", "x")
    page.press("Enter")
    same("the memory at a label", "00000007", page.text("#memory .target"))
    page.replace("#address", "")
    page.press("Enter")
    machine.leave_fields()
    machine.keys("e")
    same("what stands in the editor", [SOURCE, "assembly"], page.ask(
        "['text', 'language'].map((id) => document.getElementById(id).value)"))
    machine.escape()


def while_one_types(machine):
    """mistakes stand at their lines while one types, and a click goes there"""
    page = machine.page
    machine.choose("three")
    type_source(machine, "nop\nmv a0, 5\n  addi a0, a0, 5000\nj nowhere\n")
    # as many mistakes has the text that was there before
    page.wait(f"{MISTAKES}.length === 3 && {MISTAKES}[2].endsWith('nowhere')")
    same("the mistakes", [
        "Line 2: a register is wanted here: li takes a number",
        "Line 3: value out of range: addi takes -2048 to 2047; li puts any number into a register",
        "Line 4: symbol is not defined: nowhere"], page.ask(MISTAKES))
    same("the numbers of the lines", "1\n2\n3\n4\n5\n", page.ask(
        "document.getElementById('numbers').textContent"))
    same("the lines that are marked", ["2", "3", "4"], page.ask(
        "[...document.querySelectorAll('#numbers b')].map((number) => number.textContent)"))
    same("the places that are marked", ["5", "5000", "nowhere"], page.ask(
        "[...document.querySelectorAll('.is-wrong')].map((part) => part.textContent)"))
    page.click("#mistakes li:nth-child(2) button")
    same("where the cursor is", ["text", 28], page.ask(
        "[document.activeElement.id, document.getElementById('text').selectionStart]"))
    page.click("#take")
    same("at Load each stands once, and the cursor at the first", ["", 3, ["text", 11]], [
        page.text("#mistake"), page.ask(f"{MISTAKES}.length"),
        page.ask("[document.activeElement.id, $('text').selectionStart]")])
    same("what was open", "lui sp, 0x1234b000", machine.line(0)[2])
    page.put("#text", "foo\n" * 25)
    page.wait(f"{MISTAKES}.length === 21")
    same("that there may be more than are told", "There may be more: 20 are told at most.",
         page.ask(f"{MISTAKES}.at(-1)"))
    page.replace("#text", "nop")
    page.wait(f"{MISTAKES}.length === 0")
    same("the marks", 0, page.ask("document.querySelectorAll('#numbers b, .is-wrong').length"))
    page.choose("#language", "words")
    page.wait(f"{MISTAKES}.length === 1")
    same("as words", ['Line 1: "nop" is no word of 1 to 8 hexadecimal digits'], page.ask(MISTAKES))
    page.choose("#language", "assembly")
    page.replace("#text", "j 0x10")
    page.wait(f"{MISTAKES}.length === 0")
    machine.open_settings()
    page.replace("#base", "80000000")
    page.press("Tab")
    page.wait(f"{MISTAKES}.length === 1")
    same("where it is to lie", True, page.ask(f"{MISTAKES}[0].startsWith('Line 1: ')"))
    page.replace("#base", "0")
    page.press("Tab")
    page.replace("#text", "loop: li a0, 5 # so\n.word 'a'")
    same("the colours", [["loop:", "is-label"], ["li", "is-name"], ["a0", "is-register"],
                         ["5", "is-number"], ["# so", "is-comment"], [".word", "is-directive"],
                         ["'a'", "is-string"]],
         page.ask("[...document.querySelectorAll('#colours span')].map((part) =>"
                  " [part.textContent, part.className])"))
    same("the text under the colours", True, page.ask(
        "document.getElementById('colours').textContent === $('text').value + '\\n'"))
    page.put("#text", "nop\n" * 59 + "foo #" + "-" * 400)
    page.wait("$('mistakes').textContent.includes('Line 60')")
    page.ask("$('text').scrollTop = 300; $('text').scrollLeft = 90;"
             " $('text').dispatchEvent(new Event('scroll')); null")
    same("the numbers and the colours scroll with the text", [300, 300, 300, 90, 90], page.ask(
        "[...['text', 'numbers', 'colours'].map((id) => $(id).scrollTop),"
        " ...['text', 'colours'].map((id) => $(id).scrollLeft)]"))
    page.put("#text", "nop\n" * 49 + "foo\n" + "nop\n" * 49)
    page.wait(f"{MISTAKES}.length === 1 && $('mistakes').textContent.includes('Line 50')")
    page.ask("$('text').scrollTop = 0; null")
    page.click("#mistakes li button")
    same("whether line 50 is in view", ["foo", True], page.ask("""(() => {
        const { scrollTop, clientHeight, selectionStart } = $("text");
        const height = parseFloat(getComputedStyle($("text")).lineHeight);
        const isThere = scrollTop <= 49 * height + 5 && 50 * height <= scrollTop + clientHeight;
        return [$('text').value.slice(selectionStart, selectionStart + 3), isThere];
    })()"""))
    machine.escape()


def assembly_from_elsewhere(machine):
    """a file of assembly is known by what it holds, and a link holds the source"""
    page = machine.page
    with tempfile.TemporaryDirectory() as name:
        path = pathlib.Path(name) / "program.txt"
        path.write_text(SOURCE)
        machine.give(path)
        same("the language", "assembly", page.ask("rrs.session.language"))
        path.write_text("add a0, a0, a1\nnop\nfoo\n")
        machine.give(path)
        machine.says("Not opened", "program.txt was not opened. Line 3: no such instruction or "
                     "directive: foo; a label is written foo:")
        path.write_text("add\ndead beef\n")
        machine.give(path)
        same("words", ["words", "00000add"], [page.ask("rrs.session.language"), machine.line(0)[1]])
        path.write_text(SOURCE)
        machine.give(path)
    machine.keys("l")
    page.wait("document.querySelector('#shared').open")
    hash_of = page.ask("document.querySelector('#link').value").split("#", 1)[1]
    machine.escape()
    machine.choose("three")
    page.ask(f"location.hash = {js(hash_of)}")
    page.wait("rrs.session.language === 'assembly'")
    same("the program of the link", SOURCE, page.ask("rrs.session.text"))
    page.ask("history.replaceState(null, '', location.pathname)")
    machine.choose_preset("1")
    same("in another memory", ["assembly", "0x00100000"],
         [page.ask("rrs.session.language"), machine.register("x2")])


# the classes of the colours that are in view
IN_VIEW = """(() => {
    const { top, bottom } = $("text").getBoundingClientRect();
    const isIn = (at) => at.bottom > top && at.top < bottom;
    const parts = [...document.querySelectorAll("#colours span")];
    const shown = parts.filter((part) => [...part.getClientRects()].some(isIn));
    return [...new Set(shown.map(({ className }) => className))].sort();
})()"""
UNDER_THE_TEXT = "$('colours').textContent === $('text').value + '\\n'"


def long_sources(machine):
    """a long source is coloured in view; a longer one, or what makes much, is read at Load alone"""
    page = machine.page
    machine.choose("three")
    machine.keys("e")
    page.choose("#language", "words")
    seen = {length: page.ask(
        f"(() => {{ $('text').value = 'x'.repeat({length}); rrs.editor.changed();"
        " rrs.editor.read(); return [$('code').className, $('colours').textContent.length,"
        " rrs.editor.mistakes.length]; })()") for length in (1 << 17, (1 << 17) + 1)}
    same("sources by their lengths", {
        131072: ["code", 131073, 1], 131073: ["code plain", 1, 0]}, seen)
    page.choose("#language", "assembly")
    # a comment of 2,000 lines, and instructions behind it
    page.put("#text", "/*\n" + 1998 * "li a0, 5\n" + "*/\n" + 1000 * "li a0, 5\n")
    for line, kinds in ((0, ["is-comment"]), (1000, ["is-comment"]),
                        (2500, ["is-name", "is-number", "is-register"])):
        page.ask(f"(async () => {{ $('text').scrollTop = {line}"
                 " * parseFloat(getComputedStyle($('text')).lineHeight);"
                 " await new Promise((done) =>"
                 " requestAnimationFrame(() => setTimeout(done))); })()")
        same(f"the colours at line {line}, few parts, and the text under them", [kinds, True, True],
             page.ask(f"[{IN_VIEW}, document.querySelectorAll('#colours span').length < 600,"
                      f" {UNDER_THE_TEXT}]"))
    took = page.ask(
        "(() => { $('text').value = '.rept 16777215\\nnop\\n.endr';"
        " const begun = performance.now(); rrs.editor.read();"
        " return performance.now() - begun; })()")
    same("whether the page answers soon where a source makes much", True, took < 3000)
    machine.escape()


PLACES = """['text', 'numbers', 'colours'].map((id) => {
    const { scrollTop, scrollLeft } = document.getElementById(id);
    return [Math.round(scrollTop), Math.round(scrollLeft)];
})"""


def beside_scroll_bars(machine):
    """numbers and colours stand where the text stands, at its end and beside its scroll bars too"""
    page = machine.page
    machine.choose("three")
    machine.keys("e")
    page.put("#text", 60 * "nop\n" + "# " + 400 * "-" + "\nnop")
    # borders take the room of the scroll bars, which this browser does not show
    page.ask("""(() => {
        const { style, offsetHeight } = $("text");
        style.height = `${offsetHeight}px`;
        style.border = "solid";
        style.borderWidth = "0 15px 15px 0";
    })()""")
    page.ask("(async () => { const draw = () => new Promise((done) => requestAnimationFrame(() =>"
             " setTimeout(done))); await draw(); $('text').scrollTop = $('text').scrollLeft = 9999;"
             " await draw(); })()")
    text, numbers, colours = page.ask(PLACES)
    same("whether it is scrolled", [True, True], [text[0] > 500, text[1] > 500])
    same("where the numbers and the colours are", [text[0], text], [numbers[0], colours])
    same("whether the colours end where the text does", True, page.ask(
        "['Width', 'Height'].every((side) => $('colours')[`offset${side}`]"
        " === $('text')[`client${side}`])"))
    page.ask("(() => { $('text').style.height = $('text').style.border = ''; })()")
    machine.escape()


LANGUAGE = "document.getElementById('language').value"


def language_of_a_text(machine):
    """a text that is assembly is read so in the place of words, unless these were chosen"""
    page = machine.page
    machine.choose("three")
    machine.keys("e")
    same("of the example", "words", page.ask(LANGUAGE))
    page.put("#text", "13 # li a0, 5\n")
    page.ask("rrs.editor.read()")
    same("of words", "words", page.ask(LANGUAGE))
    page.replace("#text", "main: li a0, 5\n")
    page.wait(f"{LANGUAGE} === 'assembly'")
    same("its mistakes", [], page.ask(MISTAKES))
    page.choose("#language", "words")
    page.wait(f"{MISTAKES}.length === 1")
    same("where words are chosen", "words", page.ask(LANGUAGE))
    machine.escape()
    machine.choose("three")
    machine.keys("e")
    page.ask("$('text').value = 'li a0, 5'; $('text').dispatchEvent(new Event('input')); null")
    page.click("#take")
    machine.wait_closed()
    same("at Load, before it is read", ["assembly", "addi a0, zero, 5"],
         [page.ask("rrs.session.language"), machine.line(0)[2]])


CHECK = "document.getElementById('exercise-check').className"
CURRENT = "document.querySelector('#exercises [aria-current]').textContent"


def lesson(machine):
    """a lesson: its exercises as links, what each expects, and what was tried stays"""
    page = machine.page
    machine.choose("three")
    same("whether a lesson is open", True, page.ask("document.getElementById('lesson').hidden"))
    machine.give(LESSON)
    page.wait("!document.getElementById('lesson').hidden")
    same("the lesson", ["Loops", "0 of 3 solved", "The sum of a list"],
         [page.text("#lesson-title"), page.text("#lesson-solved"), page.ask(CURRENT)])
    same("the exercises", ["The sum of a list", "Count down", "A function"], page.ask(
        "[...document.querySelectorAll('#exercises a')].map((link) => link.textContent)"))
    same("its text", ["Edit the program, load it, and run it.", "Add the numbers of the list, and leave "
                      "their sum in a0."], page.ask(
                          "[...$('exercise-about').children].map((part) => part.textContent)"))
    machine.run()
    same("not solved", ["check end", "a0 is 0 (0x00000000), and 14 (0x0000000e) is expected."],
         [page.ask(CHECK), page.text("#exercise-check")])
    text = page.ask("rrs.session.text")
    loop = "1: lw a3, (a1); add a0, a0, a3; addi a1, a1, 4; addi a2, a2, -1; bnez a2, 1b\nebreak"
    machine.keys("e")
    page.replace("#text", text.replace("ebreak", loop))
    page.click("#take")
    machine.wait_closed()
    machine.run()
    same("solved", ["check done", "Solved.", "1 of 3 solved"],
         [page.ask(CHECK), page.text("#exercise-check"), page.text("#lesson-solved")])
    machine.keys("e")
    page.ask("$('text').value += '\\nfoo'; $('text').dispatchEvent(new Event('input')); null")
    page.click("[data-action=check]")
    same("no verdict of before beside a mistake", [
        "check end", "Not checked: line 14 has a mistake.", "1 of 3 solved"],
        [page.ask(CHECK), page.text("#exercise-check"), page.text("#lesson-solved")])
    page.ask("rrs.lesson.exercise.limit = 1e8; null")
    page.replace("#text", "l: j l")
    page.click("[data-action=check]")
    same("nor while it is checked", ["check ", "It is being checked."],
         [page.ask(CHECK), page.text("#exercise-check")])
    page.ask("rrs.lesson.exercise.limit = 1e6; null")
    machine.keys("e")
    page.replace("#text", text.replace("ebreak", loop))
    page.click("[data-action=check]")
    page.wait("$('exercise-check').textContent === 'Solved.'")
    same("what is said of the exercises", ["solved", "not solved yet", "not solved yet"], page.ask(
        "[...document.querySelectorAll('#exercises a')].map((link) => link.ariaDescription)"))
    page.click("#exercises li:nth-child(2) a")
    page.wait(f"{CURRENT} === 'Count down'")
    same("the calls of the exercise", "rars", page.ask("rrs.session.calls"))
    machine.run()
    same("the output", 'The output is "5\\n", and "5\\n4\\n3\\n2\\n1\\n" is expected.',
         page.text("#exercise-check"))
    machine.keys("e")
    page.choose("#language", "words")
    page.replace("#text", "13")
    page.click("#take")
    machine.wait_closed()
    for number, title in ((1, "The sum of a list"), (2, "Count down")):
        page.click(f"#exercises li:nth-child({number}) a")
        page.wait(f"{CURRENT} === '{title}'")
    same("what was tried as words", ["words", "13"],
         page.ask("[rrs.session.language, rrs.session.text]"))
    page.click("#exercises li:nth-child(1) a")
    page.wait(f"{CURRENT} === 'The sum of a list'")
    same("what was tried", True, page.ask("rrs.session.text.includes('bnez a2, 1b')"))
    same("and is solved", "check done", page.ask(CHECK))
    machine.keys("j")
    focused = "document.activeElement.closest('#exercises a')?.textContent"
    same("the key of the exercises", "The sum of a list", page.ask(focused))
    for held, title in (((), "Count down"), (("Shift",), "The sum of a list")):
        page.press("Tab", *held)
        page.press("Enter")
        page.wait(f"{CURRENT} === '{title}'")
        same("the focus behind a link that a key follows", title, page.ask(focused))
    link = page.ask("document.querySelector('#exercises li:nth-child(3) a').href")
    page.click("[data-action=closeLesson]")
    same("closed", True, page.ask("document.getElementById('lesson').hidden"))
    page.ask(f"location.hash = {js(link.split('#', 1)[1])}")
    page.wait("!document.getElementById('lesson').hidden")
    same("by a link", "A function", page.ask(CURRENT))
    machine.run()
    same("two registers", "s0 is 21 (0x00000015), and 7 (0x00000007) is expected.",
         page.text("#exercise-check").split(". ", 1)[1])
    page.ask("history.replaceState(null, '', location.pathname)")
    machine.choose("three")
    same("an example closes it", True, page.ask("document.getElementById('lesson').hidden"))
    with tempfile.TemporaryDirectory() as name:
        path = pathlib.Path(name) / "wrong.txt"
        path.write_text("lesson: a\nexercise: b\noutput: c\n")
        machine.give(path)
        machine.says("Not opened", 'wrong.txt was not opened. Line 3: the output stands in '
                     'quotation marks, as "31\\n"')
        path.write_text("lesson: a\nexercise: b\nregister: a0 = 1\nmemory: n = 1\nprogram:\nnop\n")
        machine.give(path)
        machine.says("Not opened", "wrong.txt was not opened. Line 4: the program to begin with "
                     "has no label n")
        path.write_text("lesson: a\nexercise: b\nregister: a0 = 5\nmemory: n = 5\nprogram:\n"
                        "lw a0, n\nebreak\n.data\nn: .word 1\n")
        machine.give(path)
        seen = []
        for change in (lambda: None, lambda: machine.choose_preset("1"),
                       lambda: machine.edit("lw a0, n\nebreak\n.data\nm: .word 3\nn: .word 2\n")):
            change()
            machine.leave_fields()
            machine.run()
            seen.append(machine.register("x10"))
        same("the memory of the first case, in a run", 3 * ["0x00000005"], seen)
        path.write_text('lesson:\nexercise:\noutput: "a"\nprogram:\n  nop\n')
        machine.give(path)
        page.wait("!document.getElementById('lesson').hidden")
        same("where there are no titles", ["Lesson", "Exercise 1", "Exercise"], [
            page.text("#lesson-title"), page.ask(CURRENT), page.text("#program-title")])
        for name, what in (("words.hex", b"13"), ("executable", executable())):
            machine.give(LESSON)
            page.wait("!document.getElementById('lesson').hidden")
            path = path.with_name(name)
            path.write_bytes(what)
            machine.give(path)
            same(f"whether {name} closes it", True, page.ask(
                "document.getElementById('lesson').hidden"))


DRAFTS = """lesson: Drafts
exercise: Nothing yet
output: "5"
calls: rars
program:
exercise: A mistake
register: a0 = 5
program:
main: foo a0, 5
  ebreak
"""


def drafts(machine):
    """an exercise may begin with no program, or one with a mistake, which the editor has"""
    page = machine.page
    machine.choose("gcd")
    with tempfile.TemporaryDirectory() as name:
        path = pathlib.Path(name) / "drafts.txt"
        path.write_text(DRAFTS)
        machine.give(path)
        machine.says("To be edited", "There is no statement in it.")
        same("no program of before", ["Nothing yet", "no instruction", "\n"], [
            page.text("#program-title"), machine.line(0)[2], page.ask("rrs.session.text")])
        machine.run()
        machine.says("To be edited", "There is no statement in it.")
        same("a run of nothing", "0 steps", page.text("#steps"))
        page.click("#exercises li:nth-child(2) a")
        page.wait(f"{CURRENT} === 'A mistake'")
        machine.says("To be edited", "Line 1: no such instruction or directive: foo")
        machine.choose_preset("1")
        machine.says("To be edited", "Line 1: no such instruction or directive: foo")
        machine.keys("e")
        page.wait(f"{MISTAKES}.length === 1")
        page.replace("#text", page.ask("$('text').value.replace('foo', 'li')"))
        page.click("#take")
        machine.wait_closed()
        machine.run()
        same("mended", "Solved.", page.text("#exercise-check"))
        page.click("#exercises li:nth-child(1) a")
        page.wait(f"{CURRENT} === 'Nothing yet'")
        same("the other is as it was", "\n", page.ask("rrs.session.text"))
        page.click("#exercises li:nth-child(2) a")
        page.wait(f"{CURRENT} === 'A mistake'")
        machine.give(path)
        page.wait(f"{CURRENT} === 'Nothing yet'")
        # the page has the address of this link already
        page.click("#exercises li:nth-child(2) a")
        page.wait(f"{CURRENT} === 'A mistake'")
    page.ask("history.replaceState(null, '', location.pathname)")
    machine.keys("q")


def misses_by_names(machine):
    """what an exercise misses has the names of registers that are chosen"""
    page = machine.page
    machine.give(LESSON)
    page.wait("!document.getElementById('lesson').hidden")
    machine.run()
    seen = [page.text("#exercise-check")]
    machine.keys("h")
    seen.append(page.text("#exercise-check"))
    machine.keys("h")
    same("what is missed", [f"{name} is 0 (0x00000000), and 14 (0x0000000e) is expected."
                            for name in ("a0", "x10")], seen)
    machine.keys("q")


# what students hand in for exercises of functions.txt: the number, the program, and how it is graded
READ = "main: li a7, 5\n ecall\n"
PRINT = " li a7, 1\n ecall\n li a7, 10\n ecall\n"
NUMBERS = " .data\nnumbers: .word 7, -3, 42, 19, 0, 41\n .text\nmain: la t0, numbers\n li t1, 6\n"
GREATEST = ("next: lw t2, (t0)\n ble t2, a0, 1f\n mv a0, t2\n1: addi t0, t0, 4\n addi t1, t1, -1\n"
            " bnez t1, next\n ebreak\n")
TEXT = ' .data\ntext: .asciz "risc-v is fun"\n .space 16\n .text\nmain: la t0, text\n'
CAPITALS = ("1: lbu t1, (t0)\n beqz t1, 2f\n li t2, 'a'\n blt t1, t2, 3f\n li t2, {last}\n"
            " bgt t1, t2, 3f\n addi t1, t1, -32\n sb t1, (t0)\n3: addi t0, t0, 1\n j 1b\n"
            "2: la a0, text\n li a7, 4\n ecall\n li a7, 10\n ecall\n")
FACT = ("main: li s0, 77\n li a7, 5\n ecall\n call fact\n" + PRINT + "fact: li t0, 2\n blt a0, t0, 1f\n"
        " addi sp, sp, -16\n sw ra, (sp)\n {save}\n addi a0, a0, -1\n call fact\n {restore}\n"
        " lw ra, (sp)\n addi sp, sp, 16\n ret\n1: li a0, 1\n ret\n")
SUM = "main: li t0, 1\n li t1, 0\n li t2, 10\nloop: {test}\n add t1, t1, t0\n addi t0, t0, 1\n j loop\n" \
    "done: mv a0, t1\n" + PRINT
HANDED_IN = {
    "ada": (1, READ + " add a0, a0, a0\n" + PRINT, "right, 3 of 3 cases"),
    "bob": (1, READ + " slli a0, a0, 1\n" + PRINT, "right, 3 of 3 cases"),
    "cem": (1, "main: li a0, 10\n" + PRINT, "not right, 1 of 3 cases"),
    "dan": (2, NUMBERS + " lw a0, (t0)\n" + GREATEST, "right, 3 of 3 cases"),
    # the first output is right by chance
    "eva": (2, NUMBERS + " li a0, 0\n" + GREATEST, "not right, 2 of 3 cases"),
    "fay": (2, NUMBERS.replace("li t1, 6", "li t1, 5") + " lw a0, (t0)\n" + GREATEST,
            "not right, 2 of 3 cases"),
    "gus": (3, TEXT + CAPITALS.format(last="'z'"), "right, 2 of 2 cases"),
    "hal": (3, TEXT + CAPITALS.format(last="'{'"), "not right, 1 of 2 cases"),
    "ida": (4, FACT.format(save="sw a0, 4(sp)", restore="lw t1, 4(sp)\n mul a0, a0, t1"),
            "right, 3 of 3 cases"),
    "jon": (4, FACT.format(save="mv s0, a0", restore="mul a0, a0, s0"), "not right, 2 of 3 cases"),
    "kim": (5, SUM.format(test="bgt t0, t2, done"), "right, 1 of 1 cases"),
    "lea": (5, SUM.format(test="beq t0, zero, done"), "not right, 0 of 1 cases"),
}
FUNCTIONS = LESSON.with_name("functions.txt")


USAGE = ("usage: web/grade [--csv] LESSON EXERCISE FILE .. | web/grade --class LESSON, where EXERCISE is a "
         "number, a title, or all")
TITLE = "Functions, arrays and strings"


def grade(*words):
    run = subprocess.run([WEB / "grade", *words], capture_output=True, text=True, check=False)
    return run.returncode, run.stdout.splitlines(), run.stderr.strip()


def graded():
    """web/grade: twelve programs that were handed in, of which some are wrong in one case alone"""
    with tempfile.TemporaryDirectory() as name:
        folder = pathlib.Path(name)
        for student, (_, text, _) in HANDED_IN.items():
            (folder / f"{student}.s").write_text(text)
        for number in range(1, 6):
            students = [each for each, (of, *_) in HANDED_IN.items() if of == number]
            paths = [folder / f"{each}.s" for each in students]
            status, lines, _ = grade(FUNCTIONS, str(number), *paths)
            wanted = [f"{path}: {HANDED_IN[path.stem][2]}" for path in paths]
            same(f"the grades of exercise {number}", wanted,
                 [line for line in lines if not line.startswith(" ")])
            are_right = all(": right" in line for line in wanted)
            same("its status", 0 if are_right else 1, status)
        _, lines, _ = grade(FUNCTIONS, "The greatest number", folder / "eva.s")
        same("what is told of a case", "  all below zero: a0 is 0 (0x00000000), and -3 (0xfffffffd) is "
             "expected.", lines[1])
        _, lines, _ = grade(FUNCTIONS, "5", folder / "lea.s")
        same("of a program without an end", "  case 1: It has not ended after 1,000 steps.", lines[1])
        _, lines, _ = grade(FUNCTIONS, "4", folder / "jon.s")
        same("a remark", True, any(line.startswith("  remark: fact leaves s0 changed") for line in lines))
        one = folder / "one.txt"
        one.write_text(FUNCTIONS.read_text().split("exercise: The greatest")[0])
        handed = folder / "handed.txt"
        handed.write_text(f"handed in: {TITLE}\n\nexercise 1: Twice a number\ntry: 0 of 3 right\n| nop\n"
                          "try: 3 of 3 right\n" + "".join(f"| {line}\n" for line in
                                                           HANDED_IN["ada"][1].splitlines()))
        same("what was handed in by the page", [f"{handed}: right, 3 of 3 cases, the latest of 2 tries"],
             grade(FUNCTIONS, "1", handed)[1])
        (folder / "bad.s").write_text("main: foo a0\n")
        same("what can't be read", [f"{folder / 'bad.s'}: not read: Line 1: no such instruction or "
                                    "directive: foo"], grade(FUNCTIONS, "1", folder / "bad.s")[1])
        (folder / "heading.txt").write_text("# Week 1\n" + FUNCTIONS.read_text())
        (folder / "label.txt").write_text(
            FUNCTIONS.read_text().replace("y: numbers = 1", "y: number = 1"))
        same("its status", 1, grade(FUNCTIONS, "1", folder / "bad.s")[0])
        same("all exercises", (1, [
            f"{handed}: exercise 1: right, 3 of 3 cases, the latest of 2 tries",
            *(f"{handed}: exercise {number}: nothing was handed in" for number in range(2, 6)),
            f"{handed}: 1 of 5 exercises are right"], ""), grade(FUNCTIONS, "all", handed))
        same("all exercises of a lesson of one", (0, [
            f"{handed}: exercise 1: right, 3 of 3 cases, the latest of 2 tries",
            f"{handed}: 1 of 1 exercises are right"], ""), grade(one, "all", handed))
        same("what is graded beside a file that is not there", (
            2, [f"{folder / 'ada.s'}: right, 3 of 3 cases",
                f"{folder / 'cem.s'}: not right, 1 of 3 cases"],
            f"web/grade: {folder / 'none.s'}: no such file"), (lambda got: (
                got[0], [line for line in got[1] if line[0] != " "], got[2]))(
                    grade(FUNCTIONS, "1", folder / "ada.s", folder / "none.s", folder / "cem.s")))
        same("help", (0, [USAGE], ""), grade("--help"))
        for words, why in (
            ((FUNCTIONS, "9", folder / "ada.s"), f"web/grade: {FUNCTIONS} has no exercise 9: it "
             "has 1 (Twice a number), 2 (The greatest number), 3 (Capital letters), 4 (Factorial by "
             "recursion), 5 (Find the mistakes)"),
            ((folder / "heading.txt", "1", folder / "ada.s"), f"web/grade: {folder / 'heading.txt'}: A "
             "lesson begins with its line lesson: and this one has other lines above it."),
            ((folder / "label.txt", "1", folder / "ada.s"), f"web/grade: {folder / 'label.txt'}: "
             "Line 40: the program to begin with has no label number"),
            ((FUNCTIONS, "1"), f"web/grade: {USAGE}"),
            ((FUNCTIONS, "all", folder / "ada.s"), f"web/grade: {folder / 'ada.s'}: a source "
             "belongs to one exercise: give its number"),
            ((FUNCTIONS, "1", folder / "none.s"), f"web/grade: {folder / 'none.s'}: no such file"),
        ):
            same("what is refused", (2, why), (lambda got: (got[0], got[2]))(grade(*words)))
    return f"{len(HANDED_IN)} programs"


SOLVED = {number: text for number, text, grade in HANDED_IN.values() if grade.startswith("right")}
CASES = "[...document.querySelectorAll('#exercise-cases li')].map((item) => item.textContent)"


TITLE = "Functions, arrays and strings"
KEPT = "[...document.querySelectorAll('#own option')].map((option) => option.textContent)"
HANDED_IN_NAME = "Functions-arrays-and-strings.Ada.handed-in.txt"


def open_functions(machine):
    machine.give(FUNCTIONS)
    machine.page.wait("!document.getElementById('lesson').hidden")


def go_to_exercise(machine, number):
    """Goes to an exercise by keys alone."""
    page = machine.page
    machine.keys("j")
    for _ in range(5):
        if page.ask(f"document.activeElement.hash?.endsWith('exercise={number}')"):
            break
        page.press("Tab", *(["Shift"] if page.ask(f"rrs.lesson.number > {number}") else []))
    # the links are made anew when this one was followed, also where it leads to where one is
    page.ask("globalThis.followed = document.activeElement; null")
    page.press("Enter")
    page.wait(f"!followed.isConnected && rrs.lesson.number === {number}")


def write_and_judge(machine, text):
    """Writes a program, has it run, and waits for its verdict. One without an end is paused, and
    checked."""
    page = machine.page
    page.ask("rrs.lesson.exercise.told = undefined; null")
    start_text(machine, text)
    if text == HANDED_IN["lea"][1]:
        page.wait("rrs.session.machine.steps > 1000")
        machine.keys("pC")
    page.wait("rrs.lesson.exercise.told && !rrs.session.isRunning")


def hand_in(machine, folder, name=HANDED_IN_NAME):
    """Hands in what was tried, by keys alone, as a file. Answers its path, and the link."""
    page = machine.page
    path = pathlib.Path(folder) / name
    page.browser.send("Browser.setDownloadBehavior", behavior="allow", downloadPath=folder)
    machine.leave_fields()
    machine.keys("D")
    page.wait("$('shared').open")
    if page.ask("$('student').value") == "":
        page.type("Ada")
        page.wait("rrs.work.keeping.read('name') === 'Ada'")
    # the link of the name takes its time
    link = page.ask("(async () => { await rrs.showHandedIn(); return $('link').value; })()")
    page.press("Enter")
    page.browser.wait_saved(path)
    page.wait("!$('shared').open")
    return path, link


def better_before(students, at):
    """What is told of a try that is better than the latest, of the tries of some students."""
    counts = [re.search(r"(\d) of (\d)", HANDED_IN[student][2]) for student in students[:at + 1]]
    right = [int(count[1]) for count in counts]
    return "" if max(right) == right[-1] else (
        f"; the best is try {right.index(max(right)) + 1}, {max(right)} of {counts[0][2]}")


def lesson_of_cases(machine):
    """twelve programs are written by keys, handed in by the page, and graded: wrong cases are found"""
    page = machine.page
    open_functions(machine)
    same("the text of an exercise", [["P", "P", "PRE", "P"], "ecall", "Ctrl+Enter"], page.ask(
        "[[...$('exercise-about').children].map(({ tagName }) => tagName),"
        " $('exercise-about').querySelector('pre').textContent.split('\\n')[1],"
        " $('exercise-about').querySelector('code').textContent]"))
    with tempfile.TemporaryDirectory() as name:
        for student, (number, text, _) in HANDED_IN.items():
            go_to_exercise(machine, number)
            write_and_judge(machine, text)
            if student == "cem":
                same("what is told of the cases", [
                    "five: right", 'nothing: The output is "10", and "0" is expected. The case has '
                    'the input "0\\n".',
                    "below zero: not right (its input is hidden)"], page.ask(CASES))
            hand_in(machine, name)[0].rename(pathlib.Path(name) / f"{student}.txt")
        same("what is solved", "5 of 5 solved", page.text("#lesson-solved"))
        for number in range(1, 6):
            students = [each for each, (of, *_) in HANDED_IN.items() if of == number]
            paths = [pathlib.Path(name) / f"{each}.txt" for each in students]
            _, lines, _ = grade(FUNCTIONS, str(number), *paths)
            same(f"the grades of exercise {number}", [
                f"{path} (Ada): {HANDED_IN[path.stem][2]}, the latest of {at + 1} "
                f"{'try' if at == 0 else 'tries'}{better_before(students, at)}"
                for at, path in enumerate(paths)], [line for line in lines if not line.startswith(" ")])
    machine.leave_fields()
    machine.keys("q")


# what of a phone's screen is in view, where a program was run: a part of the page, and the verdict
VERDICT_IN_VIEW = """(() => {
    const { top, bottom } = $("exercise-check").getBoundingClientRect();
    return 0 <= top && bottom <= innerHeight;
})()"""


def lesson_on_a_phone(machine):
    """on a phone's width a lesson of five exercises is worked through by keys, and handed in"""
    page = machine.page
    page.send("Emulation.setDeviceMetricsOverride", width=360, height=740, deviceScaleFactor=1,
              mobile=True)
    open_functions(machine)
    machine.keys("H")
    same("a hint", ["add a0, a0, a0 doubles a0."], page.ask(
        "[...document.querySelectorAll('#exercise-hints li')].map((item) => item.textContent)"))
    write_and_judge(machine, HANDED_IN["cem"][1])
    same("a wrong try", "1 of 3 cases are right.", page.text("#exercise-check"))
    for number in range(1, 6):
        go_to_exercise(machine, number)
        write_and_judge(machine, SOLVED[number])
        same(f"exercise {number}", [f"{number} of 5 solved", "check done", True, True], [
            page.text("#lesson-solved"), page.ask(CHECK), page.ask(VERDICT_IN_VIEW),
            page.ask("document.documentElement.scrollWidth <= innerWidth")])
    with tempfile.TemporaryDirectory() as name:
        path, link = hand_in(machine, name)
        wanted = "right, 3 of 3 cases, the latest of 2 tries"
        same("its file", (0, [f"{path} (Ada): {wanted}"]), grade(FUNCTIONS, "1", path)[:2])
        path.write_text(f"{link}\n")
        same("its link, in a file and alone", (0, [f"{path} (Ada): {wanted}", f"the link (Ada): {wanted}"]),
             grade(FUNCTIONS, "1", path, link)[:2])
        cut = link.replace("handed-in=", "handed-in=!")
        same("a link that is damaged", [1, [
            "the link: not read: The link is damaged: its program can't be read."]],
            list(grade(FUNCTIONS, "1", cut)[:2]))
    machine.choose("three")
    one_s_own = "JSON.stringify(rrs.work.keeping.all('lessons').filter((each) => !each.handedIn))"
    kept = page.ask(one_s_own)
    page.ask(f"location.hash = {js(link.split('#', 1)[1] + '&exercise=3')}")
    page.wait("!document.getElementById('lesson').hidden")
    same("what one sees who opens the link", ["5 of 5 solved, as it was handed in by Ada", 3, True], [
        page.text("#lesson-solved"), page.ask("rrs.lesson.number"),
        page.ask(f"rrs.session.text === {js(SOLVED[3])}")])
    write_and_judge(machine, SOLVED[3] + "# seen\n")
    same("and that it is not kept in the place of one's own", True, page.ask(
        f"{one_s_own} === {js(kept)}"))
    page.ask("rrs.work.keep(); rrs.closeLesson()")
    [*_, own] = [each for each in page.ask(KEPT) if each.endswith("as it was handed in")]
    same("and that it stays beside it", [f"Lesson: {TITLE}, as it was handed in", SOLVED[3] + "# seen\n"], [
        own, page.ask("(async () => { const { id } = rrs.work.keeping.all('lessons')[0];"
                      " await rrs.openKeptLesson(id, 3); return rrs.session.text; })()")])


def first_lesson(machine):
    """Help has a lesson to begin with, which is saved, opened, solved, handed in and graded"""
    page = machine.page
    machine.choose("three")
    with tempfile.TemporaryDirectory() as name:
        page.browser.send("Browser.setDownloadBehavior", behavior="allow", downloadPath=name)
        machine.keys("?")
        page.click("#first-lesson")
        path = pathlib.Path(name) / "lesson.txt"
        page.browser.wait_saved(path)
        machine.escape()
        machine.give(path)
        page.wait("$('lesson-title').textContent === 'My lesson'")
        write_text(machine, READ + " mv t0, a0\n ecall\n add a0, a0, t0\n" + PRINT)
        page.wait("$('lesson-solved').textContent === '1 of 2 solved'")
        handed = hand_in(machine, name, "My-lesson.Ada.handed-in.txt")[0]
        same("its grade", (0, [f"{handed} (Ada): right, 2 of 2 cases, the latest of 1 try"]),
             grade(path, "1", handed)[:2])
    machine.keys("q")


def write_text(machine, text):
    """Writes a program, and has it run to its end, by keys alone."""
    start_text(machine, text)
    machine.page.wait("!rrs.session.isRunning")


def start_text(machine, text):
    """Writes a program, and has it begin to run, by keys alone."""
    page = machine.page
    page.press("e")
    page.wait("document.activeElement.id === 'text'")
    page.press("a", "Ctrl")
    page.send("Input.dispatchKeyEvent", type="rawKeyDown", key="a", modifiers=2,
              windowsVirtualKeyCode=65, commands=["selectAll"])
    page.type(text)
    page.press("Enter", "Ctrl")
    page.press("Escape")
    page.wait("document.getElementById('editor').hidden")


REMARKS = "[...document.querySelectorAll('#remarks li')].map((item) => item.textContent)"


def convention(machine):
    """the calling convention: what does not keep to it is told, and a step back takes it back"""
    page = machine.page
    machine.choose("convention")
    same("before the first step", [], page.ask(REMARKS))
    machine.run()
    machine.says("Exit")
    told = page.ask(REMARKS)
    same("the remarks", [
        "factorial leaves s0 changed: it was 0x00000001, and is 0x00000000 at the return. (5 "
        "times)",
        "t0 is read at main + 16, and the call of factorial before may have changed it."], told)
    same("its note", "none, 2 remarks", page.text("#frames-note"))
    machine.keys("bbb")
    same("three steps back", 1, len(page.ask(REMARKS)))
    machine.keys("h")
    same("with numbers", "factorial leaves x8 changed", page.ask(REMARKS)[0][:27])
    machine.keys("h")
    machine.run("B")
    same("at the start", [], page.ask(REMARKS))


TRIALS = [
    assembly, while_one_types, long_sources, beside_scroll_bars, language_of_a_text,
    assembly_from_elsewhere, lesson, first_lesson, drafts, misses_by_names, convention,
]

# those that are given a page that no other trial has
APART = [lesson_of_cases, lesson_on_a_phone]
