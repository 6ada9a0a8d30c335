"""Programs that run in the page: steps there and back, the console, breakpoints, and the memory."""

import math
import pathlib
import tempfile
import time

from trials import calls, programs
from trials.report import Differs, same
from trials.view import NOTHING, WEB

RRS = WEB.parent / "crates" / "rrs"


def three_words(machine):
    """three words, step by step and back"""
    machine.choose("three")
    machine.says("Ready")
    seen = []
    for _ in range(3):
        machine.keys("s")
        seen.append((machine.page.text("#heading"), machine.page.text("#sentence")))
    same("the steps", [
        ("Step 1", "lui sp, 0x1234b000: sp = 0x1234b000"),
        ("Step 2", "lui gp, 0xf387e000: gp = 0xf387e000"),
        ("Step 3", "add ra, sp, gp: ra = 0x05bc9000"),
    ], seen)
    same("the marked register", ["x1"], machine.marked())
    same("the line at the pc", "line-3", machine.page.ask("document.querySelector('.line.pc').id"))
    same("line 2", ["00000008", "003100b3", "add ra, sp, gp", "1"], machine.line(2))
    same("the log", ["3", "00000008", "add ra, sp, gp", "ra = 0x05bc9000"], machine.rows("log")[0])
    machine.run()
    machine.says("Illegal instruction", "The program has no exit: it ran past its last "
                 "instruction. The word at 0x0000000c is 0x00000000, which is no instruction of "
                 f"RV32IM. A program ends by the call exit (a7 = 93). {NOTHING}")
    same("the marked register, at the fault", ["x1"], machine.marked())
    same("the registers", ["0x0000000c", "0x05bc9000", "0x1234b000", "0xf387e000"],
         machine.registers()[:4])
    machine.keys("b")
    same("x1, a step back", "0x00000000", machine.register("x1"))
    same("the marked register, a step back", ["x3"], machine.marked())
    machine.says("Back at step 2", "Next: add ra, sp, gp")
    machine.keys("bb")
    same("whether it is the first state", True, machine.is_first_state())


# the registers' names in calls, by the psABI
NAMES = ("ra sp gp tp t0 t1 t2 s0 s1 a0 a1 a2 a3 a4 a5 a6 a7 s2 s3 s4 s5 s6 s7 s8 s9 s10 s11 t3 t4"
         " t5 t6").split()


def registers(machine):
    """each register by its number and its name, with its own value"""
    machine.choose("three")
    # addi xN, x0, N
    machine.edit(" ".join(f"{programs.i_type(0x13, 0, n, 0, n):x}" for n in range(1, 32)))
    machine.run()
    cells = machine.page.ask("[...document.querySelectorAll('.register')].map((register) =>"
                             " [...register.children].map((cell) => cell.textContent))")
    same("the registers", [["pc", "", "0x0000007c"]] + [
        [NAMES[n - 1], f"x{n}", f"0x{n:08x}"] for n in range(1, 32)], cells)


def radixes_and_counts(machine):
    """registers in each radix, the counts, the mix and the log"""
    machine.choose("three")
    machine.run()
    seen = []
    for _ in range(4):
        machine.keys("n")
        seen.append(machine.register("x3"))
    same("x3 by radix", ["-209199104", "4085768192",
                         "0b11110011100001111110000000000000", "0xf387e000"], seen)
    machine.show("counts")
    same("the counts", [["lui", "", "2", "67 %"], ["add", "", "1", "33 %"]], machine.rows("counts"))
    mix = "document.querySelector('#mix').getAttribute('aria-label')"
    same("the mix", "arithmetic and logic 100 %", machine.page.ask(mix))
    same("the coverage", "3 of 3 words executed", machine.page.text("#coverage"))
    same("how far back", ["3 steps", "can go back 3"],
         [machine.page.text("#steps"), machine.page.text("#kept")])
    machine.keys("b")
    same("the counts, a step back", [["lui", "", "2", "100 %"]], machine.rows("counts"))
    same("the coverage, a step back", "2 of 3 words executed", machine.page.text("#coverage"))
    machine.choose("gcd")
    machine.run()
    same("the steps", 21, machine.steps())
    same("the mix", "arithmetic and logic 43 %, multiply and divide 14 %, branch 19 %, jump 24 %",
         machine.page.ask(mix))
    same("its parts, as they are drawn", [9, 3, 4, 5], machine.page.ask(
        "[...document.querySelectorAll('#mix span')].filter((part) => !part.hidden)"
        ".map((part) => Number(getComputedStyle(part).flexGrow))"))
    same("the legend", ["arithmetic and logic 43 %", "multiply and divide 14 %", "", "",
                        "branch 19 %", "jump 24 %", ""],
         machine.page.ask("[...document.querySelectorAll('#legend li')]"
                          ".map((item) => item.textContent)"))
    widths = machine.page.ask("[...document.querySelectorAll('#counts .bar')]"
                              ".map((bar) => bar.getBoundingClientRect().width)")
    same("bars, the longest first", sorted(widths, reverse=True), widths)
    counts = [int(row[2]) for row in machine.rows("counts")]
    same("bars by their counts", [round(100 * count / counts[0]) for count in counts],
         [round(100 * width / widths[0]) for width in widths])
    same("the rows of the log", 21, len(machine.rows("log")))
    lines = machine.page.ask("[...document.querySelectorAll('.line .executed')].map((cell) => ["
                             "Number(cell.lastChild.textContent), Math.round(100 * cell.firstChild"
                             ".getBoundingClientRect().width / cell.clientWidth)])")
    most = max(count for count, _ in lines)
    same("bars of the lines, by the logarithms of their counts",
         [[count, round(100 * math.log1p(count) / math.log1p(most))] for count, _ in lines], lines)
    same("targets in the log", ["bne a1, zero, divide", "jal ra, gcd", "jal zero, gcd"], sorted({
        row[2] for row in machine.rows("log") if row[2].split(" ")[0] in ("bne", "jal")}))


def million_steps(machine):
    """a million steps, and back to the first state"""
    machine.choose("million")
    begun = time.monotonic()
    machine.run()
    there = time.monotonic()
    machine.says("Exit", "The program ended by the ecall at 0x00000018, with status 0.")
    same("the steps", 1000000, machine.steps())
    same("the loop", ["00000010", "fff28293", "addi t0, t0, -1", "499,998"], machine.line(4))
    same("the rows of the log", 50, len(machine.rows("log")))
    machine.run("B")
    machine.says("At the start", "This is the first state.")
    same("whether it is the first state", True, machine.is_first_state())
    back = time.monotonic()
    return f"{there - begun:.1f} s there, {back - there:.1f} s back"


def more_than_is_kept(machine):
    """more steps than are kept, and as far back as there are records"""
    machine.choose("three")
    machine.edit("loop:\n00128293 # addi x5, x5, 1\nffdff06f # jal x0, loop")
    machine.page.press("r")
    machine.page.wait("rrs.session.machine.steps > 2500000", 60)
    machine.keys("p")
    machine.says("Paused")
    made, kept = machine.page.ask("[rrs.session.machine.steps, rrs.session.machine.history.length]")
    same("whether some records are gone", True, 2097152 <= kept < made)
    machine.run("B")
    machine.says("As far back as is kept",
                 f"{made - kept:,} steps were made before, whose records are gone.")
    same("x5", f"0x{(made - kept + 1) // 2:08x}", machine.register("x5"))


def console(machine):
    """the console: write, read, exit, and all of it back; what is printed is never HTML"""
    machine.choose("console")
    machine.run()
    machine.says("Waiting for input")
    same("the output", "What is your name? ", machine.page.text("#output"))
    same("whether the console waits", True, machine.page.ask(
        "document.querySelector('#typing').classList.contains('waiting')"))
    machine.page.click("#input")
    machine.page.type("<b>Ada</b>")
    machine.page.press("Enter")
    machine.page.wait("document.querySelector('#heading').textContent === 'Exit'")
    machine.says("Exit", "The program ended by the ecall at 0x00000058, with status 0.")
    same("the output", "What is your name? Hello, <b>Ada</b>\n", machine.page.text("#output"))
    same("elements in the output", 0,
         machine.page.ask("document.querySelector('#output').childElementCount"))
    same("the field is empty", "", machine.page.ask("document.querySelector('#input').value"))
    machine.leave_fields()
    machine.keys("bbbbbb")
    same("the output, steps back", "What is your name? Hello, ", machine.page.text("#output"))
    machine.run("B")
    same("the output, all steps back", "", machine.page.text("#output"))
    same("whether it is the first state", True, machine.is_first_state())
    machine.run()
    same("the output, once more", "What is your name? Hello, <b>Ada</b>\n",
         machine.page.text("#output"))


def end_of_input(machine):
    """the console: the end of its input, a read in steps, and a line that comes too late"""
    machine.choose("console")
    machine.keys(10 * "s")
    machine.says("Waiting for input")
    same("where the focus is", "input", machine.page.ask("document.activeElement.id"))
    machine.leave_fields()
    same("the steps", 9, machine.steps())
    machine.keys("z")
    machine.says("Input is there")
    same("the note", "input ended", machine.page.text("#lost"))
    machine.keys("s")
    same("a0, how many bytes were read", "0x00000000", machine.register("x10"))
    same("the marked register", ["x10"], machine.marked())
    same("the steps", 10, machine.steps())
    machine.page.replace("#input", "late")
    machine.page.press("Enter")
    machine.says("Input has ended", "The program reads no more lines. Reset begins anew.")
    same("the line stays in its field", "late",
         machine.page.ask("document.querySelector('#input').value"))
    machine.page.replace("#input", "")
    machine.leave_fields()


def long_output(machine):
    """the console: its last 20,000 bytes, what found no room, and letters that are not cut"""
    machine.choose("three")
    machine.take_memory_of_exec()
    # write(1, 0x8000, 0x40000) eight times: half of it finds no room
    machine.edit("""00800413 000085b7 00040637
        loop: 00100513 04000893 00000073 fff40413 fe0418e3 05d00893 00000073""")
    machine.page.ask("rrs.session.machine.kit.bytes.fill(0x41, 0x8000, 0x48000); 0")
    machine.run()
    machine.says("Exit")
    same("the notes", "the last 20,000 bytes, 1,048,576 bytes lost: no room",
         machine.page.text("#lost"))
    same("what is shown", "A" * 20000, machine.page.text("#output"))
    same("how much lies below the part in view", 0, machine.page.ask(
        "(({ scrollHeight, scrollTop, clientHeight }) =>"
        " Math.round(scrollHeight - scrollTop - clientHeight))(document.querySelector('#output'))"))
    machine.page.ask("rrs.session.machine.terminal.reset()")
    machine.page.ask("rrs.session.machine.terminal.print("
                     "new TextEncoder().encode('\\ufeff€' + 'x'.repeat(19999)))")
    machine.page.ask("rrs.session.onChange()")
    same("a letter that would be cut", "x" * 19999, machine.page.text("#output"))
    machine.page.ask("rrs.session.machine.terminal.reset()")
    machine.page.ask("rrs.session.machine.terminal.print(Uint8Array.of(0xef, 0xbb, 0xbf, 0x41))")
    machine.page.ask("rrs.session.onChange()")
    same("a byte order mark", "\ufeffA", machine.page.text("#output"))


def calls_as_proved(machine):
    """the console: calls answer as those of rrs exec, which are proved"""
    rrs = RRS / "out" / "rrs"
    machine.choose("three")
    machine.take_memory_of_exec()
    with tempfile.TemporaryDirectory() as name:
        program = calls.assemble(rrs, pathlib.Path(name))
        same("what is wrong in rrs exec", [], calls.differences(calls.execute(rrs, program)))
        machine.give(program)
    for line in calls.INPUT.splitlines():
        machine.page.click("#input")
        machine.page.type(line)
        machine.page.press("Enter")
    machine.leave_fields()
    machine.keys("z")
    machine.run()
    machine.says("Exit")
    output = "rrs.session.machine.terminal.output.slice(0, rrs.session.machine.terminal.printed)"
    same("what is wrong in the page", [],
         calls.differences(bytes(machine.page.ask(f"[...{output}]"))))
    machine.run("B")
    same("whether it is the first state", True, machine.is_first_state())
    return f"{len(calls.CALLS)} calls"


def c_programs(machine):
    """the C programs of rrs exec, over 1 MiB with sp at its end"""
    machine.choose("three")
    machine.take_memory_of_exec()
    same("sp", "0x00100000", machine.register("x2"))
    seen = {}
    for name in ("hello", "count", "fault"):
        machine.give(RRS / "data" / f"{name}.bin")
        machine.run()
        if name == "count":
            machine.says("Waiting for input")
            for line in ("a b c", "d e"):
                machine.page.click("#input")
                machine.page.type(line)
                machine.page.press("Enter")
                machine.page.wait("!rrs.session.isRunning")
            machine.leave_fields()
            machine.run("z")
        seen[name] = [machine.page.text(part) for part in ("#sentence", "#output")]
    exits = "The program ended by the ecall at 0x00000048, with status"
    same("the ends", {
        "hello": [f"{exits} 3.", "Hello, RISC-V! -42 0xbeef\n"],
        "count": [f"{exits} 0.", "      2       5      10\n"],
        "fault": ["The instruction at 0x000001a0 stores to 0x40000000, where there is no memory. "
                  f"Memory goes from 0x00000000 to 0x000fffff. {NOTHING}", "going to store\n"],
    }, seen)
    same("the steps to the fault", 1951, machine.steps())
    machine.run("B")
    same("sp, back at the start", "0x00100000", machine.register("x2"))


def stops(machine):
    """breakpoints and runs to a line, by clicks and by keys, and a run back"""
    page = machine.page
    machine.choose("sum")
    page.click("#line-5 .gutter")
    machine.leave_fields()
    machine.run()
    machine.says("Breakpoint", "Stopped before a breakpoint at 0x00000014, after 5 steps more.")
    machine.run()
    machine.says("Breakpoint", "Stopped before a breakpoint at 0x00000014, after 6 steps more.")
    same("a2", "0x00000003", machine.register("x12"))
    machine.run("B")
    same("the pc, a run back", "0x00000014", machine.register("pc"))
    same("the steps", 5, machine.steps())
    machine.keys("gk")
    same("the breakpoint is gone", 0, page.ask("document.querySelectorAll('.line.stop').length"))
    page.press("ArrowDown")
    machine.run("t")
    machine.says("At the line", "Stopped before the line at 0x00000018, after 1 step more.")
    for key, line in (("End", "line-20"), ("Home", "line-0")):
        page.press(key)
        same(f"the line of {key}", line, page.ask("document.querySelector('.line.selected').id"))
    page.press("PageDown")
    page.press("PageUp")
    same("the line of a page on and back", "line-0",
         page.ask("document.querySelector('.line.selected').id"))
    machine.run()
    machine.says("Exit", "The program ended by the ecall at 0x0000002c, with status 31.")
    same("the steps", 3 + 6 * 8 + 1 + 2, machine.steps())


def clicks_on_lines(machine):
    """a click selects a line, two run to it, and two beside the lines do nothing"""
    page = machine.page
    machine.choose("sum")
    page.click("#line-8 .instruction", 2)
    page.wait("!rrs.session.isRunning")
    machine.says("At the line", "Stopped before the line at 0x00000020, after 8 steps more.")
    page.click("#line-3 .gutter", 2)
    same("two clicks on the gutter", [8, 0], [
        machine.steps(), page.ask("document.querySelectorAll('.line.stop').length")])
    machine.choose("three")
    page.click("#line-2 .instruction")
    same("the selected line", "line-2", page.ask("document.querySelector('.line.selected').id"))
    left, bottom = page.ask("(({ left, bottom }) => [left + 100, bottom - 5])"
                            "(document.querySelector('#listing').getBoundingClientRect())")
    page.click_at([left, bottom], 2)
    same("the steps after a double click beside the lines", 0, machine.steps())


def long_listing(machine):
    """a listing longer than its box: the lines in view, and the line that is selected"""
    page = machine.page
    machine.choose("three")
    # 2,000 words that do nothing, and a jump to the last
    machine.edit(f"{programs.j_type(0, 4 * 1999):x} {'13 ' * 1998} go: 00100293")
    active = ("(() => { const id = document.querySelector('#listing')"
              ".getAttribute('aria-activedescendant');"
              " return id === null ? null : document.getElementById(id) !== null; })()")
    same("whether the active line is there", True, page.ask(active))
    machine.keys("s")
    same("the line at the pc is in view", True, page.ask(IN_VIEW % "#line-1999"))
    page.ask("document.querySelector('#listing').scrollTop = 24 * 900")
    page.wait("document.querySelector('#line-900') !== null")
    same("whether the active line, out of view, is there", None, page.ask(active))
    lines, height = page.ask("[rrs.session.lines, Math.ceil($('listing').clientHeight / 24)]")
    for top in (0, 2, 900, 1990):
        made = page.ask(f"(() => {{ $('listing').scrollTop = {24 * top}; rrs.listing.scroll();"
                        " return [Math.floor($('listing').scrollTop / 24), ...[...document"
                        ".querySelectorAll('.line')].map(({ id }) => Number(id.slice(5)))]; })()")
        first = max(0, made[0] - 4)
        same(f"the lines that are made at {top}", [*range(first, min(lines, first + height + 8))],
             made[1:])
        for index in (made[1] - 1, made[1], made[-1], made[-1] + 1):
            page.ask(f"rrs.session.selected = {index}; rrs.listing.renderLines(); null")
            same(f"whether line {index} is the active one", True if index in made[1:] else None,
                 page.ask(active))
    machine.keys("g")
    page.press("End")
    page.wait(IN_VIEW % "#line-2000")
    same("the active line", [True, ["00001f3c", "00100293", "addi t0, zero, 1", ""]],
         [page.ask(active), machine.line(1999)])
    for key, index in (("ArrowUp", 1999), ("Home", 0)):
        page.press(key)
        page.wait(IN_VIEW % f"#line-{index}")
        same("the selected line", [f"line-{index}", True], [
            page.ask("document.querySelector('.line.selected').id"), page.ask(active)])


IN_VIEW = """(() => {
    const line = document.querySelector("%s")?.getBoundingClientRect();
    const box = document.querySelector("#listing").getBoundingClientRect();
    return line !== undefined && line.top >= box.top - 1 && line.bottom <= box.bottom + 1;
})()"""


OFF = """[...document.querySelectorAll('[data-action][aria-disabled="true"]:not(#lesson *)')]
    .map((button) => button.dataset.action)"""


def run_and_pause(machine):
    """Runs on, sees that the page answers meanwhile, and pauses."""
    machine.page.press("r")
    slowest = 0
    for _ in range(20):
        begun = time.monotonic()
        machine.page.ask("1")
        slowest = max(slowest, time.monotonic() - begun)
    busy = "document.querySelector('[role=status]').getAttribute('aria-busy')"
    same("whether it runs", [True, "true"],
         [machine.page.ask("rrs.session.isRunning"), machine.page.ask(busy)])
    same("the buttons that are off in a run", ["runBack", "stepBack", "stepOver", "stepOut", "run",
                                               "runToOutput", "runToLine"],
         machine.page.ask(OFF))
    machine.keys("p")
    machine.says("Paused")
    same("the buttons that are off behind it", ["stepOut", "pause"], machine.page.ask(OFF))
    same("whether it is busy", "false", machine.page.ask(busy))
    return slowest


def pace(machine):
    """an endless run: the page answers, pause, and a slow one"""
    machine.choose("three")
    machine.edit("loop:\n0000006f # jal x0, loop")
    slowest = run_and_pause(machine)
    machine.keys("x----")
    same("the speed", "16/s", machine.page.ask(
        "document.querySelector('#speed').selectedOptions[0].text"))
    begun = time.monotonic()
    machine.page.press("r")
    machine.page.wait("rrs.session.machine.steps >= 4")
    machine.keys("p")
    made, seconds = machine.steps(), time.monotonic() - begun
    if made > 16 * seconds + 2:
        raise Differs(f"at 16 steps a second {made} were made in {seconds:.1f} s")
    for what, keys, speed in (("slowest", "---", "1/s"), ("fastest", "+++++++", "full")):
        machine.keys(keys)
        same(f"the {what} speed", speed, machine.page.ask(
            "document.querySelector('#speed').selectedOptions[0]?.text"))
    return f"at full speed it answers in {1000 * slowest:.0f} ms"


def pace_of_writes(machine):
    """an endless run that writes a MiB at a time: the page answers, and pause"""
    machine.choose("three")
    machine.take_memory_of_exec()
    # write(1, 0, 1 MiB) again and again
    machine.edit("loop:\n00100513 00000593 00100637 04000893 00000073 fedff06f")
    slowest = run_and_pause(machine)
    machine.run("B")
    same("whether it is the first state", True, machine.is_first_state())
    return f"it answers in {1000 * slowest:.0f} ms"


def memory(machine):
    """memory as words and bytes, around sp, a label, an address, and the last store"""
    page = machine.page
    machine.choose("fibonacci")
    page.press("g")
    for _ in range(9):
        page.press("ArrowDown")
    machine.run("t")
    same("the log", ["7", "00000020", "sw ra, 12(sp)", "[0x0000fffc] ← 0x0000000c"],
         machine.rows("log")[0])
    same("the marked store", [["0000000c", "the last store"]], page.ask(
        "[...document.querySelectorAll('#memory .stored')]"
        ".map((cell) => [cell.textContent, cell.title])"))
    same("its letters", "................".replace(".", "·"), machine.rows("memory")[-1][-1])
    target = "document.querySelector('#memory .target').textContent"
    page.choose("#around", "label fib")
    same("memory at a label", ["00000010", "00200293"],
         [machine.rows("memory")[0][0], page.ask(target)])
    machine.leave_fields()
    machine.keys("m")
    same("memory as bytes", ["93", "00"], [page.ask(target), machine.rows("memory")[0][2]])
    machine.keys("m")
    page.choose("#around", "sp")
    same("memory at sp", ["0000fff0", "00000000"],
         [machine.register("x2").removeprefix("0x"), page.ask(target)])
    page.choose("#around", "pc")
    same("memory at the pc", "00812423", page.ask(target))
    machine.leave_fields()
    machine.keys("s")
    page.choose("#around", "store")
    same("memory at the last store", ["[0x0000fff8] ← 0x00000000", "0000fff0"],
         [machine.rows("log")[0][3], page.ask("document.querySelector('#memory .target')"
                                              ".closest('tr').firstChild.textContent")])
    machine.choose("three")
    same("the last store is not that of the program before", "1234b137", page.ask(target))
    machine.leave_fields()
    machine.choose("fibonacci")
    page.choose("#around", "label fib")
    machine.leave_fields()
    machine.choose("three")
    same("where there is no such label", ["sp", "1234b137"], [
        page.ask("document.querySelector('#around').value"), page.ask(target)])


def addresses(machine):
    """memory at an address that is typed: digits, labels, and what is none"""
    page = machine.page
    machine.choose("three")
    # a label that could be read as digits
    machine.edit("1234b137 13 13\nfade: 00100293 00000000")
    state = ("(() => { const field = document.querySelector('#address'); return ["
             "field.value, field.getAttribute('aria-invalid'), field.title,"
             " document.querySelector('#memory .target').textContent]; })()")
    nowhere = "No address or label of the memory. Memory goes from 0x00000000 to 0x0000ffff."
    machine.keys("a")
    for text, value in (("fade", "00100293"), ("0xc", "00100293"), ("0", "1234b137"),
                        ("3", "1234b137"), ("0000c", "00100293")):
        page.replace("#address", text)
        page.press("Enter")
        same(f"memory at {text}", [text, "false", "", value], page.ask(state))
    def refused(text):
        page.replace("#address", text)
        page.press("Enter")
        same(f"{text} is refused", [text, "true", nowhere], page.ask(state)[:3])

    for text in ("nowhere", "10000", "-4", "0xfffffffff"):
        refused(text)
        same(f"memory stays at {text}", "00100293", page.ask(state)[3])
    page.replace("#address", "fade")
    page.press("Enter")
    same("a label again, and no mark", ["fade", "false", ""], page.ask(state)[:3])
    refused("nowhere")
    machine.leave_fields()
    machine.keys("]")
    same("a page on, and no mark", ["0x00000080", "false", ""], page.ask(state)[:3])
    refused("nowhere")
    page.choose("#around", "sp")
    same("memory around sp, and no mark", ["false", "1234b137"],
         [page.ask(state)[1], page.ask(state)[3]])
    # a field that is left with what it had tells no change, so this is another text
    refused("elsewhere")
    machine.leave_fields()
    machine.choose("gcd")
    same("another program, and no mark", "false", page.ask(state)[1])
    page.replace("#address", "")
    page.press("Enter")
    machine.leave_fields()
    machine.choose("three")
    machine.edit("13", base="80000000")
    machine.keys("a")
    page.replace("#address", "8000fffc")
    page.press("Enter")
    last = f"{0x80010000 - 16 * len(machine.rows('memory')):08x}"
    same("the last word", ["false", last], [page.ask(state)[1], machine.rows("memory")[0][0]])
    machine.leave_fields()
    machine.keys("]]")
    same("no page behind the last", last, machine.rows("memory")[0][0])


CSRS = "Object.fromEntries([...$('csrs').children].map(({ children: [name, value] }) =>" \
    " [name.textContent, value.textContent]))"


def machine_mode(machine):
    """machine mode: a timer interrupts the example, CSRs are shown, and steps back take traps back"""
    page = machine.page
    machine.choose("three")
    same("whether CSRs are shown in other programs", False, page.ask("$('csrs').checkVisibility()"))
    page.ask("rrs.openExample('interrupts')")
    machine.leave_fields()
    same("what is shown at first", [True, "machine mode", {"0x00000000"}], [
        page.ask("$('csrs').checkVisibility()"),
        page.ask("$('calls').selectedOptions[0].textContent"), set(page.ask(CSRS).values())])
    machine.keys("sss")
    machine.says("Step 3", "csrrw zero, mtvec, t0: mtvec = 0x0000002c")
    same("a line", "csrrw zero, mtvec, t0", page.ask(
        "document.querySelector('#line-2 .instruction').textContent"))
    page.ask("rrs.session.toggleBreakpoint(rrs.session.addressOf('handler') / 4)")
    machine.run()
    machine.says("Breakpoint")
    same("the CSRs at the handler", {
        "mstatus": "0x00000080", "mtvec": "0x0000002c", "mie": "0x00000080", "mip": "0x00000080",
        "mepc": "0x00000024", "mcause": "0x80000007", "mtval": "0x00000000",
        "mscratch": "0x00000000", "time": "0x0000003b"}, page.ask(CSRS))
    same("the log", ["trap", "timer interrupt, mstatus = 0x00000080, mepc = 0x00000024, mcause = "
                     "0x80000007"], machine.rows("log")[0][2:])
    machine.keys("b")
    same("the CSRs a step before", ["0x00000000", "0x00000008"], [
        page.ask(CSRS)[name] for name in ("mcause", "mstatus")])
    machine.keys("s")
    machine.says("Step 60", "trap: timer interrupt, mstatus = 0x00000080, mepc = 0x00000024, mcause = "
                 "0x80000007")
    page.ask("rrs.session.toggleBreakpoint(rrs.session.addressOf('handler') / 4)")
    machine.run()
    machine.says("Exit", "The program ended by the store at 0x0000007c, with status 0.")
    same("what it prints", "12345", page.text("#output"))
    machine.keys("?")
    same("what Help tells", ["0x00100000", "finisher", "ends, where 0x5555 is stored"],
         machine.rows("call-table")[1])
    machine.escape()
    machine.run("B")
    same("at the start", {"0x00000000"}, set(page.ask(CSRS).values()))
    machine.keys("s")
    page.choose("#calls", "rars")
    same("where it is left the program begins anew", ["0 steps", False], [
        page.text("#steps"), page.ask("$('csrs').checkVisibility()")])
    machine.leave_fields()


TRIALS = [
    three_words, registers, radixes_and_counts, console, end_of_input, stops, clicks_on_lines,
    memory, addresses, long_listing, long_output, pace, pace_of_writes, c_programs, calls_as_proved,
    million_steps, more_than_is_kept, machine_mode,
]
