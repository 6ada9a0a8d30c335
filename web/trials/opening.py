"""Programs that are opened: files, the editor, links, and what is refused."""

import base64
import os
import pathlib
import struct
import tempfile
import time
import zlib

from trials.report import Differs, same
from trials.view import WEB, Subject, js

TOO_LONG = "A text of words has 8,388,608 bytes at most, and this one has more."
UNREADABLE = "can't be read: it is a folder, or it was changed after it was chosen."
WHAT_IS_OPEN = "addi a0, zero, 1071"


def drop(machine, name, content):
    """Drops a file on the page, as a mouse does."""
    page = machine.page
    with tempfile.TemporaryDirectory() as folder:
        path = pathlib.Path(folder) / name
        path.write_bytes(content)
        data = {"items": [], "files": [str(path)], "dragOperationsMask": 1}
        # what the page does not keep the browser from, it opens in the place of the page
        page.ask("globalThis.kept = {}; globalThis.watch = new AbortController();"
                 " for (const type of ['dragover', 'drop']) addEventListener(type,"
                 " (event) => { kept[type] = event.defaultPrevented; }, watch); null")
        # over the page, from one part of it to another, out of it, and over it again
        for leaves_to in ("document.body", "null", None):
            for kind in ("dragEnter", "dragOver"):
                page.send("Input.dispatchDragEvent", type=kind, x=300, y=300, data=data)
            if leaves_to is not None:
                page.ask("document.body.dispatchEvent(new DragEvent('dragleave',"
                         f" {{ bubbles: true, relatedTarget: {leaves_to} }}))")
            same(f"whether the page says to drop it, left to {leaves_to}", leaves_to != "null",
                 page.ask("!document.querySelector('#drop').hidden"))
        page.send("Input.dispatchDragEvent", type="drop", x=300, y=300, data=data)
        page.wait(f"document.querySelector('#program-title').textContent === {js(name)}")
    same("whether the browser is kept from the file", {"dragover": True, "drop": True},
         page.ask("kept"))
    page.ask("watch.abort()")
    same("whether the page still says so", True, page.ask("document.querySelector('#drop').hidden"))


def files(machine):
    """files: programs, texts, what is too long, what is empty, and one that is dropped"""
    with tempfile.TemporaryDirectory() as name:
        folder = pathlib.Path(name)
        (folder / "long.bin").write_bytes(bytes(65540))
        (folder / "full.bin").write_bytes(b"\x13\0\0\0" * 16384)
        (folder / "empty.bin").write_bytes(b"")
        (folder / "odd.bin").write_bytes(b"\x37\xb1\x34\x12\x01")
        (folder / "<b>words").write_text("1234b137\nf387e1b7 # <b>two\n")
        machine.choose("gcd")
        machine.give(folder / "long.bin")
        machine.says("Not opened", "long.bin was not opened. It has 65,540 bytes, and the memory "
                     "has 65,536. A larger memory can be chosen under More.")
        same("line 0, of what was open", WHAT_IS_OPEN, machine.line(0)[2])
        machine.give(folder / "empty.bin")
        machine.says("Not opened", "empty.bin is empty.")
        (folder / "program.hex").write_bytes(b"\x7fELF\x01")
        machine.give(folder / "program.hex")
        machine.says("Not opened", "program.hex was not opened. It is no executable for this "
                     "machine: the file ends within the ELF header.")
        (folder / "source.s").write_text("# a program\nli a0, 5\n")
        machine.give(folder / "source.s")
        machine.says("Ready", "4 bytes from 0x00000000 on.")
        machine.give(folder / "full.bin")
        machine.says("Ready", "65,536 bytes from 0x00000000 on.")
        machine.run()
        machine.says("Fetch fault")
        same("the steps", 16384, machine.steps())
        machine.give(folder / "odd.bin")
        same("the title", ["odd.bin", ""], [machine.page.text("#program-title"), machine.page.ask(
            "document.querySelector('#examples').value")])
        same("line 1", ["00000004", "00000001", "no instruction", ""], machine.line(1))
        same("how many lines", 3, machine.page.ask("document.querySelectorAll('.line').length"))
        machine.give(folder / "<b>words")
        same("line 1", "lui gp, 0xf387e000", machine.line(1)[2])
        same("a title and a comment are no HTML", ["<b>words", "<b>two"], [
            machine.page.text("#program-title"), machine.page.text("#line-1 .comment")])
    drop(machine, "dropped.bin", b"\x37\xb1\x34\x12")
    same("line 0", "lui sp, 0x1234b000", machine.line(0)[2])


def executable():
    """An executable in the ELF format with two functions: _start calls answer, and exits with what
    it gives, 42."""
    code = struct.pack("<5I", 0x00C000EF, 0x05D00893, 0x00000073, 0x02A00513, 0x00008067)
    names = b"\0_start\0answer\0"
    symbols = b"".join(struct.pack("<IIIBBH", *symbol) for symbol in (
        (0, 0, 0, 0, 0, 0), (1, 0x10054, 0, 0x10, 0, 1), (8, 0x10060, 8, 0x12, 0, 1)))
    at = 52 + 32
    symbols_at = at + len(code)
    names_at = symbols_at + len(symbols)
    header = struct.pack("<16sHHIIIIIHHHHHH", b"\x7fELF\1\1\1", 2, 243, 1, 0x10000 + at, 52,
                         names_at + 16, 0, 52, 32, 1, 40, 3, 0)
    segment = struct.pack("<8I", 1, 0, 0x10000, 0, symbols_at, symbols_at, 5, 4096)
    sections = bytes(40) + struct.pack(
        "<20I", 0, 2, 0, 0, symbols_at, len(symbols), 2, 1, 4, 16,
        0, 3, 0, 0, names_at, len(names), 0, 0, 1, 0)
    return header + segment + code + symbols + names.ljust(16, b"\0") + sections


def executables(machine):
    """files: an executable in the ELF format, chosen and dropped, with the names of its functions"""
    machine.choose("gcd")
    with tempfile.TemporaryDirectory() as name:
        path = pathlib.Path(name) / "answer"
        path.write_bytes(executable())
        machine.give(path)
    same("the title", ["answer", ""], [machine.page.text("#program-title"), machine.page.ask(
        "document.querySelector('#examples').value")])
    is_executable(machine)
    machine.run()
    machine.says("Exit", "The program ended by the ecall at 0x0001005c, with status 42.")
    machine.keys("l")
    machine.page.wait("document.querySelector('#shared').open")
    link = machine.page.ask("document.querySelector('#link').value")
    machine.page.click("#shared [data-close]")
    machine.choose("gcd")
    drop(machine, "dropped", executable())
    is_executable(machine)
    machine.choose_preset("2")
    same("pc and sp in another memory", ["0x00010054", "0x0001ffc0"],
         [machine.register("pc"), machine.register("x2")])
    follow(machine, link)
    is_executable(machine)


def is_executable(machine):
    """Compares what the page shows of the executable before its first step."""
    same("its memory", "1 MiB, sp at its end, as rrs exec has", machine.page.ask(
        "document.getElementById('preset').selectedOptions[0].text"))
    same("pc and sp", ["0x00010054", "0x0010ffc0"],
         [machine.register("pc"), machine.register("x2")])
    same("the labels", ["_start:", "answer:"],
         [machine.page.text(f"#line-{index} .label") for index in (21, 24)])
    same("the call", ["00010054", "00c000ef", "jal ra, answer", ""], machine.line(21))


def compressed_executables(machine):
    """files: an executable with compressed code, its listing, a breakpoint at 2 modulo 4, and a run back"""
    digits = (WEB / "trials" / "cases" / "twice.hex").read_text(encoding="ascii")
    machine.choose("gcd")
    drop(machine, "twice", bytes.fromhex(digits))
    machine.says("Ready")
    same("where it starts", "0x000100a2", machine.register("pc"))
    same("its first lines, by the numbers of their half-words", [
        ["000100a2", "1141", "c.addi sp, -16", ""], ["000100a4", "c606", "c.swsp ra, 12(sp)", ""],
        ["000100a6", "3fc9", "c.jal 0x00010078", ""], ["000100a8", "67c5", "c.lui a5, 0x00011000", ""],
        ["000100aa", "0ec78713", "addi a4, a5, 236", ""],
    ], [machine.line(index) for index in (0x51, 0x52, 0x53, 0x54, 0x55)])
    same("a second half has no line", 0, machine.page.ask(
        "document.querySelectorAll('#line-86').length"))
    tops = [machine.page.ask(f"document.getElementById('line-{index}').offsetTop")
            for index in (0x55, 0x57)]
    same("the next line is the next below", 24, tops[1] - tops[0])
    machine.page.click("#line-83 .gutter")
    machine.leave_fields()
    machine.run()
    machine.says("Breakpoint", "Stopped before a breakpoint at 0x000100a6, after 2 steps more.")
    machine.run()
    machine.says("Exit", "The program ended by the ecall at 0x000100de, with status 17.")
    same("what it prints", "twice\n", machine.page.text("#output"))
    machine.run("B")
    same("the pc and what is printed, a run back", ["0x000100a6", ""],
         [machine.register("pc"), machine.page.text("#output")])


def files_that_cannot_be_read(machine):
    """files: a folder, and one that was changed after it was chosen"""
    machine.choose("gcd")
    with tempfile.TemporaryDirectory() as name:
        folder = pathlib.Path(name)
        machine.give(folder)
        machine.says("Not opened", f"{folder.name} {UNREADABLE}")
        changed = folder / "changed.bin"
        changed.write_bytes(b"\x13\0\0\0")
        machine.page.ask("document.body.append(Object.assign("
                         "document.createElement('input'), { type: 'file', id: 'other' }))")
        machine.page.give_file("#other", changed)
        # the browser keeps what the file was like when it is asked for the first time
        same("the size of the file", 4, machine.page.ask(
            "document.querySelector('#other').files[0].size"))
        changed.write_bytes(b"\x13\0\0\0" * 2)
        os.utime(changed, (0, 0))
        machine.page.ask("rrs.openFiles(document.querySelector('#other').files)")
        machine.says("Not opened", f"changed.bin {UNREADABLE}")
        machine.page.ask("document.querySelector('#other').remove()")
    same("line 0, of what was open", WHAT_IS_OPEN, machine.line(0)[2])
    same("the file that is chosen", 0,
         machine.page.ask("document.querySelector('#file').files.length"))
    # a run that went on would say how far it is
    machine.choose("three")
    machine.edit("loop:\n0000006f # jal x0, loop")
    machine.page.press("r")
    with tempfile.TemporaryDirectory() as name:
        machine.give(pathlib.Path(name))
        machine.says("Not opened", f"{pathlib.Path(name).name} {UNREADABLE}")
        same("whether the program runs on", [False, 0], machine.page.ask(
            "(async () => { const { steps } = rrs.session.machine;"
            " await new Promise((done) => setTimeout(done, 100));"
            " return [rrs.session.isRunning, rrs.session.machine.steps - steps]; })()"))


def editor(machine):
    """the editor: words, labels, mistakes by their lines, memory, and how it is left"""
    page = machine.page
    machine.choose("gcd")
    for text, mistake in {
        "1234b137\n\nfoo": 'Line 3: "foo" is no word of 1 to 8 hexadecimal digits',
        "a:\n1\na: 2": "Line 3: the label a stands on line 1 too",
        "# nothing": "There is no word in it.",
    }.items():
        machine.edit(text)
        # once: in the list where a line has it, and else above
        same("the mistake", mistake, page.ask("$('mistake').textContent + $('mistakes').textContent"))
        machine.says("Not run", "What is wrong with the text stands below it.")
        machine.escape()
    same("line 0, of what was open", WHAT_IS_OPEN, machine.line(0)[2])
    machine.edit("go: 1234b137, f387e1b7 ; both", base="80000000")
    same("line 1", ["80000004", "f387e1b7", "lui gp, 0xf387e000", ""], machine.line(1))
    same("the label", "go:", page.text("#line-0 .label"))
    same("the pc", "0x80000000", machine.register("pc"))
    machine.keys("e")
    same("what stands in the editor, and where the cursor is",
         ["go: 1234b137, f387e1b7 ; both", "0x80000000", "65536", False, "text", 29],
         page.ask("['text', 'base', 'size'].map((id) => document.getElementById(id).value)"
                  ".concat(document.getElementById('stack').checked, document.activeElement.id,"
                  " document.getElementById('text').selectionStart)"))
    page.click("#to-listing")
    same("whether the editor is closed", False, page.ask(EDITOR_OPEN))


EDITOR_OPEN = "!document.querySelector('#editor').hidden"


def editor_by_keys(machine):
    """the editor: Enter in its fields and Ctrl+Enter load the program, and nothing is lost"""
    page = machine.page
    machine.choose("gcd")
    machine.keys("e")
    page.replace("#text", "00100293")
    machine.open_settings()
    page.replace("#base", "2")
    page.press("Enter")
    same("a base that is none", [True, "Memory can start at a multiple of 4 up to 0xfff00000.",
                                 "00100293"],
         [page.ask(EDITOR_OPEN), page.text("#mistake"), page.ask(
             "document.querySelector('#text').value")])
    page.replace("#base", "1000")
    page.press("Enter")
    machine.wait_closed()
    same("Enter in the first address", ["0x00001000", "addi t0, zero, 1"],
         [machine.register("pc"), machine.line(0)[2]])
    machine.keys("e")
    page.replace("#text", "00200293")
    page.press("Enter")
    page.type("00300293")
    page.press("Enter", "Ctrl")
    machine.escape()
    same("Ctrl and Enter in the text", ["addi t0, zero, 2", "addi t0, zero, 3"],
         [machine.line(0)[2], machine.line(1)[2]])
    machine.keys("e")
    page.choose("#size", "262144")
    page.click("#stack")
    page.click("#take")
    same("the stack at the end of memory", "0x00041000", machine.register("x2"))
    machine.keys("e")
    page.replace("#base", "0")
    page.choose("#size", "1048576")
    page.click("#stack")
    page.click("#take")
    same("1 MiB where sp is 0, which is none of the menu", ["0x00000000", ""],
         [machine.register("x2"), page.ask("document.querySelector('#preset').value")])


def in_time(what, action, *arguments):
    """Does something, which may take ten seconds, and gives its answer."""
    begun = time.monotonic()
    answer = action(*arguments)
    took = time.monotonic() - begun
    if took > 10:
        raise Differs(f"{what} took {took:.1f} s")
    return answer


def long_texts(machine):
    """long texts are read, or refused, in time"""
    machine.choose("gcd")
    for text, mistake in {
        r"'#'.repeat(100000) + '\u2028'": "There is no word in it.",
        "'13 '.repeat(300000)": "It has more than 1,048,576 bytes, and a memory has no more.",
        r"'\n'.repeat(1 << 23)": "There is no word in it.",
        r"'\n'.repeat((1 << 23) + 1)": TOO_LONG,
        r"('#' + '\u2028'.repeat(1365) + '\n').repeat(1 << 11)": TOO_LONG,
    }.items():
        same(f"the mistake in {text}", mistake, in_time(
            text, machine.page.ask, f"rrs.tryToOpen({{ name: 'long', text: {text} }})"))
    same("line 0, of what was open", WHAT_IS_OPEN, machine.line(0)[2])
    text = r"Array.from({ length: 100000 }, (_, at) => `a${at}:\n`).join('') + '13 # a\u2028b'"
    same("the mistake in many labels", "", in_time(
        "labels", machine.page.ask, f"rrs.tryToOpen({{ name: 'long', text: {text} }})"))
    same("the labels", "a0, a1, a2, a3, a4, a5, a6, a7, 99,992 more:",
         machine.page.text("#line-0 .label"))
    same("the choices of memory", 1004, machine.page.ask(
        "document.querySelector('#around').options.length"))
    same("the comment", "a\u2028b", machine.page.text("#line-0 .comment"))
    same("the last label", 0, machine.page.ask("rrs.session.addressOf('a99999')"))
    in_time("ten steps there and back", machine.keys, 10 * "sb")
    machine.says("Back at step 0", "Next: addi zero, zero, 0")


def link_to(text, fields=""):
    """The address of the page with a program in it."""
    packer = zlib.compressobj(9, wbits=-15)
    packed = base64.urlsafe_b64encode(packer.compress(text.encode()) + packer.flush())
    return f"{Subject.page.as_uri()}#{fields}program={packed.decode().rstrip('=')}"


def follow(machine, link):
    """Opens the page anew by a link."""
    machine.page.go("about:blank")
    machine.page.go(link)
    machine.page.wait_ready()


def links(machine):
    """a link holds the program and its memory, is copied, and a damaged one says so"""
    page = machine.page
    machine.choose("three")
    machine.edit("go: 00a00513 # ten\n05d00893 00000073", base="80000000")
    machine.keys("l")
    page.wait("document.querySelector('#shared').open")
    link = page.ask("document.querySelector('#link').value")
    note = page.text("#shared-note")
    same("its note", f"{len(link)} characters. It leads to a file of this computer: put the page "
         "on a server to send it.", note)
    page.browser.send("Browser.grantPermissions", permissions=["clipboardReadWrite",
                                                               "clipboardSanitizedWrite"])
    page.click("#copy")
    page.wait("document.querySelector('#shared-note').textContent.endsWith('clipboard.')")
    same("what is on the clipboard", link, page.ask("navigator.clipboard.readText()"))
    page.ask("navigator.clipboard.writeText = () => Promise.reject(); null")
    page.click("#copy")
    page.wait("!document.querySelector('#shared-note').textContent.endsWith('clipboard.')")
    same("where the browser refuses", ["The browser keeps the clipboard to itself: press Ctrl+C.",
                                       link], [page.text("#shared-note"), page.ask(
                                           "getSelection().toString()")])
    page.click("#shared [data-close]")
    words = [f"{0x9E3779B1 * number % 2**32:08x}" for number in range(1500)]
    follow(machine, link_to("\n".join(words)))
    machine.keys("l")
    page.wait("document.querySelector('#shared').open")
    length = page.ask("document.querySelector('#link').value.length")
    same("the note of a long one", f"{length:,} characters. Some programs that send mail cut such a "
         "long one. It leads to a file of this computer: put the page on a server to send it.",
         page.text("#shared-note"))
    page.click("#shared [data-close]")
    machine.choose("gcd")
    follow(machine, link)
    same("the program", ["Program of the link", "go: 00a00513 # ten\n05d00893 00000073", ""],
         [page.text("#program-title"), page.ask("rrs.session.text"),
          page.ask("document.querySelector('#examples').value")])
    machine.run()
    machine.says("Exit", "The program ended by the ecall at 0x80000008, with status 10.")
    page.ask(f"location.hash = {js(link_to('13 # by its hash').split('#', 1)[1])}")
    page.wait("rrs.session.text === '13 # by its hash'")
    follow(machine, link[:-9])
    machine.says("Not opened", "The link is damaged: its program can't be read.")
    same("line 0, of the first example", "auipc a0, 0x00000000", machine.line(0)[2])


def refused_links(machine):
    """links with long texts, and with addresses that are none, are refused at once"""
    not_opened = "Program of the link was not opened."
    at = f"{not_opened} Memory can start at a multiple of 4 up to 0xfff00000."
    size = f"{not_opened} Memory can have 65536, 262144, 1048576 bytes."
    for text, fields, sentence in (
        (100000 * "#" + "\u2028", "", f"{not_opened} There is no word in it."),
        (16000000 * "13\n", "", TOO_LONG), ("13", "base=&", at), ("13", "size=0x10000&", size),
    ):
        in_time("the link", follow, machine, link_to(text, fields))
        machine.says("Not opened", sentence)


TRIALS = [editor, editor_by_keys, files, executables, compressed_executables,
          files_that_cannot_be_read, long_texts]
LINKS = [links, refused_links]
