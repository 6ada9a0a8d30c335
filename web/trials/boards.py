"""A board in the page: an image is booted, typed into, paused, and booted again."""

import base64
import pathlib
import tempfile

from trials.report import same
from trials.view import js

# prints "hi", then each byte that arrives, and ends behind a q, with status 7
ECHO = """
        li s0, 0x10000000
        la s1, greeting
print:  lbu a0, 0(s1)
        beqz a0, echo
        sb a0, 0(s0)
        addi s1, s1, 1
        j print
echo:   lbu t0, 5(s0)
        andi t0, t0, 1
        beqz t0, echo
        lbu a0, 0(s0)
        sb a0, 0(s0)
        li t1, 113
        bne a0, t1, echo
        li t0, 0x100000
        li t1, 0x73333
        sw t1, 0(t0)
greeting: .string "hi\\r\\n"
"""
HIDDEN = "['controls', 'main'].map((id) => getComputedStyle(document.getElementById(id)).display)"


# the first address of what is shown of RAM, and its word
ROW = "[...$('board-memory').rows[0].cells].slice(0, 2).map(({ textContent }) => textContent)"


def image(page, text):
    """What a text assembles to from the start of RAM on, by the page's own assembler."""
    return base64.b64decode(page.ask(
        f"btoa(String.fromCharCode(...rrs.session.machine.kit.assemble({js(text)}, RAM_START).bytes))"))


def give(page, name, content):
    """Chooses a file as an image for the board."""
    with tempfile.TemporaryDirectory() as folder:
        path = pathlib.Path(folder) / name
        path.write_bytes(content)
        page.give_file("#image", path)
        page.wait("document.querySelector('#image').value === ''")


def shows(page, text):
    page.wait(f"document.querySelector('#printed').textContent === {js(text)}")


def board(machine):
    """a board: an image is booted, typed into, paused, stepped, booted again and closed"""
    page = machine.page
    machine.choose("three")
    give(page, "echo.bin", image(page, ECHO))
    shows(page, "hi\n")
    same("what is shown", ["echo.bin", "It runs.", "Pause", ["none", "none"]],
         [page.text("#board-title"), page.text("#board-state"), page.text("#board-run"),
          page.ask(HIDDEN)])
    same("where the focus is", "terminal", page.ask("document.activeElement.id"))
    for key in "sb?":
        page.press(key)
    shows(page, "hi\nsb?")
    page.press("Enter")
    page.press("Tab")
    same("where Tab leads", "board-line", page.ask("document.activeElement.id"))
    page.type("line")
    page.press("Enter")
    shows(page, "hi\nline")
    page.click("#board-run")
    page.wait("document.querySelector('#board-state').textContent === 'It is paused.'")
    steps = page.ask("rrs.board.board.steps")
    page.click("#board-step")
    page.wait(f"rrs.board.board.steps === {steps + 1}")
    page.wait(f"document.querySelector('#board-steps').textContent.startsWith("
              f"({steps + 1}).toLocaleString('en') + ' steps, ')")
    page.replace("#board-stops", "80000020, x")
    page.press("Tab")
    same("what is no address", "Addresses are wanted, which are multiples of 2, as 0x80000010.",
         page.ask("$('board-stops').title"))
    page.replace("#board-stops", "0x80000020")
    page.press("Tab")
    page.click("#board-run")
    page.wait("document.querySelector('#board-state').textContent === 'It stopped before 0x80000020.'")
    page.replace("#board-stops", "")
    page.press("Tab")
    same("RAM from its start on", ["80000000", "10000437"], page.ask(ROW))
    page.replace("#board-address", "pc")
    page.press("Tab")
    same("at the pc", ["80000020", "00544283"], page.ask(ROW))
    page.replace("#board-address", "0")
    page.press("Tab")
    same("where there is no RAM", ["true", "80000020"], page.ask(
        f"[$('board-address').ariaInvalid, {ROW}[0]]"))
    page.replace("#board-address", "0x81fffff0")
    page.press("Tab")
    same("at its end", "81ffffa0", page.ask(f"{ROW}[0]"))
    page.click("#board-run")
    page.click("#terminal")
    page.press("q")
    page.wait("document.querySelector('#board-state').textContent"
              " === 'It was powered off, with status 7.'")
    page.click("#board-reset")
    shows(page, "hi\n")
    page.click("#board-close")
    same("the program again", [False, "Ready"],
         [page.ask("rrs.board.isOpen"), page.text("#heading")])
    same("no board runs", False, page.ask("rrs.board.board.isRunning"))


def refused(machine):
    """a board: what is no image for it is refused, and a program that is opened closes it"""
    page = machine.page
    machine.choose("three")
    give(page, "long.bin", bytes(33_488_897))
    page.wait("document.querySelector('#heading').textContent === 'Not opened'")
    machine.says("Not opened", "long.bin was not opened. It has 33,488,897 bytes, and RAM has "
                 "33,488,896.")
    give(page, "echo.bin", image(page, ECHO))
    shows(page, "hi\n")
    with tempfile.TemporaryDirectory() as folder:
        path = pathlib.Path(folder) / "other.s"
        path.write_text("li a0, 5\n", encoding="utf-8")
        machine.give(path)
    machine.says("Ready", "4 bytes from 0x00000000 on.")
    same("whether the board is open", False, page.ask("rrs.board.isOpen"))


TRIALS = [board, refused]
