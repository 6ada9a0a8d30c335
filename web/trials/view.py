"""The page, as those who use the machine see it."""

import json
import pathlib

from trials.examples import PROGRAMS
from trials.report import same

WEB = pathlib.Path(__file__).resolve().parent.parent
EXPECTED = WEB / "trials" / "expected"
SIZE = (1360, 900)

NOTHING = "Nothing was changed by it."


class Subject:
    """What is tried: the page as it was built, the folder of its scripts, and the module in it; and
    where pictures of it are put."""

    page = WEB / "out" / "rrs.html"
    scripts = WEB
    module = WEB / "out" / "rrs_c.wasm"
    pictures = WEB / "out"


class Machine:
    """A page that is open, and what is done with it by keys, clicks and typed text."""

    def __init__(self, page):
        self.page = page

    def choose(self, example):
        """Opens a program of the trials."""
        self.page.ask(f"rrs.closeLesson(); rrs.open({js(PROGRAMS[example])}, {{}}); null")
        self.leave_fields()
        self.page.wait_drawn()

    def clean(self):
        """Has everything that a person can set as it is when the page opens, but the program."""
        self.page.ask(CLEAN)

    def leave_fields(self):
        self.page.ask("document.activeElement.blur()")

    def keys(self, keys):
        for key in keys:
            self.page.press(key)

    def run(self, key="r", seconds=60):
        """Runs the program, and waits for its end, and for the verdict of an exercise."""
        self.page.press(key)
        self.page.wait("!rrs.session.isRunning"
                       " && rrs.lesson.exercise?.checking !== rrs.lesson.turn", seconds)

    def says(self, heading, sentence=None):
        same("the heading", heading, self.page.text("#heading"))
        if sentence is not None:
            same("the sentence", sentence, self.page.text("#sentence"))

    def steps(self):
        return int(self.page.text("#steps").split()[0].replace(",", ""))

    def registers(self):
        """The pc and x1 to x31, as the page has them in hexadecimal."""
        return self.page.ask("[...document.querySelectorAll('.register .value')]"
                             ".map((value) => value.textContent)")

    def register(self, name):
        return self.page.text(f"#{name} .value")

    def marked(self):
        """The registers that are marked as the last written."""
        return self.page.ask(
            "[...document.querySelectorAll('.register.last')].map((cell) => cell.id)")

    def line(self, index):
        """The texts of a line of the program: address, word, instruction, how often executed."""
        return self.page.ask(
            f"['.address', '.word', '.instruction', '.count'].map((part) =>"
            f" document.querySelector('#line-{index} ' + part).textContent)")

    def rows(self, table):
        return self.page.ask(f"[...document.querySelectorAll('#{table} tbody tr')].map((row) =>"
                             " [...row.children].map((cell) => cell.textContent))")

    def give(self, path):
        """Gives a file to the page, and waits until the page has done with it: it was told of the
        file, has emptied the field, and was drawn. A lesson takes room from what is beside it."""
        self.page.ask("globalThis.given = false; document.querySelector('#file')"
                      ".addEventListener('change', () => { given = true; }, { once: true }); null")
        self.page.give_file("#file", path)
        self.page.wait("given && document.querySelector('#file').files.length === 0")
        self.page.wait_drawn()

    def edit(self, text, base=None):
        """Types a program into the editor, and loads it."""
        self.leave_fields()
        self.page.press("e")
        self.page.replace("#text", text)
        if base is not None:
            self.open_settings()
            self.page.replace("#base", base)
        self.page.click("#take")
        self.page.wait_drawn()

    def open_settings(self):
        """Shows what the editor has of the memory."""
        self.page.ask("document.getElementById('settings').open = true")

    def escape(self):
        """Leaves a dialog, or the editor, by its key. The editor may lie below a dialog."""
        was_dialog = self.page.ask("document.querySelector('dialog[open]') !== null")
        self.page.press("Escape")
        if was_dialog:
            self.page.wait("document.querySelector('dialog[open]') === null"
                           " && !document.activeElement.closest('dialog')")
            self.leave_fields()
            self.page.wait_drawn()
        else:
            self.wait_closed()

    def wait_closed(self):
        """Waits until no dialog is open, and no editor. The focus leaves a dialog when the page is
        drawn next."""
        self.page.wait("document.querySelector('dialog[open]') === null"
                       " && !document.activeElement.closest('dialog, #editor')"
                       " && document.getElementById('editor').hidden")
        self.leave_fields()
        self.page.wait_drawn()

    def show(self, panel):
        """Shows one of the panels of details."""
        self.page.ask(f"rrs.tabs.show({js(panel)})")

    def take_memory_of_exec(self):
        """Takes 1 MiB of memory with sp at its end, as rrs exec has it."""
        self.choose_preset("1")

    def choose_preset(self, number):
        """Chooses a memory in the menu of rare things."""
        self.page.ask("document.getElementById('more').open = true")
        self.page.choose("#preset", number)
        self.leave_fields()

    def is_first_state(self):
        return self.page.ask(FIRST_STATE)


CLEAN = """(() => {
    rrs.session.stop();
    if (rrs.board.isOpen) rrs.board.close();
    for (const dialog of document.querySelectorAll("dialog[open]")) dialog.close();
    rrs.closeLesson();
    rrs.work.clear();
    rrs.editor.close();
    $("settings").open = false;
    rrs.work.unsaved.clear();
    $("more").open = false;
    rrs.tabs.show("memory");
    document.activeElement.blur();
    document.documentElement.removeAttribute("data-theme");
    document.getElementById("keys-on").checked = true;
    for (const name of ["input", "address"]) document.getElementById(name).value = "";
    rrs.markAddress(true);
    rrs.setSpeed(SPEEDS.length - 1);
    rrs.setRadix("hex");
    rrs.setNames("abi");
    rrs.setUnit(4);
    rrs.memory.around = "sp";
    rrs.memory.open();
    rrs.render();
    scrollTo(0, 0);
})()"""

FIRST_STATE = """(() => {
    const { kit, program, history, executed, kinds, terminal, hasStack } = rrs.session.machine;
    const sp = hasStack ? kit.base + kit.size : 0;
    return kit.x.every((value, number) => value === (number === 2 ? sp : 0))
        && kit.pc === kit.base && kit.last === 0
        && kit.words.every((word, at) => word === (program[at] ?? 0)) && history.length === 0
        && executed.every((count) => count === 0) && kinds.every((count) => count === 0)
        && terminal.printed === 0 && terminal.held === 0 && terminal.taken === 0
        && terminal.port === 0;
})()"""


# what the page has kept of before goes, and what other pages keep stays
FORGET = """try {
    for (const key of Object.keys(localStorage)) {
        if (key.startsWith("rrs.")) localStorage.removeItem(key);
    }
    sessionStorage.removeItem("rrs.latest");
} catch {}"""


def opened(browser, address, keeps=False):
    """A page that was opened anew, and has started: with nothing kept of before, unless it keeps."""
    page = browser.open("about:blank", *SIZE)
    if not keeps:
        page.send("Page.addScriptToEvaluateOnNewDocument", source=FORGET)
    page.go(address)
    page.wait_ready()
    return Machine(page)


def js(value):
    return json.dumps(value)
