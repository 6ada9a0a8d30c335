"""How the page looks, and what it says to those who don't see it: roles, names and states, the
focus, contrast, boxes, and pictures."""

import collections
import itertools
import re

from trials.report import Differs, same
from trials.teaching import LESSON
from trials.view import EXPECTED, SIZE, WEB, Subject, opened

# functions that are run in the page
SEEN = (WEB / "trials" / "seen.js").read_text(encoding="utf-8").strip()

# what a line of the list has of a node of the accessibility tree
ROLES = {
    "RootWebArea", "alert", "banner", "button", "cell", "checkbox", "columnheader", "combobox",
    "contentinfo", "dialog", "form", "group", "heading", "image", "link", "list", "listbox", "listitem",
    "log", "main", "navigation", "option", "region", "row", "rowheader", "status", "tab", "table",
    "tablist", "tabpanel", "textbox", "toolbar",
}
STATES = {"checked", "disabled", "invalid", "busy", "live", "level", "keyshortcuts", "modal",
          "readonly", "focused", "multiline", "selected"}


def value_of(node, name):
    return node.get(name, {}).get("value", "")


def said(node):
    """A node as it is said: role, name, value, description and states."""
    words = [value_of(node, "role"), repr(value_of(node, "name"))]
    if value_of(node, "description") not in ("", value_of(node, "name")):
        words.append(f"described {value_of(node, 'description')!r}")
    for prop in node.get("properties", []):
        state = prop["value"].get("value")
        if prop["name"] in STATES and state not in (False, "false", "off", "", None):
            words.append(f"{prop['name']}={state}")
    return " ".join(map(str, words))


def tree(page, inside=None):
    """The lines of the accessibility tree, or those inside nodes of a role alone."""
    nodes = page.send("Accessibility.getFullAXTree")["nodes"]
    by_id = {node["nodeId"]: node for node in nodes}
    lines = []

    def walk(node, depth, is_in):
        role = value_of(node, "role")
        is_in = is_in or role == inside
        is_shown = not node.get("ignored") and role in ROLES and (is_in or inside is None)
        if is_shown:
            lines.append("  " * depth + said(node))
        for child in node.get("childIds", []):
            if child in by_id:
                walk(by_id[child], depth + is_shown, is_in)

    walk(nodes[0], 0, False)
    return [line if count == 1 else f"{line} ({count} times)" for line, count in
            ((line, len(list(same_lines))) for line, same_lines in itertools.groupby(lines))]


DIALOGS = {"shared": "l", "help": "?", "change": "u", "keeping": "K"}


def listeners(page):
    """How many listeners the page has of each event."""
    counts = collections.Counter()
    for target, depth in (("window", 1), ("document", -1)):
        of = page.send("Runtime.evaluate", expression=target)["result"]["objectId"]
        found = page.send("DOMDebugger.getEventListeners", objectId=of, depth=depth)["listeners"]
        counts.update(f"{target}: {listener['type']}" for listener in found)
    return [f"{event} {count}" for event, count in sorted(counts.items())]


MENUS = """[...document.querySelectorAll("select")].map(({ id, options }) => `${id}: ${
    [...options].map(({ text, hidden }) => (hidden ? `(${text})` : text)).join(", ")}`)"""
TITLES = """[...document.querySelectorAll("[title]")]
    .filter((element) => element.title && !element.closest("#listing, #memory, #frames"))
    .map(({ id, dataset, tagName, title }) => `${id || dataset.action || tagName}: ${title}`)"""


def trees(machine):
    """The trees of the page and of its dialogs, what its fields are, what menus and titles say, and the
    events that it listens to, as one text."""
    page = machine.page
    page.ask("rrs.work.clear()")
    machine.choose("three")
    machine.keys("gsk")
    page.replace("#address", "nowhere")
    page.press("Enter")
    machine.leave_fields()
    parts = ["the page", *tree(page)]
    for name, key in DIALOGS.items():
        page.press(key)
        page.wait(f"document.querySelector('#{name}').open")
        parts += ["", f"the dialog {name}", *tree(page, "dialog")]
        machine.escape()
    machine.keys("e")
    parts += ["", "the editor", *tree(page, "form")]
    machine.escape()
    for panel in ("frames", "log", "counts", "bitmap"):
        machine.show(panel)
        parts += ["", f"the panel {panel}", *tree(page, "tabpanel")]
    machine.show("memory")
    page.click("#more summary")
    parts += ["", "the menu of rare things", *tree(page, "banner")]
    machine.leave_fields()
    page.ask("$('more').open = false")
    parts += ["", "the page and its fields", *page.ask(f"{SEEN}.fields()")]
    parts += ["", "the menus", *page.ask(MENUS), "", "the titles", *page.ask(TITLES)]
    parts += ["", "the events", *listeners(page)]
    # the length of a link is that of a path
    return re.sub(r"\d+ characters", "N characters", "\n".join(parts)) + "\n"


def accessibility_tree(machine):
    """roles, names and states are those that are stored"""
    page = machine.page
    stored = (EXPECTED / "tree.txt").read_text(encoding="utf-8").splitlines()
    got = trees(machine).splitlines()
    same("how many lines the tree has", len(stored), len(got))
    for wanted, line in zip(stored, got):
        same("a line of the tree", wanted, line)
    page.replace("#address", "")
    page.press("Enter")
    machine.leave_fields()


FOCUS = """(() => {
    const at = document.activeElement;
    const { outlineStyle, outlineWidth, outlineColor } = getComputedStyle(at);
    const name = at.id || at.dataset.action || at.getAttribute("aria-labelledby")
        || (at.matches("[data-close]") ? "close" : at.tagName.toLowerCase());
    return [name, `${outlineStyle} ${outlineWidth}`, outlineColor];
})()"""


def tab_order(page, key="Tab", held=()):
    """Where the focus goes until it comes back to the page, and that it can be seen there."""
    order = []
    while len(order) < 80:
        page.press(key, *held)
        name, ring, _ = page.ask(FOCUS)
        if name == "body" or (order and name == order[0]):
            return order
        same(f"the ring of {name}", "solid 2px", ring)
        order.append(name)
    raise Differs(f"the focus does not come back: {order}")


FOCUS_ORDER = [
    "examples", "open", "save", "link", "keys", "summary", "runBack", "stepBack", "step",
    "stepOver", "stepOut", "run", "pause", "runToOutput", "runToLine", "reset", "speed",
    "breakpoint", "edit", "listing", "names", "radix", "change", "calls", "output", "input",
    "button", "endInput", "tab-memory", "around", "address", "unit", "memoryUp", "memoryDown",
    "panel-memory", "a",
]
FOCUS_IN = {
    "shared": ["link", "close", "copy"],
    "help": ["first-lesson", "class-copy", "keys-on", "close"],
    "change": ["place", "value", "close", "set"],
    "keeping": ["input", "button", "export", "import", "close"],
}


def focus(machine):
    """Tab goes to each part in order and back, the ring is seen, and dialogs keep the focus"""
    page = machine.page
    machine.choose("three")
    page.ask("(() => { document.activeElement.blur(); getSelection().removeAllRanges(); })()")
    # the header, and not the buttons that stay above where the page is scrolled
    page.ask("scrollTo(0, 0)")
    page.wait("document.elementFromPoint(3, 3).closest('header') !== null")
    page.click_at([3, 3])
    same("the order of the focus", FOCUS_ORDER, tab_order(page))
    page.ask("$('more').open = true; $('more').firstElementChild.focus()")
    same("the order in the menu of rare things",
         ["preset", "create", "kept", "boot", "theme", "clear"],
         [page.press("Tab") or page.ask(FOCUS)[0] for _ in range(6)])
    for name, key in DIALOGS.items():
        machine.leave_fields()
        page.press(key)
        page.wait(f"document.querySelector('#{name}').open")
        first = page.ask(FOCUS)[0]
        order = [first]
        while len(order) < len(FOCUS_IN[name]):
            page.press("Tab")
            order.append(page.ask(FOCUS)[0])
        same(f"the order of the focus in {name}", FOCUS_IN[name], order)
        machine.escape()


# ---- contrast

TEXT_CONTRAST = 4.5
MARK_CONTRAST = 3


# a source in which each colour is used, and a mistake
FAULTS = "main: la t2, x\n  lw t1, 0(t2)\n  li t0, 0x40000000\n  lw t1, 0(t0)\n.data\nx: .word 7\n"
COLOURED = "loop: li a0, 5 # so\n.ascii \"a\"\n  nothing\n"


# two who hand in the same
TWO_HAND_IN = """rrs.openFiles(["Ada", "Bo"].map((name) => new File([`handed in: Functions, arrays and strings
by: ${name}

exercise 1: Twice a number
try: 1 of 3 right
| main: nop
`], `${name}.txt`)))"""


def show_all(machine):
    """Puts the page into states in which each colour is used, one after another."""
    page = machine.page
    machine.choose("fibonacci")
    page.click("#line-13 .gutter")
    page.click("#line-6 .gutter")
    machine.leave_fields()
    machine.run()
    yield "wait"
    machine.keys("sssm")
    page.choose("#around", "store")
    page.press("Tab")
    yield "bytes"
    page.mouse("mouseMoved", page.middle("#line-7 .address"))
    yield "hover"
    machine.leave_fields()
    machine.keys("m")
    page.click("#line-6 .gutter")
    page.click("#line-13 .gutter")
    machine.leave_fields()
    machine.run()
    yield "done"
    machine.choose("illegal")
    machine.run()
    page.replace("#address", "nowhere")
    page.press("Enter")
    yield "end"
    machine.leave_fields()
    machine.choose("console")
    machine.run()
    yield "waiting"
    machine.edit("nothing")
    yield "mistake"
    page.choose("#language", "assembly")
    page.replace("#text", COLOURED)
    # as many mistakes has the text that was there before
    page.wait("$('mistakes').textContent.includes('Line 3')")
    machine.open_settings()
    yield "source"
    machine.escape()
    yield "not loaded"
    machine.keys("r")
    page.wait("$('heading').textContent === 'Not run'")
    yield "not run"
    page.replace("#text", FAULTS)
    page.press("Enter", "Ctrl")
    page.wait("$('heading').textContent === 'Load fault'")
    page.ask("rrs.session.toggleStopsOf(4)")
    yield "fault of the text"
    page.click("[data-action=stepBack]")
    yield "next of the text"
    machine.leave_fields()
    machine.keys("K")
    yield "what is kept"
    machine.escape()
    page.ask("rrs.showListing()")
    page.ask("rrs.openExample('ecall')")
    machine.run()
    page.click("#more summary")
    yield "calls that are meant, and the menu"
    machine.leave_fields()
    page.ask("$('more').open = false; rrs.work.isFull = true; rrs.work.show(); null")
    yield "no room"
    page.ask("rrs.work.isFull = false; rrs.work.show(); rrs.openExample('interrupts')")
    machine.run()
    yield "machine mode"
    machine.give(LESSON)
    page.wait("!document.getElementById('lesson').hidden")
    yield "lesson"
    machine.run()
    yield "not solved"
    page.ask("rrs.lesson.exercise.cases[0].registers = []; rrs.lesson.check()")
    yield "solved"
    machine.give(LESSON.with_name("functions.txt"))
    page.wait("rrs.lesson.lesson.exercises.length === 5")
    machine.keys("HC")
    page.wait("document.querySelectorAll('#exercise-cases li').length === 3")
    page.ask("rrs.lesson.exercise.told[0].misses = byNames(() => []); rrs.lesson.show()")
    yield "cases and hints"
    page.press("D")
    page.wait("document.querySelector('#shared').open")
    yield "hand in"
    machine.escape()
    page.ask(TWO_HAND_IN)
    page.wait("document.querySelector('#grades').open")
    yield "grades"
    machine.escape()
    machine.choose("convention")
    machine.run()
    for panel in ("frames", "log", "counts", "bitmap"):
        machine.show(panel)
        yield panel
    machine.show("memory")
    for name, key in DIALOGS.items():
        page.press(key)
        page.wait(f"document.querySelector('#{name}').open")
        yield name
        machine.escape()
    page.ask("(() => { refuseBrowser('No machine.'); $('drop').hidden = false; })()")
    yield "refusal"
    page.ask("$('refusal').hidden = $('drop').hidden = true;"
             " for (const id of PARTS) $(id).hidden = false; null")


def seen_in(machine, dark):
    """How each kind of element looks in the states of `show_all`, and the contrast of each text and
    mark, by its state."""
    page = machine.page
    looks, contrasts = set(), {}
    theme_of = "dark" if dark else "light"
    machine.clean()
    page.prefer(dark)
    for state in show_all(machine):
        found, ratios = page.ask(f"(({{ looks, contrasts }}) => [looks(), contrasts()])({SEEN})")
        looks.update(f"{theme_of} {look}" for look in found)
        contrasts[f"{theme_of}, {state}"] = ratios
    page.prefer(False)
    return looks, contrasts


def looks_and_contrast(machine, dark):
    looks, contrasts = seen_in(machine, dark)
    low = {f"{what}, {state}": round(ratio, 2) for state, ratios in contrasts.items()
           for what, ratio in ratios.items()
           if ratio < (MARK_CONTRAST if what.startswith("mark") else TEXT_CONTRAST)}
    same("what has too little contrast", {}, low)
    same("how many texts and marks were looked at", LOOKED_AT,
         len(set().union(*contrasts.values())))
    lines = (EXPECTED / "looks.txt").read_text(encoding="utf-8").splitlines()
    stored = {line for line in lines if line.startswith("dark") == dark}
    same("what looked so, and what looks so now", [[], []],
         [sorted(stored - looks)[:5], sorted(looks - stored)[:5]])


def light(machine):
    """each kind of element looks as is stored, with a contrast of 4.5 (texts) or 3 (marks)"""
    looks_and_contrast(machine, False)


def dark(machine):
    """and in the dark"""
    looks_and_contrast(machine, True)


def write(machine):
    """Writes the trees and the looks of a page anew."""
    (EXPECTED / "tree.txt").write_text(trees(machine), encoding="utf-8")
    lines = sorted(seen_in(machine, False)[0] | seen_in(machine, True)[0])
    (EXPECTED / "looks.txt").write_text("\n".join([*lines, ""]), encoding="utf-8")


LOOKED_AT = 147

# ---- boxes and marks

WANTED_MARKS = {
    "dot": ["1", "50%", True, True], "noDot": "0", "pc": True, "edge": "4px", "selected": True,
    "last": True, "bold": "700", "changed": True, "target": True,
    "output": ["pre-wrap", "anywhere"], "letters": "pre", "code": True, "disabled": True,
    "sticky": "sticky", "instruction": True,
}

ALL_IN_PLACE = {"cut": [], "controls": [], "overlaps": [], "isWide": False}
WIDTHS = ((1360, 900), (1080, 800), (900, 900), (768, 1024), (560, 900), (430, 900),
          (360, 740))

# how many words, and how many bytes, a row of memory has at these widths; and whether rows fit
IN_A_ROW = {1360: [4, 16], 1080: [4, 16], 900: [4, 16], 768: [4, 16], 560: [4, 8], 430: [2, 8],
            360: [2, 8]}
ROWS = """[1, 4].map(() => {
    rrs.act("unit");
    const { parentElement: { scrollWidth, clientWidth }, rows } = $("memory");
    return [rows[0].cells.length - 2, scrollWidth <= clientWidth];
}).reverse()"""


def show_fibonacci(machine):
    """Runs an example to a breakpoint twice, and makes a few steps more."""
    machine.choose("fibonacci")
    machine.page.click("#line-13 .gutter")
    machine.leave_fields()
    machine.run()
    machine.run()
    machine.keys("ssss")


def show_source(machine):
    """Opens a program of assembly, and makes a step."""
    machine.give(WEB.parent / "examples" / "assembly" / "hello.s")
    machine.keys("s")


def show_lesson(machine):
    """Opens a lesson, and runs its first program."""
    machine.give(LESSON)
    machine.page.wait("!document.getElementById('lesson').hidden")
    machine.run()


def boxes(machine):
    """marks are seen, and nothing is cut off, covered, or wider than the page, at seven widths"""
    page = machine.page
    show_fibonacci(machine)
    for width, height in WIDTHS:
        page.resize(width, height)
        page.ask("scrollTo(0, 0)")
        page.wait("$('memory').rows[0].cells.length - 2 ==="
                  " ($('memory').parentElement.clientWidth < 440 ? 2 : 4)")
        page.wait("['.line.stop', '.line.pc'].every((line) => document.querySelector(line))")
        for dark in (True, False):
            page.prefer(dark)
            same(f"the marks at {width}, {'dark' if dark else 'light'}", WANTED_MARKS,
                 page.ask(f"{SEEN}.marks()"))
        same(f"menus in which one can't read at {width}", [], page.ask(
            "[...document.querySelectorAll('select')].filter((menu) => menu.checkVisibility() &&"
            " parseFloat(getComputedStyle(menu).fontSize) < 10).map(({ id }) => id)"))
        for _ in range(4):
            same(f"the boxes at {width}", ALL_IN_PLACE, page.ask(f"{SEEN}.boxes()"))
            machine.keys("n")
        same(f"rows of memory at {width}", [[count, True] for count in IN_A_ROW[width]],
             page.ask(ROWS))
        page.ask("scrollTo(0, 400)")
        same(f"the buttons at {width}, scrolled down", 0, page.ask(
            "document.querySelector('.controls').getBoundingClientRect().top"))
        page.ask("scrollTo(0, 0)")
        for name in DIALOGS:
            page.ask(f"document.getElementById('{name}').showModal()")
            same(f"the dialog {name} at {width}", True, page.ask(f"""(() => {{
                const {{ left, right, top, bottom }} =
                    document.getElementById("{name}").getBoundingClientRect();
                return left >= 0 && right <= innerWidth && top >= 0 && bottom <= innerHeight;
            }})()"""))
            page.ask(f"document.getElementById('{name}').close()")
    page.resize(*SIZE)
    machine.keys("s")
    same("the log", "[0x0000ffdc] ← 0x00000038", machine.rows("log")[0][3])
    same("a stored word", ["700", True, True], page.ask(f"{SEEN}.storedMark()"))


def boxes_of_a_lesson(machine):
    """with a lesson and a source nothing is cut off, covered, or wider than the page either"""
    page = machine.page
    machine.give(LESSON)
    page.wait("!document.getElementById('lesson').hidden")
    machine.run()
    for width, height in WIDTHS:
        page.resize(width, height)
        page.ask("scrollTo(0, 0)")
        same(f"the boxes at {width} of the text", ALL_IN_PLACE, page.ask(f"{SEEN}.boxes()"))
    page.resize(*SIZE)
    page.click("#to-listing")
    for width, height in WIDTHS:
        page.resize(width, height)
        page.ask("scrollTo(0, 0)")
        same(f"the boxes at {width}", ALL_IN_PLACE, page.ask(f"{SEEN}.boxes()"))
        same(f"the instructions that are cut at {width}", [], page.ask(
            "[...document.querySelectorAll('.line .instruction')].filter((part) =>"
            " part.scrollWidth > part.clientWidth).map((part) => part.textContent)"))
        same(f"what a step did, beside others, at {width}", [], page.ask(
            "[...document.querySelectorAll('#log td:last-child')].filter((cell) =>"
            " cell.getBoundingClientRect().right > innerWidth).map((cell) => cell.textContent)"))
        same(f"the source beside an instruction at {width}", ["li   a2, count", True], page.ask(
            "(({ textContent, clientWidth, scrollWidth }) => [textContent, clientWidth > 60 &&"
            " scrollWidth <= clientWidth])(document.querySelector('#line-2 .source'))"))
    page.resize(*SIZE)
    machine.keys("q")


def one_screen(machine):
    """at 1366 x 650 listing, registers, console and details are on one screen, with a lesson too"""
    page = machine.page
    for height, shows in ((768, (show_fibonacci, show_source, show_lesson)),
                          (650, (show_fibonacci, show_source, show_lesson))):
        page.resize(1366, height)
        for show in shows:
            show(machine)
            page.ask("scrollTo(0, 0)")
            what = f"{show.__name__} at {height}"
            same(f"what is not on the screen of {what}", [], page.ask(f"{SEEN}.notInView()"))
            same(f"what scrolls sideways of {what}", [], page.ask(
                "[...document.querySelectorAll('.scroll, #listing')].filter((panel) =>"
                " panel.scrollWidth > panel.clientWidth)"
                ".map((panel) => panel.firstElementChild.id)"))
            same(f"whether a line of the console has 60 letters of {what}", True, page.ask(COLUMNS))
    machine.keys("q")
    page.resize(*SIZE)


# how many letters a line of the console has room for
COLUMNS = """(() => {
    const probe = $("output").appendChild(document.createElement("span"));
    probe.textContent = "m".repeat(60);
    const isThere = probe.getClientRects().length === 1;
    probe.remove();
    return isThere;
})()"""


def first_look(browser):
    """the page opens with a program that prints Hello, one row above it, and no empty panel"""
    machine = opened(browser, Subject.page.as_uri())
    page = machine.page
    same("what is open", ["hello", "Hello", "Ready", "0x00010000"], [
        *page.ask("[$('examples').value, rrs.session.name, $('heading').textContent]"),
        machine.register("x2")])
    for width in (1920, 1366, 768, 360):
        page.resize(width, 650)
        tops = page.ask("[...document.querySelectorAll('header :is(select, button, summary)')].filter("
                        "(one) => one.checkVisibility()).map((one) => one.getBoundingClientRect().top)")
        same(f"whether the row above is one at {width}", True, max(tops) - min(tops) < 8)
        same(f"how many controls it has at {width}", 6, len(tops))
    page.resize(*SIZE)
    same("panels in which nothing stands", [], page.ask(
        "[...document.querySelectorAll('main > section')].filter((part) =>"
        " part.innerText.trim().split('\\n').length < 3).map((part) => part.className)"))
    machine.run()
    machine.says("Exit")
    same("what it prints", "Hello\n", page.text("#output"))
    page.send("Page.close")


def narrow(machine):
    """on a phone program, registers and console are one swipe apart, and Load is above the keyboard"""
    page = machine.page
    show_source(machine)
    page.resize(360, 740)
    parts = page.ask("[...document.querySelectorAll('main > section')].map((part) =>"
                     " [part.className, part.offsetLeft, part.offsetWidth])")
    same("the parts, each as wide as the page",
         [[name, 360 * at, 360] for at, name in enumerate(
             ("program", "registers", "console", "details"))], parts)
    same("how a swipe ends", ["x mandatory", "always"], page.ask(
        "[getComputedStyle($('main')).scrollSnapType,"
        " getComputedStyle(document.querySelector('.registers')).scrollSnapStop]"))
    for name, at in (("console", 2), ("program", 0), ("details", 3), ("registers", 1)):
        page.click(f"[data-part={name}]")
        page.wait(f"Math.round($('main').scrollLeft) === {360 * at}")
        page.wait(f"document.querySelector('#parts [aria-current]')?.dataset.part === '{name}'")
    page.click("[data-part=program]")
    page.wait("$('main').scrollLeft === 0")
    machine.keys("e")
    # a keyboard takes the lower half
    same("whether the button and a line of the text are above it", [True, True], page.ask(
        "['run-text', 'text'].map((id) => $(id).getBoundingClientRect().top < 330)"))
    machine.escape()
    page.resize(*SIZE)


def twice_as_large(machine):
    """in a window that is shown twice as large the buttons take a third of it at most, and scroll by"""
    page = machine.page
    show_source(machine)
    page.resize(683, 384)
    same("how high the bar is", True, page.ask(
        "document.querySelector('.controls').getBoundingClientRect().height < 128"))
    page.ask("scrollTo(0, 9999)")
    same("whether it scrolls by", True, page.ask(
        "document.querySelector('.controls').getBoundingClientRect().bottom < 60"))
    page.resize(*SIZE)


def nothing_moves(machine):
    """a sentence, however long, moves nothing, and can be scrolled to its end"""
    page = machine.page
    # in the order of the menu, and back, since each example between two is opened by its keys
    examples = ["three", "fetch", "misaligned", "ecall"]
    for width in (1360, 768, 360):
        page.resize(width, 900)
        tops, cut = set(), set()
        for example in examples:
            machine.choose(example)
            page.choose("#calls", "rars")
            machine.leave_fields()
            machine.run()
            tops.add(tuple(page.ask("['main', '#steps'].map((part) =>"
                                    " document.querySelector(part).getBoundingClientRect().top)")))
            cut.update(page.ask(f"{SEEN}.cutBelow()"))
        examples.reverse()
        same(f"the places of the panels, and what is cut off, at {width}", [1, set()],
             [len(tops), cut])
    page.resize(*SIZE)


# whether the kinds have seven colours, and each the one of its name; how much of a bar is seen; and
# what lies over the page behind a dialog
SEEN_OF_COLOURS = [7, [], "0.55", "rgba(0, 0, 0, 0.533)"]


def forced_colours(machine):
    """with the colours of the system the edge of the current row alone is seen"""
    page = machine.page
    machine.choose("sum")
    machine.keys("ss")
    edges = """["pc", "selected"].map((kind) => document.querySelector(`.line.${kind}`)).map((line) =>
        getComputedStyle(line).borderLeftColor === getComputedStyle(document.body).backgroundColor)"""
    page.send("Emulation.setEmulatedMedia", features=[{"name": "forced-colors", "value": "active"}])
    same("whether an edge is as what is behind it, of the current row and of another", [False, True],
         page.ask(edges))
    page.prefer(False)


def theme(machine):
    """light and dark: by the system and by the switch"""
    page = machine.page
    ground = "getComputedStyle(document.body).backgroundColor"
    colours = {}
    for dark in (False, True):
        page.prefer(dark)
        seen = []
        for key in ("", "d", "d"):
            machine.keys(key)
            seen.append(page.ask(ground))
        colours[dark] = seen
    light, darker = "rgb(238, 241, 245)", "rgb(15, 19, 25)"
    same("the colours", {False: [light, darker, light], True: [light, darker, light]}, colours)
    page.prefer(False)
    page.ask("document.documentElement.removeAttribute('data-theme')")
    grounds = page.ask("""["end", "done", "wait"].map((kind) => {
        const state = document.getElementById("state").cloneNode();
        state.className = `state ${kind}`;
        document.body.append(state);
        const { backgroundColor } = getComputedStyle(state);
        state.remove();
        return backgroundColor;
    })""")
    same("the icons of the buttons", ["run-back", "back", "step", "over", "out", "run",
                                          "pause", "output", "line", "reset"],
         page.ask("[...document.querySelectorAll('.toolbar use')].map((use) =>"
                  " use.getAttribute('href').replace('#icon-', ''))"))
    machine.choose("fibonacci")
    machine.run()
    for dark in (False, True):
        page.prefer(dark)
        same("what is seen of bars, kinds, and the page behind a dialog", SEEN_OF_COLOURS, page.ask(
            f"{SEEN}.colours()"))
    page.prefer(False)
    same("the ground of an end, of a program that is done, and of one that waits",
         ["rgb(253, 228, 226)", "rgb(205, 240, 218)", "rgb(227, 235, 253)"], grounds)


def picture(browser, path):
    """the picture of the page for README, of a page that was opened anew"""
    machine = opened(browser, Subject.page.as_uri())
    machine.choose("sort")
    machine.page.ask("rrs.session.toggleBreakpoint(30)")
    for _ in range(5):
        machine.run()
    machine.keys("sss")
    machine.page.choose("#around", "label numbers")
    machine.leave_fields()
    machine.page.ask("scrollTo(0, 0)")
    machine.page.picture(path)


def pictures(machine):
    """pictures in light and dark, wide and narrow"""
    page, folder = machine.page, Subject.pictures
    show_fibonacci(machine)
    for name, width, height, dark in (
        ("wide-light", 1360, 900, False), ("wide-dark", 1360, 900, True),
        ("middle-light", 768, 900, False),
        ("narrow-light", 360, 740, False), ("narrow-dark", 360, 740, True),
    ):
        page.resize(width, height)
        page.prefer(dark)
        page.ask("scrollTo(0, 0)")
        page.picture(folder / f"{name}.png")
    machine.give(LESSON)
    page.wait("!document.getElementById('lesson').hidden")
    machine.run()
    machine.keys("e")
    for name, width, height, dark in (
        ("editor-light", 1366, 768, False), ("editor-dark", 768, 1024, True),
        ("editor-narrow", 360, 740, False),
    ):
        page.resize(width, height)
        page.prefer(dark)
        page.picture(folder / f"{name}.png", whole=False)
    machine.escape()
    for name, width, height, dark in (
        ("lesson-light", 1366, 768, False), ("lesson-dark", 768, 1024, True),
        ("lesson-narrow", 360, 740, False),
    ):
        page.resize(width, height)
        page.prefer(dark)
        page.picture(folder / f"{name}.png")
    page.resize(*SIZE)
    page.prefer(False)


OF_A_BROWSER = [first_look]
TRIALS = [focus, light, dark, boxes, boxes_of_a_lesson, one_screen, narrow,
          twice_as_large, nothing_moves, theme, forced_colours]
