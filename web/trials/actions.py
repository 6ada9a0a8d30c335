"""The actions of the page: each by its key, by its button and by its menu, through events of a
mouse and a keyboard, with the same effect; and where none acts."""

from trials.examples import PROGRAMS
from trials.report import same
from trials.view import js

# A loop before its sixth step, with a breakpoint at line 5, where it stands, line 3 selected,
# memory from 0x2000 on, and a speed that has one slower and one faster.
PREPARE = """(async () => {
    for (const dialog of document.querySelectorAll("dialog[open]")) dialog.close();
    rrs.editor.close();
    $("more").open = false;
    rrs.tabs.show("memory");
    rrs.work.unsaved.clear();
    document.activeElement.blur();
    document.documentElement.removeAttribute("data-theme");
    document.getElementById("keys-on").checked = true;
    document.getElementById("input").value = "";
    rrs.closeLesson();
    rrs.open(SUM, {});
    rrs.session.toggleBreakpoint(5);
    rrs.setSpeed(SPEEDS.length - 1);
    await rrs.session.run();
    rrs.session.select(3);
    rrs.setSpeed(3);
    rrs.setRadix("hex");
    rrs.setNames("abi");
    rrs.setUnit(4);
    rrs.memory.show("0x2000");
    document.getElementById("address").value = "0x00002000";
    scrollTo(0, 0);
    await new Promise((done) => requestAnimationFrame(() => setTimeout(done)));
})()""".replace("SUM", js(PROGRAMS["sum"]))

# the same program in a run that has made one step, and would wait some days for the next
PREPARE_RUN = """(() => {
    rrs.session.pace = () => ({ steps: 1, wait: 1e9 });
    rrs.session.run();
    delete rrs.session.pace;
})()"""

STATE = """(() => {
    const text = (id) => document.getElementById(id).textContent;
    const { value } = document.getElementById("radix");
    const chosen = (id) => document.getElementById(id).selectedOptions[0].text;
    const focus = document.activeElement;
    return {
        heading: text("heading"), sentence: text("sentence"), steps: text("steps"),
        pc: text("pc").slice(2), a2: document.querySelector("#x12 .value").textContent,
        selected: [...document.querySelectorAll(".line.selected")].map(({ id }) => id).join(),
        stops: [...document.querySelectorAll(".line.stop")].map(({ id }) => id).join(),
        speed: chosen("speed"), radix: chosen("radix"), unit: chosen("unit"),
        memory: [...document.querySelector("#memory tr").children].slice(0, 2)
            .map(({ textContent }) => textContent).join(": "),
        pace: SPEEDS[rrs.session.speed], names: chosen("names"), calls: chosen("calls"),
        preset: chosen("preset"),
        line: document.querySelector("#line-5 .instruction")?.textContent ?? "",
        around: chosen("around"), address: document.getElementById("address").value,
        note: text("lost"), theme: getComputedStyle(document.documentElement).colorScheme,
        focus: focus.id || focus.tagName,
        dialog: [...document.querySelectorAll("dialog[open]")].map(({ id }) => id).join(),
        isEditing: !document.getElementById("editor").hidden, details: rrs.tabs.now,
    };
})()"""

# that no run goes on
STOPPED = """(async () => {
    while (rrs.session.isRunning) await new Promise((done) => setTimeout(done, 1));
})()"""

BASE = {
    "heading": "Breakpoint",
    "sentence": "Stopped before a breakpoint at 0x00000014, after 5 steps more.",
    "steps": "5 steps", "pc": "0x00000014", "a2": "0x00000000", "selected": "line-3",
    "stops": "line-5", "speed": "64/s", "radix": "hexadecimal", "unit": "words",
    "memory": "00002000: 00000000", "pace": 64, "around": "at the address",
    "names": "names (a0)", "line": "add a2, a2, a3", "calls": "calls of Linux",
    "preset": "64 KiB, as rrs run has", "isEditing": False, "details": "memory",
    "address": "0x00002000", "note": "", "theme": "light dark", "focus": "BODY", "dialog": "",
}

# what each action changes
EFFECTS = {
    "step": {"heading": "Step 6", "sentence": "add a2, a2, a3: a2 = 0x00000003",
             "steps": "6 steps", "pc": "0x00000018", "a2": "0x00000003"},
    # no call is open, and add is none
    "stepOver": {"heading": "Step 6", "sentence": "add a2, a2, a3: a2 = 0x00000003",
                 "steps": "6 steps", "pc": "0x00000018", "a2": "0x00000003"},
    "stepOut": {"heading": "In no call", "sentence": "No call is there to step out of."},
    "runToOutput": {"sentence": "Stopped before a breakpoint at 0x00000014, after 6 steps more.",
                    "steps": "11 steps", "a2": "0x00000003"},
    "stepBack": {"heading": "Back at step 4", "sentence": "Next: lw a3, 0(a0)",
                 "steps": "4 steps", "pc": "0x00000010"},
    "run": {"sentence": "Stopped before a breakpoint at 0x00000014, after 6 steps more.",
            "steps": "11 steps", "a2": "0x00000003"},
    "pause": {"heading": "Paused", "sentence": "After 6 steps.", "steps": "6 steps",
              "pc": "0x00000018", "a2": "0x00000003"},
    "runBack": {"heading": "At the start", "sentence": "This is the first state.",
                "steps": "0 steps", "pc": "0x00000000"},
    "runToLine": {"heading": "At the line",
                  "sentence": "Stopped before the line at 0x0000000c, after 4 steps more.",
                  "steps": "9 steps", "pc": "0x0000000c", "a2": "0x00000003"},
    "reset": {"heading": "Ready", "sentence": "80 bytes from 0x00000000 on. A loop adds eight "
              "words of memory. The status is their sum.", "steps": "0 steps", "pc": "0x00000000"},
    "breakpoint": {"stops": "line-3,line-5"},
    "program": {"focus": "listing"},
    "slower": {"speed": "16/s", "pace": 16},
    "faster": {"speed": "256/s", "pace": 256},
    "radix": {"radix": "signed decimal", "a2": "0"},
    "names": {"names": "numbers (x10)", "line": "add x12, x12, x13"},
    "change": {"dialog": "change", "focus": "place"},
    "unit": {"unit": "bytes", "memory": "00002000: 00"},
    "around": {"focus": "around"},
    "address": {"focus": "address"},
    "memoryUp": {"address": "0x00001f80", "memory": "00001f80: 00000000"},
    "memoryDown": {"address": "0x00002080", "memory": "00002080: 00000000"},
    "calls": {"focus": "calls"},
    "console": {"focus": "input"},
    "endInput": {"note": "input ended"},
    "examples": {"focus": "examples"},
    "preset": {"focus": "preset"},
    "details": {"details": "frames"},
    "edit": {"isEditing": True, "focus": "text"},
    "create": {"heading": "To be edited", "sentence": "There is no statement in it.",
               "steps": "0 steps", "pc": "0x00000000", "selected": "line-0", "stops": "",
               "line": "", "isEditing": True, "focus": "text"},
    "kept": {"dialog": "keeping", "focus": "INPUT"},
    "open": {},
    "save": {},
    "link": {"dialog": "shared", "focus": "link"},
    # no lesson is open
    "lesson": {}, "check": {}, "hint": {}, "handIn": {}, "closeLesson": {},
    "theme": {"theme": "dark"},
    "keys": {"dialog": "help", "focus": "first-lesson"},
}

# the actions that have a button, and those that a menu does too: its name, and the arrow key
BUTTONS = ["open", "save", "link", "keys", "create", "kept", "theme", "runBack", "stepBack", "step", "stepOver",
           "stepOut", "run", "pause", "runToOutput", "runToLine", "reset", "check",
           "hint", "handIn", "closeLesson", "breakpoint", "edit", "change", "endInput", "memoryUp",
           "memoryDown"]
MENUS = {"slower": ("speed", "ArrowUp"), "faster": ("speed", "ArrowDown"),
         "radix": ("radix", "ArrowDown"), "names": ("names", "ArrowDown"),
         "unit": ("unit", "ArrowDown")}
OTHER_MENUS = {
    ("calls", "ArrowDown"): {"calls": "calls of RARS"},
    ("around", "ArrowUp"): {"around": "at numbers", "memory": "00000030: 00000003"},
    ("examples", "ArrowDown"): {
        "heading": "Ready", "sentence": "32 bytes from 0x00000000 on. It prints a line, and ends. "
        "Run it, or make it step by step. Edit has its text.", "steps": "0 steps",
        "pc": "0x00000000", "selected": "line-0", "stops": "", "line": "ecall",
        "calls": "calls of RARS", "preset": "64 KiB, sp at its end"},
    ("preset", "ArrowDown"): {
        "heading": "Ready", "sentence": "80 bytes from 0x00000000 on. A loop adds eight words of "
        "memory. The status is their sum.", "steps": "0 steps", "pc": "0x00000000",
        "selected": "line-0", "preset": "1 MiB, sp at its end, as rrs exec has"},
}


def prepare(page, name=""):
    same("the state before", BASE, page.ask(f"{PREPARE}.then(() => {STATE})"))
    if name == "pause":
        page.ask(PREPARE_RUN)
        page.wait("rrs.session.machine.steps === 6")


def has_effect(page, what, name, effect, has_focus=True):
    """Compares the state with what an action should make of it."""
    wanted = {**BASE, **effect}
    if name == "link":
        page.wait("document.querySelector('#shared').open")
    elif name == "open":
        page.wait_event("Page.fileChooserOpened")
    got = page.ask(f"{STOPPED}.then(() => {STATE})")
    if not has_focus and "focus" not in effect:
        wanted["focus"] = got["focus"]
    same(f"{name} by {what}", wanted, got)


def by_each_way(machine):
    """each action by its key, its button and its menu, with the same effect"""
    page = machine.page
    page.send("Page.setInterceptFileChooserDialog", enabled=True)
    table = page.ask("Object.fromEntries(Object.entries(ACTIONS).map(([name, { key }]) =>"
                     " [name, key]))")
    same("the actions of the page", sorted(EFFECTS), sorted(table))
    same("its buttons", BUTTONS, page.ask(
        "[...document.querySelectorAll('[data-action]')].map((button) => button.dataset.action)"))
    for name, key in table.items():
        prepare(page, name)
        page.press(key)
        has_effect(page, "its key", name, EFFECTS[name])
    for name in BUTTONS:
        if name in ("check", "hint", "handIn", "closeLesson"):
            continue
        prepare(page, name)
        if name in ("create", "kept", "theme"):
            page.click("#more summary")
        page.click(f"[data-action={name}]")
        has_effect(page, "its button", name, EFFECTS[name], has_focus=False)
    for name, (menu, key) in MENUS.items():
        prepare(page)
        page.ask(f"document.getElementById('{menu}').focus()")
        page.press(key)
        has_effect(page, "its menu", name, {**EFFECTS[name], "focus": menu})
    for (menu, key), effect in OTHER_MENUS.items():
        prepare(page)
        page.ask(f"$('more').open = true; document.getElementById('{menu}').focus()")
        page.press(key)
        has_effect(page, "keys", menu, {**effect, "focus": menu})
    prepare(page)
    page.send("Page.setInterceptFileChooserDialog", enabled=False)


def press_all(page, *held):
    for key in page.ask("Object.values(ACTIONS).map(({ key }) => key)"):
        page.press(key, *held)


def where_none_acts(machine):
    """in a field, a menu and a dialog, with Ctrl, Alt or Meta, and with keys off no key acts"""
    page = machine.page
    keys = "".join(page.ask("Object.values(ACTIONS).map(({ key }) => key)"))
    for field in ("input", "address", "speed"):
        prepare(page)
        page.ask(f"document.getElementById('{field}').focus()")
        page.ask(f"document.getElementById('{field}').select?.()")
        press_all(page)
        state = {**BASE, "focus": field}
        if field == "address":
            state["address"] = keys
        same(f"keys in {field}", state, page.ask(STATE))
        if field == "input":
            same("what was typed", keys, page.ask("document.getElementById('input').value"))
    prepare(page)
    page.press("e")
    page.press("a", "Ctrl")
    press_all(page)
    same("keys in the editor", {**BASE, "isEditing": True, "focus": "text"}, page.ask(STATE))
    same("what was typed there", keys, page.ask("$('text').value.slice(0, KEYS.length)".replace(
        "KEYS", js(keys))))
    for name, dialog in (("keys", "help"), ("link", "shared"), ("change", "change")):
        prepare(page)
        page.press(page.ask(f"ACTIONS.{name}.key"))
        page.wait(f"document.querySelector('#{dialog}').open")
        press_all(page)
        got = page.ask(STATE)
        same(f"keys in the dialog {dialog}", {**BASE, "dialog": dialog, "focus": got["focus"]}, got)
    for held in ("Ctrl", "Alt", "Meta"):
        prepare(page)
        press_all(page, held)
        same(f"keys with {held}", BASE, page.ask(STATE))
    prepare(page)
    page.press("?")
    page.click("#keys-on")
    page.click("#help [data-close]")
    machine.leave_fields()
    press_all(page)
    same("keys that are off", BASE, page.ask(STATE))
    prepare(page)


def other_keyboards(machine):
    """keys with CapsLock, with AltGr, and keys that no action has"""
    page = machine.page
    for what, presses, effect in (
        ("b with CapsLock", [("B", 0)], EFFECTS["stepBack"]),
        ("Shift and b with CapsLock", [("b", 8)], EFFECTS["runBack"]),
        ("s with CapsLock", [("S", 0)], EFFECTS["step"]),
        ("[ by Ctrl and Alt", [("[", 3)], EFFECTS["memoryUp"]),
        ("] by Ctrl and Alt", [("]", 3)], EFFECTS["memoryDown"]),
        ("s with Ctrl and Alt", [("s", 3)], {}),
        ("keys of no action", [(key, 0) for key in ("0", "F2", "ArrowDown", "Enter", "Home")], {}),
    ):
        prepare(page)
        for key, modifiers in presses:
            page.key(key, modifiers)
        has_effect(page, "a keyboard", what, effect)


def menus_by_pointer(machine):
    """a menu that was used by a pointer gives the keys back to the page"""
    page = machine.page
    for by_pointer, focus in ((True, "BODY"), (False, "radix")):
        prepare(page)
        page.ask("document.getElementById('radix').focus()")
        if by_pointer:
            page.ask("document.getElementById('radix').dispatchEvent("
                     "new PointerEvent('pointerdown', { bubbles: true }))")
            page.ask("document.getElementById('radix').value = 'signed'")
            page.ask("document.getElementById('radix').dispatchEvent("
                     "new Event('change', { bubbles: true }))")
        else:
            page.press("ArrowDown")
        has_effect(page, "a menu", "radix", {**EFFECTS["radix"], "focus": focus})
    prepare(page)


TRIALS = [by_each_way, where_none_acts, other_keyboards, menus_by_pointer]
