"""What the page may do: its policy, what it asks a network for, and browsers that can't run it."""

import base64
import contextlib
import functools
import hashlib
import html
import html.parser
import http.server
import json
import os
import pathlib
import re
import subprocess
import sys
import tempfile
import threading

from trials import chromium, firefox
from trials.report import Differs, same
from trials.running import three_words
from trials.view import WEB, Subject, opened

POLICY = ("default-src 'none'; script-src {} 'wasm-unsafe-eval'; style-src {}; img-src data:; "
          "base-uri 'none'; form-action 'none'")


class Elements(html.parser.HTMLParser):
    """The texts of scripts and styles, the policy, and attributes that a policy refuses."""

    def __init__(self):
        super().__init__()
        self.texts = {"script": [], "style": []}
        self.policy, self.refused, self.inside = None, [], None

    def handle_starttag(self, tag, attrs):
        given = dict(attrs)
        self.inside = tag if tag in self.texts else None
        self.refused += [name for name in given if name == "style" or name.startswith("on")]
        if given.get("http-equiv", "").lower() == "content-security-policy":
            self.policy = given["content"]
        self.refused += [f"{tag} {name}" for name in ("src", "srcset", "action") if name in given]
        if tag == "link" and not given["href"].startswith("data:"):
            self.refused.append(given["href"])

    def handle_data(self, data):
        if self.inside:
            self.texts[self.inside].append(data)

    def handle_endtag(self, tag):
        self.inside = None


def hashes(texts):
    digests = [hashlib.sha256(text.encode()).digest() for text in texts]
    return " ".join(f"'sha256-{base64.b64encode(digest).decode()}'" for digest in digests)


# what a script that got into the page might try, and the directive that refuses it
TRIED = {
    "script-src-elem": "document.body.append(Object.assign(document.createElement('script'),"
                       " { textContent: 'globalThis.taken = 1' }))",
    "script-src-attr": "document.body.setAttribute('onclick', 'globalThis.taken = 1')",
    "style-src-elem": "document.body.append(Object.assign(document.createElement('style'),"
                      " { textContent: 'body { display: none }' }))",
    "style-src-attr": "document.body.setAttribute('style', 'color: red')",
    "img-src": "document.body.append(Object.assign(new Image(), { src: 'http://127.0.0.1:9/' }))",
    "connect-src": "fetch('http://127.0.0.1:9/').catch(() => {})",
    "frame-src": "document.body.append(Object.assign(document.createElement('iframe'),"
                 " { src: 'http://127.0.0.1:9/' }))",
    "base-uri": "document.head.append(Object.assign(document.createElement('base'),"
                " { href: 'http://127.0.0.1:9/' }))",
    "form-action": "(() => { const form = document.createElement('form');"
                   " form.action = 'http://127.0.0.1:9/'; document.body.append(form);"
                   " form.submit(); })()",
}


def policy(browser):
    """the policy of the page names its scripts and styles by their hashes, and refuses others"""
    elements = Elements()
    elements.feed(Subject.page.read_text(encoding="utf-8"))
    scripts, styles = elements.texts["script"], elements.texts["style"]
    same("how many scripts and styles", (30, 1), (len(scripts), len(styles)))
    same("the policy", POLICY.format(hashes(scripts), hashes(styles)), elements.policy)
    same("attributes that it refuses, and what is taken from elsewhere", [], elements.refused)
    page = opened(browser, Subject.page.as_uri()).page
    page.ask("globalThis.refused = []; document.addEventListener('securitypolicyviolation',"
             " (event) => refused.push(event.effectiveDirective))")
    for directive, script in TRIED.items():
        page.ask(f"refused.length = 0; {script}; null")
        page.wait(f"refused.includes({json.dumps(directive)})")
        same(f"what {directive} let through", None, page.ask("globalThis.taken ?? null"))
    page.send("Page.close")


def served(browser):
    """a static server: the page is all that is asked for"""
    asked = []

    class Handler(http.server.SimpleHTTPRequestHandler):
        def log_message(self, *_):
            asked.append(self.path)

    handler = functools.partial(Handler, directory=str(Subject.page.parent))
    server = http.server.ThreadingHTTPServer(("127.0.0.1", 0), handler)
    threading.Thread(target=server.serve_forever, daemon=True).start()
    try:
        machine = opened(browser, f"http://127.0.0.1:{server.server_port}/{Subject.page.name}")
        three_words(machine)
        same("what was asked for", [f"/{Subject.page.name}"], asked)
        machine.keys("l")
        machine.page.wait("document.querySelector('#shared').open")
        note = machine.page.text("#shared-note")
        same("the note of a link to a server", True, re.fullmatch(r"\d+ characters\.", note)
             is not None)
        machine.page.send("Page.close")
    finally:
        server.shutdown()
        server.server_close()


# a memory of 64-bit addresses, which is all that a module has
WITH_MEMORY64 = "new Uint8Array([0, 0x61, 0x73, 0x6d, 1, 0, 0, 0, 5, 3, 1, 4, 1])"
CONTROLS = ("[...document.querySelectorAll('button, select, input, textarea, summary')].filter((one) =>"
            " one.checkVisibility()).map(({ id, textContent }) => id || textContent)")


def without_memory64(path):
    """a browser without 64-bit memories runs the page, and one without WebAssembly gets a sentence"""
    browser = chromium.Browser(path, ["--js-flags=--no-experimental-wasm-memory64"])
    try:
        page = browser.open(Subject.page.as_uri())
        if page.ask(f"WebAssembly.validate({WITH_MEMORY64})"):
            # this browser has no such switch: what makes modules refuses them instead
            page.send("Page.addScriptToEvaluateOnNewDocument", source="""
                const { instantiate } = WebAssembly;
                WebAssembly.instantiate = (bytes, ...more) => {
                    if (hasMemory64(bytes)) throw new Error("no 64-bit memories");
                    return instantiate.call(WebAssembly, bytes, ...more);
                };""" + HAS_MEMORY64)
            page.go(Subject.page.as_uri())
        page.wait_ready()
        page.press("r")
        page.wait("!rrs.session.isRunning")
        same("what a program prints there", "Hello\n", page.text("#output"))
        says_no(page, "delete globalThis.WebAssembly", "This browser can't run the machine: it has no "
                "WebAssembly, or it is switched off. Chromium, Firefox and Safari of 2024 and later "
                "have it.")
        same("what can be pressed", [], page.ask(CONTROLS))
        says_no(page, "globalThis.WebAssembly ??= {}; WebAssembly.instantiate = () => {"
                " throw new Error('no room'); }", "The machine could not be started: no room")
        same("what can be pressed then", [], page.ask(CONTROLS))
        page.send("Emulation.setScriptExecutionDisabled", value=True)
        page.go(Subject.page.as_uri())
        nodes = page.send("Accessibility.getFullAXTree")["nodes"]
        names = " ".join(node.get("name", {}).get("value", "") for node in nodes)
        same("what is said without JavaScript", True, "needs JavaScript" in names)
    finally:
        browser.close()


# whether a module has a memory of 64-bit addresses: the flags behind the count of its section 5
HAS_MEMORY64 = """
    function hasMemory64(bytes) {
        let at = 8;
        const number = () => {
            let value = 0;
            for (let shift = 0; ; shift += 7) {
                const byte = bytes[at++];
                value |= (byte & 127) << shift;
                if (byte < 128) return value;
            }
        };
        while (at < bytes.length) {
            const kind = bytes[at++];
            const end = number() + at;
            if (kind === 5) return number() > 0 && (bytes[at] & 4) !== 0;
            at = end;
        }
        return false;
    }"""


def says_no(page, before, sentence):
    """Opens the page where a script was run before its own, and compares what it says."""
    told = page.send("Page.addScriptToEvaluateOnNewDocument", source=before)
    page.go(Subject.page.as_uri())
    page.wait("!document.querySelector('#refusal').hidden")
    same("the sentence", sentence, page.text("#refusal"))
    page.send("Page.removeScriptToEvaluateOnNewDocument", identifier=told["identifier"])


TWICE = "main: li a7, 5; ecall; add a0, a0, a0; li a7, 1; ecall; li a7, 10; ecall"


def lesson_in_firefox(browser):
    """Solves an exercise, hands it in, and runs the example of interrupts there and back."""
    text = (WEB.parent / "examples" / "lesson" / "functions.txt").read_text(encoding="utf-8")
    browser.ask(f"rrs.openLesson(window.parseLesson({json.dumps(text)}), 1)")
    browser.press("e")
    browser.ask(f"(() => {{ const text = document.getElementById('text'); text.value = "
                f"{json.dumps(TWICE)}; text.dispatchEvent(new Event('input')); }})()")
    browser.ask("document.getElementById('run-text').click()")
    browser.wait("document.getElementById('lesson-solved').textContent === '1 of 5 solved'")
    same("the editor stays", True, browser.ask("!document.getElementById('editor').hidden"))
    browser.press("\ue00c")
    browser.press("D")
    browser.wait("document.getElementById('shared').open")
    link = browser.ask("document.getElementById('link').value")
    browser.press("\ue00c")
    browser.go("about:blank")
    browser.go(link)
    browser.wait("document.documentElement.dataset.ready")
    same("what one sees who opens the link", ["1 of 5 solved, as it was handed in", TWICE + "\n"],
         browser.ask("[document.getElementById('lesson-solved').textContent, rrs.session.text]"))
    browser.ask("rrs.openExample('interrupts')")
    browser.press("r")
    browser.wait("!rrs.session.isRunning")
    same("what the timer prints", "12345", browser.ask(
        "document.getElementById('output').textContent"))
    browser.press("B")
    browser.wait("!rrs.session.isRunning && rrs.session.machine.steps === 0")


def in_firefox(path):
    """Firefox: the page opens, runs a program, keeps it, is as wide as its window, and has lessons"""
    browser = firefox.Firefox(path)
    try:
        browser.go(Subject.page.as_uri())
        browser.wait("document.documentElement.dataset.ready")
        browser.press("r")
        browser.wait("rrs && !rrs.session.isRunning")
        same("what is printed", "Hello\n", browser.ask("document.getElementById('output').textContent"))
        browser.press("e")
        browser.ask("document.getElementById('text').select()")
        browser.press(*"main:", "\ue007", *"li a0, 7", "\ue007", *"ebreak")
        same("what is typed, with its indentation", "main:\n    li a0, 7\n    ebreak",
             browser.ask("document.getElementById('text').value"))
        browser.ask("document.getElementById('run-text').click()")
        browser.wait("!rrs.session.isRunning && rrs.session.machine.steps > 0")
        same("a0", "0x00000007", browser.ask("document.querySelector('#x10 .value').textContent"))
        browser.go("about:blank")
        browser.go(Subject.page.as_uri())
        browser.wait("document.documentElement.dataset.ready")
        same("what is kept", "main:\n    li a0, 7\n    ebreak",
             browser.ask("document.getElementById('text').value"))
        for width, height in ((1366, 650), (768, 800)):
            browser.resize(width, height)
            same(f"whether it is as wide as its window of {width}", True, browser.ask(
                "document.documentElement.scrollWidth <= innerWidth"))
        lesson_in_firefox(browser)
        longest = longest_click(browser, browser.ask)
        return f"the longest click takes {longest:.0f} ms"
    finally:
        browser.close()


# a recursion and a loop of calls, run until no more steps can be taken back
FULL = """(async () => {
    rrs.tryToOpen({ name: "full", language: "assembly", calls: "rars", size: 1 << 20, hasStack: true,
        text: `main: li s1, 0
1: li a0, 40; call f; addi s1, s1, 1; j 1b
f: addi sp, sp, -16; sw ra, 12(sp); beqz a0, 2f; addi a0, a0, -1; call f
2: lw ra, 12(sp); addi sp, sp, 16; ret` });
    rrs.session.run();
    while (rrs.session.machine.history.first === 0) await new Promise((done) => setTimeout(done, 5));
    rrs.session.pause();
})()"""

# how long each of some clicks takes with what is drawn of it: the shortest of some times, of 15 or,
# where others take the processor meanwhile, of as many as there are within some seconds
CLICKS = ["step", "stepBack", "stepOver", "breakpoint", "radix", "names", "unit", "details", "memoryUp"]
LONGEST_CLICK_MS = 16
MEASURE = """(async () => {
    const until = performance.now() + 10000;
    let shortest = Infinity;
    for (let time = 1; time <= 15 || (shortest > LIMIT && performance.now() < until); time++) {
        const begun = performance.now();
        rrs.act("NAME");
        document.body.getBoundingClientRect();
        shortest = Math.min(shortest, performance.now() - begun);
        if (time % 15 === 0) await new Promise((done) => setTimeout(done, 100));
    }
    return shortest;
})()""".replace("LIMIT", str(LONGEST_CLICK_MS))
BEFORE_OTHERS = -15


def longest_click(browser, ask):
    """How long the longest click takes at a full history, where the browser comes before what else
    runs here, if this user may say so."""
    ask(FULL)
    with contextlib.suppress(PermissionError):
        os.setpriority(os.PRIO_PGRP, browser.process.pid, BEFORE_OTHERS)
    took = {name: ask(MEASURE.replace("NAME", name)) for name in CLICKS}
    with contextlib.suppress(PermissionError):
        os.setpriority(os.PRIO_PGRP, browser.process.pid, 0)
    same("clicks that take longer than they may", {}, {
        name: time for name, time in took.items() if time > LONGEST_CLICK_MS})
    return max(took.values())


def clicks(machine):
    """at a full history no click takes more than 16 ms"""
    return f"the longest one takes {longest_click(machine.page.browser, machine.page.ask):.0f} ms"


def told(desk):
    """What the browser of a desk told of its pages: the scripts that failed, what was asked of a
    network, and what is stored."""
    if desk.started is None:
        return None
    events = desk.started.events
    wrong = [event for event in events if event["method"] == "Runtime.exceptionThrown"]
    asked = {event["params"]["request"]["url"].split("#")[0] for event in events
             if event["method"] == "Network.requestWillBeSent"}
    stored = desk.page_apart().page.ask(
        "[document.cookie, ...[localStorage, sessionStorage].map((storage) =>"
        " Object.keys(storage).filter((key) => !key.startsWith('rrs.')))]")
    return [json.dumps(event["params"])[:300] for event in wrong], asked, stored


def quiet(desks):
    """no script failed, and nothing was asked of a network"""
    if any(desk is False for desk in desks):
        raise Differs("a process has ended before it told of its browser")
    had_browsers = [desk for desk in desks if desk is not None]
    wrong, asked, stored = zip(*had_browsers)
    same("scripts that failed", [], sum(wrong, []))
    others = [url for url in set.union(*asked)
              if not url.startswith(("data:", "about:", "http://127.0.0.1:"))
              and url != Subject.page.as_uri()]
    same("what else was asked for", [], others)
    same("what else is stored", [["", [], []]] * len(stored), list(stored))


def joined_anywhere():
    """the page is joined of the same bytes whatever the locale says"""
    with tempfile.TemporaryDirectory() as folder:
        page = pathlib.Path(folder) / "rrs.html"
        environment = {"LC_ALL": "C", "PYTHONUTF8": "0", "PYTHONCOERCECLOCALE": "0"}
        subprocess.run([sys.executable, WEB / "join.py", Subject.module, "../../README.md", page],
                       check=True, capture_output=True, env={**os.environ, **environment})
        same("the page", True, page.read_bytes() == Subject.page.read_bytes())


def leads_to(address):
    """Compares where the link to the README leads, which is the only one."""
    text = Subject.page.read_text(encoding="utf-8")
    same("the link", [html.escape(address)], re.findall(r'<a href="([^"]*)">', text))


def address_of_readme():
    """the link to the README leads to that of the repository where web/build was told no other"""
    leads_to("../../README.md")
    same("the file", True, (WEB / "out" / "../../README.md").exists())
