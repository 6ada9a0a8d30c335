"""Drives a headless Chromium by the DevTools protocol over a pipe, with nothing but Python."""

import base64
import fcntl
import json
import os
import select
import shutil
import signal
import subprocess
import tempfile
import time

NAMES = ("chromium", "chromium-browser", "google-chrome")

# the virtual codes of keys that write no letter, and the signs that each key has with Shift
KEYS = {"Enter": 13, "ArrowDown": 40, "ArrowUp": 38, "Home": 36, "End": 35, "Tab": 9, "Escape": 27,
        "PageDown": 34, "PageUp": 33}
SIGNS = {"?": 191, "+": 187, "-": 189, "[": 219, "]": 221}
SHIFTED = "?+"
MODIFIERS = {"Alt": 1, "Ctrl": 2, "Meta": 4, "Shift": 8}


def find():
    """The path of the browser, or None."""
    return next((path for path in map(shutil.which, NAMES) if path), None)


class Failed(Exception):
    """The browser answered with an error, or not in time."""


class Browser:
    """A browser with an empty profile of its own, which `close` ends and takes away."""

    def __init__(self, path, flags=()):
        self.profile = tempfile.mkdtemp()
        into, self.write_to = os.pipe()
        self.read_from, out = os.pipe()
        # what the browser reads and writes becomes its descriptors 3 and 4
        ends = [fcntl.fcntl(end, fcntl.F_DUPFD, 10) for end in (into, out)]
        command = [
            path, "--headless=new", "--no-sandbox", "--disable-gpu", "--disable-dev-shm-usage",
            "--no-first-run", "--hide-scrollbars", "--remote-debugging-pipe",
            f"--user-data-dir={self.profile}", *flags,
        ]

        def connect():
            os.dup2(ends[0], 3)
            os.dup2(ends[1], 4)

        self.process = subprocess.Popen(
            command, preexec_fn=connect, pass_fds=(3, 4), start_new_session=True,
            stdin=subprocess.DEVNULL, stdout=subprocess.DEVNULL, stderr=subprocess.DEVNULL)
        for end in (into, out, *ends):
            os.close(end)
        self.number = 0
        self.unread = b""
        self.events = []

    def send(self, method, session=None, **params):
        """Makes a call, and returns its answer."""
        self.number += 1
        call = {"id": self.number, "method": method, "params": params}
        if session:
            call["sessionId"] = session
        os.write(self.write_to, json.dumps(call).encode() + b"\0")
        while True:
            message = self.receive()
            if message.get("id") == self.number:
                if "error" in message:
                    raise Failed(f"{method}: {message['error']['message']}")
                return message["result"]
            if "id" not in message:
                self.events.append(message)
                self.leave(message)

    def leave(self, event):
        """Leaves a page that asks whether to leave it. The event tells that it asked."""
        if event["method"] != "Page.javascriptDialogOpening":
            return
        call = {"id": 0, "method": "Page.handleJavaScriptDialog", "params": {"accept": True},
                "sessionId": event["sessionId"]}
        os.write(self.write_to, json.dumps(call).encode() + b"\0")

    def receive(self, seconds=60):
        """The next message."""
        until = time.monotonic() + seconds
        while b"\0" not in self.unread:
            if not select.select([self.read_from], [], [], max(0, until - time.monotonic()))[0]:
                raise Failed("the browser does not answer")
            got = os.read(self.read_from, 1 << 16)
            if not got:
                raise Failed("the browser has ended")
            self.unread += got
        message, self.unread = self.unread.split(b"\0", 1)
        return json.loads(message)

    @staticmethod
    def patience(holds, seconds=30):
        """Waits until a function answers that something holds."""
        until = time.monotonic() + seconds
        is_late = False
        while not holds():
            if is_late:
                raise Failed(f"in {seconds} s this did not come to hold: {holds}")
            time.sleep(0.01)
            # it is asked once more behind the limit: this process may have had to wait
            is_late = time.monotonic() > until

    def wait_saved(self, path):
        """Waits until a file is saved. The browser puts an empty one in its place before."""
        self.patience(lambda: path.exists() and path.stat().st_size > 0)

    def open(self, address, width=1280, height=900, dark=False):
        """Opens a page, and returns it when it has loaded."""
        target = self.send("Target.createTarget", url="about:blank")["targetId"]
        session = self.send("Target.attachToTarget", targetId=target, flatten=True)["sessionId"]
        page = Page(self, session, target)
        page.send("Page.enable")
        page.send("Runtime.enable")
        page.send("Network.enable")
        page.send("Page.bringToFront")
        page.send("Emulation.setFocusEmulationEnabled", enabled=True)
        page.resize(width, height)
        page.prefer(dark)
        page.go(address)
        return page

    def close(self):
        """Ends the browser."""
        try:
            self.send("Browser.close")
            self.process.wait(10)
        except (Failed, OSError, subprocess.TimeoutExpired):
            os.killpg(self.process.pid, signal.SIGKILL)
            self.process.wait()
        os.close(self.write_to)
        os.close(self.read_from)
        shutil.rmtree(self.profile, ignore_errors=True)


class Page:
    """A page, as a person has it before them."""

    def __init__(self, browser, session, target):
        self.browser, self.session, self.target = browser, session, target

    def send(self, method, **params):
        return self.browser.send(method, self.session, **params)

    def go(self, address):
        self.send("Page.navigate", url=address)
        self.wait("document.readyState === 'complete'")

    def resize(self, width, height):
        self.send("Emulation.setDeviceMetricsOverride", width=width, height=height,
                  deviceScaleFactor=1, mobile=False)
        # its own handler is called before it is drawn
        self.wait(f"innerWidth === {width} && innerHeight === {height}")
        self.wait_drawn()

    def prefer(self, dark):
        value = "dark" if dark else "light"
        self.send("Emulation.setEmulatedMedia",
                  features=[{"name": "prefers-color-scheme", "value": value}])

    def ask(self, expression):
        """The value of an expression of JavaScript in the page."""
        answer = self.send("Runtime.evaluate", expression=expression, returnByValue=True,
                           awaitPromise=True)
        if "exceptionDetails" in answer:
            details = answer["exceptionDetails"]
            raise Failed(details.get("exception", {}).get("description", details["text"]))
        return answer["result"].get("value")

    def wait(self, expression, seconds=30):
        """Waits until an expression holds."""
        until = time.monotonic() + seconds
        is_late = False
        while not self.ask(expression):
            if is_late:
                raise Failed(f"in {seconds} s this did not come to hold: {expression}")
            time.sleep(0.01)
            # it is asked once more behind the limit: this process may have had to wait
            is_late = time.monotonic() > until

    def wait_drawn(self):
        """Waits until the page was drawn: what is shown again has its size then, and its lines."""
        self.ask("new Promise((done) => requestAnimationFrame(() => setTimeout(done)))")

    def wait_ready(self):
        """Waits until the page has started, and was drawn."""
        self.wait("document.documentElement.dataset.ready")
        self.wait_drawn()

    def text(self, selector):
        """What stands in an element."""
        return self.ask(f"document.querySelector({json.dumps(selector)}).textContent")

    def middle(self, selector):
        """The middle of an element, which is brought into view. There has to be the element, or one
        in it, or its label: what lies over it would take a click."""
        where = self.ask(f"""(() => {{
            const element = document.querySelector({json.dumps(selector)});
            element.scrollIntoView({{ block: "center" }});
            const {{ x, y, width, height }} = element.getBoundingClientRect();
            const [left, top] = [x + width / 2, y + height / 2];
            const there = document.elementFromPoint(left, top);
            return element.contains(there) || there?.contains(element) ? [left, top] : null;
        }})()""")
        if where is None:
            raise Failed(f"{selector} can't be clicked: something lies over it")
        return where

    def mouse(self, kind, where, **more):
        self.send("Input.dispatchMouseEvent", type=kind, x=where[0], y=where[1], **more)

    def click(self, selector, count=1):
        """Clicks the middle of an element, as a mouse does, once it stays where it is: the page is
        drawn as the mouse moves, and the element may lie elsewhere then."""
        where = self.middle(selector)
        for _ in range(100):
            self.mouse("mouseMoved", where)
            before, where = where, self.middle(selector)
            if where == before:
                return self.click_there(where, count)
        raise Failed(f"{selector} can't be clicked: it does not stay where it is")

    def click_at(self, where, count=1):
        self.mouse("mouseMoved", where)
        self.click_there(where, count)

    def click_there(self, where, count):
        """Clicks where the mouse is."""
        for number in range(1, count + 1):
            for kind in ("mousePressed", "mouseReleased"):
                self.mouse(kind, where, button="left", clickCount=number)

    def press(self, key, *held):
        """Presses a key, where others are held: "Shift", "Ctrl", "Alt" or "Meta"."""
        is_letter = len(key) == 1 and key.isalpha()
        if (is_letter and key.isupper()) or key in SHIFTED:
            held = {"Shift", *held}
        self.key(key, sum(MODIFIERS[name] for name in held))

    def key(self, key, modifiers=0):
        """Presses a key that writes `key`, with modifiers as a browser counts them."""
        is_one = len(key) == 1
        text = {"Enter": "\r"}.get(key, key if is_one else "")
        if modifiers & 7:
            text = ""
        letter = ord(key.upper()) if is_one and key.isalnum() else 0
        code = KEYS.get(key) or SIGNS.get(key) or letter
        event = {"key": key, "modifiers": modifiers, "windowsVirtualKeyCode": code}
        self.send("Input.dispatchKeyEvent", type="keyDown" if text else "rawKeyDown", text=text,
                  **event)
        self.send("Input.dispatchKeyEvent", type="keyUp", **event)

    def type(self, text):
        """Types a text where the focus is."""
        self.send("Input.insertText", text=text)

    def replace(self, selector, text):
        """Clicks a field, and types a text in the place of what stands in it."""
        self.click(selector)
        self.send("Input.dispatchKeyEvent", type="rawKeyDown", key="a", modifiers=2,
                  windowsVirtualKeyCode=65, commands=["selectAll"])
        self.send("Input.dispatchKeyEvent", type="keyUp", key="a", modifiers=2,
                  windowsVirtualKeyCode=65)
        if text:
            self.type(text)
        else:
            self.send("Input.dispatchKeyEvent", type="rawKeyDown", key="Delete",
                      windowsVirtualKeyCode=46, commands=["deleteForward"])

    def put(self, selector, text):
        """Puts a text into a field at once, where typing it would be a line at a time."""
        self.ask(f"""(() => {{
            const field = document.querySelector({json.dumps(selector)});
            field.value = {json.dumps(text)};
            field.dispatchEvent(new InputEvent("input", {{ bubbles: true }}));
        }})()""")

    def choose(self, selector, value):
        """Chooses an option of a menu by the keyboard: its list is outside the page."""
        quoted = json.dumps(selector)
        at = self.ask(f"""(() => {{
            const menu = document.querySelector({quoted});
            menu.focus();
            const shown = [...menu.options].filter((option) => !option.hidden);
            return shown.findIndex((option) => option.value === {json.dumps(value)})
                - shown.indexOf(menu.selectedOptions[0]);
        }})()""")
        for _ in range(abs(at)):
            self.press("ArrowDown" if at > 0 else "ArrowUp")
        if self.ask(f"document.querySelector({quoted}).value") != value:
            raise Failed(f"{selector} has no {value}")

    def give_file(self, selector, path):
        """Gives a file to a field for files."""
        root = self.send("DOM.getDocument")["root"]["nodeId"]
        node = self.send("DOM.querySelector", nodeId=root, selector=selector)["nodeId"]
        self.send("DOM.setFileInputFiles", nodeId=node, files=[str(path)])

    def picture(self, path, whole=True):
        """Writes a picture of the page, the whole of it or what is in view."""
        taken = self.send("Page.captureScreenshot", format="png", captureBeyondViewport=whole,
                          optimizeForSpeed=True)
        with open(path, "wb") as file:
            file.write(base64.b64decode(taken["data"]))

    def wait_event(self, method, seconds=30):
        """Waits for an event of the browser that no earlier wait has taken."""
        until = time.monotonic() + seconds
        while True:
            for at, event in enumerate(self.browser.events):
                if event.get("method") == method:
                    return self.browser.events.pop(at)
            if time.monotonic() > until:
                raise Failed(f"in {seconds} s there was no {method}")
            self.ask("1")
            time.sleep(0.01)
