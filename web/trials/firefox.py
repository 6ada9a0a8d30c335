"""Drives a headless Firefox by its own protocol (Marionette), with nothing but Python."""

import base64
import json
import os
import pathlib
import shutil
import signal
import socket
import subprocess
import tempfile
import time

from trials.chromium import Failed

NAMES = ("firefox-esr", "firefox")
SHIFT = "\ue008"

PREFERENCES = {
    "marionette.port": 0, "browser.shell.checkDefaultBrowser": False,
    "datareporting.policy.dataSubmissionEnabled": False, "app.update.disabledForTesting": True,
    "browser.tabs.warnOnClose": False, "dom.disable_beforeunload": True,
}


def find():
    """The path of the browser, or None."""
    return next((path for path in map(shutil.which, NAMES) if path), None)


class Firefox:
    """A browser with an empty profile of its own and one page, which `close` ends."""

    def __init__(self, path):
        self.profile = pathlib.Path(tempfile.mkdtemp())
        lines = [f"user_pref({json.dumps(name)}, {json.dumps(value)});"
                 for name, value in PREFERENCES.items()]
        (self.profile / "user.js").write_text("\n".join(lines), encoding="utf-8")
        self.process = subprocess.Popen(
            [path, "--headless", "--marionette", "--no-remote", "--profile", self.profile],
            start_new_session=True, stdin=subprocess.DEVNULL, stdout=subprocess.DEVNULL,
            stderr=subprocess.DEVNULL, env={**os.environ, "HOME": str(self.profile)})
        self.number, self.connection = 0, None
        try:
            self.connection = self.connected()
            self.receive()
            self.send("WebDriver:NewSession")
            self.send("WebDriver:SetTimeouts", script=60000)
        except (Failed, OSError):
            self.close()
            raise

    def connected(self, seconds=60):
        """A connection to the port that the browser tells in its profile."""
        told = self.profile / "MarionetteActivePort"
        until = time.monotonic() + seconds
        while time.monotonic() < until:
            if told.exists() and told.read_text().strip():
                try:
                    return socket.create_connection(("127.0.0.1", int(told.read_text())), 120)
                except OSError:
                    pass
            time.sleep(0.05)
        raise Failed("Firefox does not start")

    def receive(self):
        """The next message: its length, a colon, and so many bytes."""
        length = b""
        while not length.endswith(b":"):
            length += self.connection.recv(1) or self.ended()
        wanted, got = int(length[:-1]), b""
        while len(got) < wanted:
            got += self.connection.recv(wanted - len(got)) or self.ended()
        return json.loads(got)

    @staticmethod
    def ended():
        raise Failed("Firefox has ended")

    def send(self, command, **params):
        """Makes a call, and returns its answer."""
        self.number += 1
        message = json.dumps([0, self.number, command, params]).encode()
        self.connection.sendall(str(len(message)).encode() + b":" + message)
        _, _, error, result = self.receive()
        if error:
            raise Failed(f"{command}: {error['message']}")
        return result

    def go(self, address):
        self.send("WebDriver:Navigate", url=address)

    def resize(self, width, height):
        """Gives what is in view a size."""
        beside = self.ask("[outerWidth - innerWidth, outerHeight - innerHeight]")
        self.send("WebDriver:SetWindowRect", width=width + beside[0], height=height + beside[1])

    def ask(self, expression):
        """The value of an expression of JavaScript beside the page, which may be a promise: `rrs` is
        the page's own."""
        script = ("const done = arguments[arguments.length - 1]; const { rrs } = window;"
                  " Promise.resolve().then(() => (" + expression + ")).then((value) => done([value]),"
                  " (error) => done(`${error}`));")
        answer = self.send("WebDriver:ExecuteAsyncScript", script=script, args=[])["value"]
        if isinstance(answer, str):
            raise Failed(answer)
        return answer[0]

    def wait(self, expression, seconds=30):
        """Waits until an expression holds."""
        until = time.monotonic() + seconds
        is_late = False
        while not self.ask(expression):
            if is_late:
                raise Failed(f"in {seconds} s this did not come to hold in Firefox: {expression}")
            time.sleep(0.02)
            # it is asked once more behind the limit: this process may have had to wait
            is_late = time.monotonic() > until

    def press(self, *keys):
        """Presses keys one after another, as a keyboard does."""
        actions = []
        for key in keys:
            held = [SHIFT] if key.isupper() else []
            actions += [{"type": "keyDown", "value": value} for value in (*held, key)]
            actions += [{"type": "keyUp", "value": value} for value in (key, *held)]
        self.send("WebDriver:PerformActions",
                  actions=[{"type": "key", "id": "keyboard", "actions": actions}])

    def picture(self, path):
        """Writes a picture of what is in view."""
        taken = self.send("WebDriver:TakeScreenshot", full=False)["value"]
        pathlib.Path(path).write_bytes(base64.b64decode(taken))

    def close(self):
        """Ends the browser, and takes its profile away."""
        try:
            if self.connection is not None:
                self.connection.close()
        finally:
            os.killpg(self.process.pid, signal.SIGKILL)
            self.process.wait()
            shutil.rmtree(self.profile, ignore_errors=True)
