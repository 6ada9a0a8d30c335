"""Boots an image in the page, in a headless Chromium, types lines into it, each where it asks for one,
and writes what it printed.

usage: python3 web/trials/boot.py IMAGE PROMPT LINES [PICTURE]

IMAGE is put into the page. LINES is a file; a line is typed where what was printed ends with PROMPT.
Standard output gets each byte that was printed, and then how it ended; standard error the seconds to
the first prompt, and the steps. PICTURE gets a picture of the page before the last line. The status
is 0 where the board ended, and 1 where it did not within two minutes, or came to no prompt in
MOST_SECONDS.
"""

import pathlib
import subprocess
import sys
import time

WEB = pathlib.Path(__file__).resolve().parent.parent
sys.path.insert(0, str(WEB))
from trials import chromium  # noqa: E402 (the folder is known only now)

MOST_SECONDS = 15

# has all bytes kept that are printed
KEEP = """globalThis.bytes = []; const { screen } = rrs.board.board;
    screen.print = (given) => { bytes.push(...given); Screen.prototype.print.call(screen, given); };
    document.getElementById("more").open = true; null"""
ENDED = "(rrs.board.board.ending ?? '')"
LETTERS = "String.fromCharCode(...bytes)"


def boot(page, prompt, lines, picture=None):
    """Boots the image of the page, and types the lines."""
    page.ask(KEEP)
    begun = time.monotonic()
    page.click("#boot-linux")
    for number, line in enumerate(lines):
        page.wait(f"{LETTERS}.endsWith({prompt!r}) || {ENDED} !== ''", 120)
        if number == 0:
            seconds, steps = time.monotonic() - begun, page.ask("rrs.board.board.steps")
        if picture and number == len(lines) - 1:
            page.picture(picture, whole=False)
        at = page.ask("bytes.length")
        for key in (*line, "Enter"):
            page.press(key)
        page.wait(f"bytes.length > {at} || {ENDED} !== ''", 120)
    page.wait(f"{ENDED} !== ''", 120)
    print(f"{seconds:.2f} s to the prompt, {steps:,} steps", file=sys.stderr)
    sys.stdout.buffer.write(page.ask(LETTERS).encode("latin-1"))
    print(f"-- {page.ask(ENDED)}")
    return int(seconds > MOST_SECONDS)


def main():
    image, prompt, path, *picture = sys.argv[1:]
    lines = pathlib.Path(path).read_text(encoding="utf-8").splitlines()
    subprocess.run([WEB / "build", "--linux", image], check=True, stdout=sys.stderr)
    browser = chromium.Browser(chromium.find())
    try:
        page = browser.open((WEB / "out" / "linux.html").as_uri())
        page.wait("document.documentElement.dataset.ready")
        return boot(page, prompt, lines, *picture)
    finally:
        browser.close()


if __name__ == "__main__":
    sys.exit(main())
