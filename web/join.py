"""Joins the page's files to one: index.html with the styles, the scripts and the module in it. Its
policy (Content-Security-Policy) names the hash of each, so that nothing else is run in it.

usage: join.py MODULE README PAGE [IMAGE]

An image for the board, a file, is put into the page too.
"""

import base64
import hashlib
import html
import json
import pathlib
import re
import sys
import zlib


def hash_of(text):
    """A source of a policy: the text of an element, by its hash."""
    return f"'sha256-{base64.b64encode(hashlib.sha256(text.encode()).digest()).decode()}'"


def packed(data):
    """Bytes, deflated, in base64."""
    packer = zlib.compressobj(9, wbits=-15)
    return base64.b64encode(packer.compress(data) + packer.flush()).decode()


def image_text(image):
    """The script that has an image: its name, and its bytes."""
    if image is None:
        return "const IMAGE = null;"
    data = packed(image.read_bytes())
    return f'const IMAGE = {{ name: {json.dumps(image.name)}, data: "{data}" }};'


def joined(folder, module, readme, image=None):
    """The page as one text."""
    styles, scripts = [], []
    texts = {"module": f'const MODULE = "{packed(module)}";', "image": image_text(image)}

    def read(name):
        return (folder / name).read_text(encoding="utf-8")

    def style(match):
        styles.append(f"\n{read(match[1])}")
        return f"<style>{styles[-1]}</style>"

    def script(match):
        name = match[2]
        text = texts[match[1]] if name is None else f"\n{read(name)}"
        if "</script" in text:
            sys.exit(f"{name}: a script can't say </script")
        scripts.append(text)
        return f"<script>{text}</script>"

    page = read("index.html")
    page = re.sub(r'<link rel="stylesheet" href="([\w.]+)">', style, page)
    page = re.sub(r'<!-- (module|image) -->|<script src="([\w.]+)"></script>', script, page)
    page = page.replace("STYLE_HASHES", " ".join(map(hash_of, styles)))
    page = page.replace("SCRIPT_HASHES", " ".join(map(hash_of, scripts)))
    return page.replace("README_ADDRESS", html.escape(readme))


def main():
    module, readme, page, *images = sys.argv[1:]
    folder = pathlib.Path(__file__).resolve().parent
    image = pathlib.Path(images[0]) if images else None
    text = joined(folder, pathlib.Path(module).read_bytes(), readme, image)
    pathlib.Path(page).write_text(text, encoding="utf-8", newline="\n")
    print(f"{page}: {len(text.encode())} bytes")


if __name__ == "__main__":
    main()
