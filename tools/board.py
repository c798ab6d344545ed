#!/usr/bin/env python3
"""Makes the page chipfire.html: the board of js/board, in one file, which works offline.

    tools/board.py FOLDER     makes FOLDER/chipfire.html of the package in FOLDER, which tools/webassembly.py has made

The page may run its own script and no other, and loads nothing.
"""
import base64
import hashlib
import re
import string
import sys

import paths  # noqa: F401  (it has Python find the others)
from contents import BOARD, MODULE
from packing.repository import content

#: What the page may do besides its own script and style.
POLICY = (
    "default-src 'none'; worker-src blob:; img-src blob: data:; base-uri 'none'; form-action 'none'"
)


def text_of(name):
    """Returns the text of a file."""
    return content(name).decode()


def inlined(text):
    """Returns a module of JavaScript as a part of a script, which has all that it imports before it."""
    text = re.sub(r"(?m)^(import .*;\n|export \{.*\};\n|export )", "", text)
    return text.replace("import.meta.url", "location.href")


def hashed(text):
    """Returns how a policy names a script or a style that stands in the page."""
    return f"'sha256-{base64.b64encode(hashlib.sha256(text.encode()).digest()).decode()}'"


def page(folder):
    """Returns the page's text."""
    names = ("faults.js", "graph.js", "chipfire.js")
    modules = [*(f"{folder}/{it}" for it in names), "js/board/worker.js"]
    worker = "".join(inlined(text_of(it)) for it in modules)
    style, script = text_of("js/board/board.css"), text_of("js/board/board.js")
    scripts = f"script-src {hashed(script)} 'wasm-unsafe-eval'"
    given = {
        "policy": f"{POLICY}; {scripts}; style-src {hashed(style)}",
        "style": style,
        "module": base64.b64encode(content(f"{folder}/{MODULE}")).decode(),
        "worker": worker,
        "script": script,
    }
    return string.Template(text_of("js/board/board.html")).substitute(given)


def main(folder):
    with open(f"{folder}/{BOARD}", "w", encoding="utf-8") as file:
        file.write(page(folder))


if __name__ == "__main__":
    if len(sys.argv) != 2:
        sys.exit("tools/board.py: it takes one word, the folder")
    main(sys.argv[1])
