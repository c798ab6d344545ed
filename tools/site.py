#!/usr/bin/env python3
"""Makes a site of the pages of the repository, with a reference of the Python package and a search.

    tools/site.py FOLDER

FOLDER is made, or written anew; open `index.html` in it. Nothing is loaded from elsewhere, neither now nor by the site.
It needs Debian's python3-sphinx, python3-numpydoc and python3-myst-parser, or the same of pip. A warning of Sphinx is an
error, so the status is 0 only if there is none.
"""
import importlib.util
import os
import subprocess
import sys

from paths import ROOT

WANTED = ("sphinx", "numpydoc", "myst_parser")
SYSTEM = "/usr/bin/python3"
#: The page that a browser opens by the folder's name.
INDEX = '<meta http-equiv="refresh" content="0; url=docs/site/index.html">\n'


def python_with_sphinx():
    """Returns a Python that has all libraries: this one or the system's; or None."""
    if all(importlib.util.find_spec(it) for it in WANTED):
        return sys.executable
    words = [SYSTEM, "-c", f"import {', '.join(WANTED)}"]
    has_all = os.path.exists(SYSTEM) and subprocess.run(words, capture_output=True).returncode == 0
    return SYSTEM if has_all else None


def make(python, folder):
    """Makes the site, and returns the status of Sphinx."""
    words = ["-m", "sphinx", "-q", "-W", "--keep-going", "-j", "auto", "-b", "html"]
    places = ["-c", f"{ROOT}/docs/site", "-d", f"{folder}/.doctrees", ROOT, folder]
    status = subprocess.run([python, *words, *places]).returncode
    with open(f"{folder}/index.html", "w", encoding="utf-8") as file:
        file.write(INDEX)
    return status


def main():
    if len(sys.argv) != 2:
        sys.exit("usage: tools/site.py FOLDER")
    python = python_with_sphinx()
    if python is None:
        sys.exit(f"site: there is no Python with {', '.join(WANTED)}")
    os.makedirs(sys.argv[1], exist_ok=True)
    sys.exit(make(python, os.path.realpath(sys.argv[1])))


if __name__ == "__main__":
    main()
