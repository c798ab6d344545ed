#!/usr/bin/env python3
"""The links of the pages: each leads to a file or a heading that is there, each path in a page is one, and each page is
reached from README.md in two steps.

    tests/docs/links.py --write     makes a link of each path that is none

A path is cited between backquotes, from the page's folder, from the top of the repository, or in the README of a crate from
that crate. The page that npm gets has no other files beside it, so its paths are no links.
"""
import functools
import os
import re
import subprocess
import sys

ROOT = os.path.dirname(os.path.dirname(os.path.dirname(os.path.realpath(__file__))))
#: Text between backquotes, with the link around it if there is one.
CITED = re.compile(r"(\[)?`([^`\n]+)`(?(1)(\]\([^)\s]+\))?)")
LINK = re.compile(r"(?<!!)\[[^\]]*\]\(([^)\s]+)\)", re.DOTALL)
#: A path has a slash, or the ending of a file of the repository.
PATH = re.compile(r"[\w.-]*/[\w./-]*|[\w-]+\.(?:antt|rt|md|py|cases|txt|edit|deb)")
#: What is no text: blocks between fences, and indented ones, which follow an empty line (an indented line after a line of
#: text goes on with it, as in an item of a list).
BLOCKS = re.compile(r"^```.*?^```$|(?<=\n\n)(?:(?: {4}|\t)[^\n]*(?:\n|\Z))+", re.MULTILINE | re.DOTALL)
ALONE = ("js/README.md",)
#: The front page of the site, which lists what the site has.
FRONT = "docs/site/index.md"
STEPS = 2


@functools.cache
def files():
    """Returns the paths of the repository's files."""
    words = ["git", "-C", ROOT, "ls-files", "--cached", "--others", "--exclude-standard"]
    listed = subprocess.run(words, check=True, stdout=subprocess.PIPE, encoding="utf-8").stdout
    return [it for it in listed.splitlines() if os.path.isfile(f"{ROOT}/{it}")]


@functools.cache
def tracked():
    """Returns the paths of the repository's files and of their folders."""
    folders = {it.rsplit("/", n)[0] for it in files() for n in range(1, it.count("/") + 1)}
    return {*files(), *folders}


def pages():
    """Returns the pages."""
    return sorted(it for it in files() if it.endswith(".md"))


@functools.cache
def text_of(page):
    """Returns the text of a page."""
    with open(f"{ROOT}/{page}", encoding="utf-8") as file:
        return file.read()


def place_of(path, page):
    """Returns which file or folder a page means by a path, or None."""
    if path.startswith("/"):
        return None
    crate = re.match("crates/[^/]+", page)
    for folder in (os.path.dirname(page), "", crate[0] if crate else ""):
        place = os.path.normpath(os.path.join(folder, path))
        if place in tracked():
            return place
    return None


def linked(page):
    """Returns the text of a page with a link for each path that has none, and these paths."""
    without = []

    def link(found):
        path = found[2]
        place = place_of(path, page) if PATH.fullmatch(path) and not found[3] else None
        if place is None or place == page:
            return found[0]
        without.append(path)
        target = os.path.relpath(place, os.path.dirname(page) or ".")
        return f"{found[1] or ''}[`{path}`]({target})"

    parts = BLOCKS.split(text_of(page))
    blocks = BLOCKS.findall(text_of(page))
    texts = [CITED.sub(link, it) for it in parts]
    whole = "".join(text + block for text, block in zip(texts, [*blocks, ""]))
    return whole, without


def slug(heading):
    """Returns the name of a heading in a link."""
    return re.sub(r"[^\w -]", "", heading.strip().lower()).replace(" ", "-")


def targets(page):
    """Yields the targets of a page's links to files: each as it stands, its file, and its heading."""
    for target in LINK.findall(BLOCKS.sub("", text_of(page))):
        if "://" not in target:
            path, _, heading = target.partition("#")
            place = os.path.normpath(os.path.join(os.path.dirname(page), path)) if path else page
            yield target, place, heading


def has_heading(page, name):
    """Returns whether a page has the heading that a link names so."""
    return name in map(slug, re.findall("^#+ (.*)$", text_of(page), re.MULTILINE))


def dead(page):
    """Returns the targets of a page's links that are not there."""
    return [
        target
        for target, place, heading in targets(page)
        if place not in tracked() or heading and not has_heading(place, heading)
    ]


def wrong_page(page):
    """Returns what is wrong with the links of a page."""
    found = [f"a link leads nowhere: {it}" for it in dead(page)]
    without = [] if page in ALONE else linked(page)[1]
    return found + [f"a path is no link (tests/docs/links.py --write makes it one): {it}" for it in without]


def unreached():
    """Returns the pages that are not reached from README.md in two steps."""
    reached = {"README.md"}
    for _ in range(STEPS):
        reached |= {place for page in reached for _, place, _ in targets(page) if place in pages()}
    return [f"README.md does not lead to {it} in {STEPS} steps" for it in pages() if it not in {*reached, FRONT}]


def tests():
    """Returns all tests."""
    for page in pages():
        yield page, functools.partial(wrong_page, page)
    yield "each page is reached", unreached


def write():
    """Makes a link of each path that is none."""
    for page in pages():
        if page not in ALONE:
            text = linked(page)[0]
            with open(f"{ROOT}/{page}", "w", encoding="utf-8") as file:
                file.write(text)


if __name__ == "__main__":
    if sys.argv[1:] != ["--write"]:
        sys.exit("usage: tests/docs/links.py --write")
    write()
