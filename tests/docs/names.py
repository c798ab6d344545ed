"""What the pages cite is there: each path is, and each name stands somewhere in the sources. docs/PROVED.md says of each
statement how many lines of definitions it rests on. What two pages say is the same: see `COMPARED`.

A page is a Markdown file of the repository. What it cites stands between backquotes on one line, outside of blocks.
"""
import functools
import os
import re

import definitions  # (what a statement rests on)
import prove  # (which crate depends on which)
from links import BLOCKS, PATH, files, text_of
from paths import ROOT

CITED = re.compile(r"`([^`\n]+)`")
#: A name of the sources, with what it is in: `laws::stages`, `Root::poll`, `Cursor.Take`.
NAME = re.compile(r"[A-Za-z_]\w*(?:(?:::|\.)[A-Za-z_]\w*)*!?")
SOURCES = (".rt", ".antt", ".py", ".js", ".ts", ".edit", ".cases", ".txt", ".json", ".csv", ".cpp", ".c", ".toml")
#: What stands for any name in a path, as in `crates/NAME/src`.
ANY = re.compile(r"(?<![A-Za-z])(?:NAME|MODULE|FUNCTION|VERSION|FILE)(?![A-Za-z])")
#: A place of docs/PROVED.md: names of definitions, their file, and how many lines they rest on.
PLACE = re.compile(r"((?:`\w+`, )*`\w+`) in \[?`(crates/[^`]+\.antt)`(?:\]\(\S+\))?, ([\d,]+) lines")
#: What is made.
MADE = ("target", "dist", "out", "release")
#: Where it is said what threads cost.
THREADS = ("docs/BENCHMARKS.md", "docs/NET.md", "crates/chip_arguments/src/commands.rt")
#: What a page of examples/ says that goes into packages, where docs/ does not.
NOT_PACKED = "Installed packages do not include"


@functools.cache
def words():
    """Returns all words of the sources, and of the commands of the repository."""
    found = set()
    for path in files():
        if path.endswith(SOURCES) or "." not in os.path.basename(path):
            with open(f"{ROOT}/{path}", encoding="utf-8", errors="replace") as file:
                found.update(re.findall(r"\w+", file.read()))
    return found


@functools.cache
def names_of_files():
    """Returns the names of the repository's files, without their folders."""
    return {os.path.basename(it) for it in files()}


def is_there(path, page):
    """Returns whether a path that a page cites is one of the repository, of the page's folder or of a crate."""
    if path.split("/")[0] in MADE or path.startswith(("/", "~")) or ANY.search(path):
        return True
    folder = os.path.dirname(page)
    if os.path.exists(f"{ROOT}/{path}") or os.path.exists(f"{ROOT}/{folder}/{path}"):
        return True
    crates = os.listdir(f"{ROOT}/crates")
    return path in names_of_files() or any(os.path.exists(f"{ROOT}/crates/{it}/{path}") for it in crates)


def is_known(name):
    """Returns whether each part of a name stands in the sources."""
    return words().issuperset(re.findall(r"\w+", name))


def rows(page):
    """Returns the rows of the tables of a page, each by its cells."""
    return [line.strip("|").split("|") for line in text_of(page).splitlines() if line.startswith("|")]


def dead(page):
    """Returns what a page cites that is not there."""
    for cited in CITED.findall(BLOCKS.sub("", text_of(page))):
        if PATH.fullmatch(cited):
            if not is_there(cited.removesuffix("/.."), page):
                yield cited
        elif NAME.fullmatch(cited) and not is_known(cited):
            yield cited


def reduced():
    """Returns for each crate those that it depends on and none of the others depends on."""
    direct = prove.libraries()
    below = {name: set(prove.below(name, direct)) for name in direct}
    return {name: {it for it in its if not any(it in below[other] for other in its)} for name, its in direct.items()}


def drawn():
    """Returns what the drawing says: lines `crate: the crates that it depends on`, or `crate` alone."""
    drawing = text_of("docs/ARCHITECTURE.md").partition("```crates\n")[2].partition("```")[0]
    rows = re.findall(r"^ *\d* *(\w+)(?: *─+ *(.*))?$", drawing, re.MULTILINE)
    return {name: set(re.findall(r"\w+", its)) for name, its in rows}


def ports():
    """Returns the libraries of the kit that crates depend on."""
    named = prove.libraries()
    return {it for row in prove.rows(f"{ROOT}/crates.txt") for it in row.partition(":")[2].split() if it not in named}


def trusted():
    """Returns the libraries that docs/PROVED.md trusts."""
    return set(re.findall(r"`(\w+)`", text_of("docs/PROVED.md").partition("## What is trusted\n")[2]))


def tested_by():
    """Returns for each crate of tests the crates that its README says it tests, among those that it depends on."""
    direct = prove.libraries()
    crates = [it for it in direct if it.endswith("_tests")]
    return {it: {*prove.below(it, direct)} & {*re.findall(r"`(\w+)`", text_of(f"crates/{it}/README.md"))} for it in crates}


def contributed():
    """Returns for each crate of tests the crates that the table of CONTRIBUTING.md has for it."""
    table = {row[0].strip(" `"): set(re.findall(r"`(chip\w+)`", row[1])) for row in rows("CONTRIBUTING.md")}
    return {name: its for name, its in table.items() if name.endswith("_tests")}


def untested():
    """Returns the crates of the program that the table of CONTRIBUTING.md does not name."""
    return {*prove.below("chipfire", prove.libraries()), "chipfire"} - {
        it for row in rows("CONTRIBUTING.md") for it in re.findall(r"`(chip\w+)`", row[1])}


def unmeasured():
    """Returns the rows of README.md with seconds that no row of docs/BENCHMARKS.md has: the same seconds, in the same
    order, and all the numbers that say of what."""
    def read(page):
        return [(set(re.findall(r"\d[\d^]*", row[0])), re.findall(r"[\d.]+ s\b", "|".join(row[1:]))) for row in rows(page)]
    measured = read("docs/BENCHMARKS.md")
    return [" ".join(its) for of, its in read("README.md")
            if its and not any(of <= more and its == same for more, same in measured)]


def milliseconds(cell):
    """Returns the times in a cell of docs/BENCHMARKS.md: `13.1 ms`, or `100/1.24, 104/1.13` with ratios."""
    return [float(it.partition("/")[0].replace(",", "").removesuffix(" ms")) for it in cell.strip().split(", ") if it]


def played_by_threads():
    """Returns the times of the queue and of `--dealt` by game and ring, from docs/BENCHMARKS.md."""
    table = text_of("docs/BENCHMARKS.md").partition("## Threads")[2].partition("\n\nDealt to")[0]
    cells = [line.strip("|").split("|") for line in table.splitlines() if "/" in line and line.startswith("|")]
    games = {tuple(it.strip() for it in name.rsplit(";", 1)): its for name, *its in cells}
    return {(game.partition(":")[0], ring): [milliseconds(it) for it in its] for (game, ring), its in games.items()}


def costs_of_threads():
    """Returns what pages say that threads cost: `run` beside `plain`, four workers of the queue beside two, and rings of 64
    beside rings of 1."""
    plain = {row[0].partition(":")[0].strip(): row[1] for row in rows("docs/BENCHMARKS.md") if len(row) == 4}
    threads = played_by_threads()
    slower = [min(threads[it, "1"][1]) / milliseconds(plain[it])[0] for it in ("grid-six", "random-graph")]
    queue = [its[0][1] / its[0][0] for its in threads.values() if its[0]]
    long = [(its, threads[game, "1"]) for (game, ring), its in threads.items() if ring == "64"]
    rings = [a / b for its, others in long for one, other in zip(its, others) for a, b in zip(one, other)]
    yield f"{slower[0]:.0f} and {slower[1]:.0f} times as long"
    yield f"{min(queue):.2g} to {max(queue):.2g} times as long"
    yield f"{min(rings):.2g} to {max(rings):.2g} times as long"


def unsaid():
    """Returns what threads cost and is not said where it should be."""
    costs = list(costs_of_threads())
    said = [(path, cost) for path in THREADS for cost in costs] + [("README.md", costs[0])]
    return [f"{path}: {cost}" for path, cost in said if cost not in " ".join(text_of(path).split())]


def misproved():
    """Returns the line of the kit in release/PROVED, if README.md does not name it."""
    kit = re.search("^kit (.*)$", text_of("release/PROVED"), re.MULTILINE)[1]
    return [] if f"`{kit}`" in text_of("README.md") and text_of("README.md").count("rattle-kit-") == 1 else [kit]


def lines_of_proofs(crate):
    """Returns how many lines of proofs a crate has, to the hundred."""
    proofs = [it for it in files() if it.startswith(f"crates/{crate}/proofs/")]
    return format(round(sum(text_of(it).count("\n") for it in proofs), -2), ",")


def uncosted():
    """Returns what CONTRIBUTING.md should say of the lines and the cost of the crate that it names for that."""
    page = " ".join(text_of("CONTRIBUTING.md").split())
    found = re.search(r"`(\w+)` has ([\d,]+) lines of proofs [^.]* only ([^.]*?) costs? less", page)
    if found is None:
        return ["no crate"]
    crate, lines, cheaper = found.groups()
    costs = {name: int(cost) for name, cost in (it.split() for it in prove.rows(f"{ROOT}/tools/costs.txt"))}
    true = lines_of_proofs(crate), {name for name in costs if costs[name] < costs[crate]}
    return [] if true == (lines, set(re.findall(r"`(\w+)`", cheaper))) else [str(true)]


def untested_functions():
    """Returns the functions beside laws of the crates for which CONTRIBUTING.md names no tests, if it does not name them."""
    (row,) = (it for it in rows("CONTRIBUTING.md") if it[0].strip().startswith("none"))
    sources = [it for crate in re.findall(r"`(chip\w+)`", row[1]) for it in files() if it.startswith(f"crates/{crate}/src/")]
    found = {name for it in sources if not it.endswith("laws.rt") for name in re.findall(r"pub fn (\w+)", text_of(it))}
    return sorted(found - {*re.findall(r"`(\w+)`", row[0])})


def misplaced_refusals():
    """Returns the refusals by rule 15 that examples/detector/README.md counts, and those of the run, if they differ."""
    events = text_of("examples/detector/deficit.csv").splitlines()[1:]
    replies = text_of("examples/detector/deficit.txt").splitlines()
    replied = enumerate(zip(events, replies), 1)
    true = [(number, event.rpartition(",")[0]) for number, (event, reply) in replied if reply == "not-now 15"]
    said = [(int(n), of) for n, of in re.findall(r"Event (\d+), `([\w,]+)`", text_of("examples/detector/README.md"))]
    return [] if said == true else [f"{said}, {true}"]


def unnamed_examples():
    """Returns the folders of examples/ that its page does not name."""
    folders = {it.split("/")[1] for it in files() if it.startswith("examples/") and it.count("/") > 1}
    page = text_of("examples/README.md")
    return sorted(it for it in folders if f"`{it}`" not in page and f"`{it}/" not in page)


def unpacked_pages():
    """Returns the pages of examples/ that cite docs/ and do not say that it is in no package."""
    pages = [it for it in files() if it.startswith("examples/") and it.endswith(".md") and "docs/" in text_of(it)]
    return [it for it in pages if NOT_PACKED not in " ".join(text_of(it).split())]


def differing(one, other):
    """Returns the names for which two tables say different things."""
    return sorted(name for name in {*one, *other} if one.get(name) != other.get(name))


#: The comparisons: what is wrong if one finds something, and what finds it.
COMPARED = {
    "the drawing of docs/ARCHITECTURE.md is not that of crates.txt": lambda: differing(drawn(), reduced()),
    "docs/PROVED.md does not trust the libraries that crates.txt has": lambda: sorted(trusted() ^ ports()),
    "the table of CONTRIBUTING.md is not what the READMEs of the tests say": lambda: differing(contributed(), tested_by()),
    "the table of CONTRIBUTING.md lacks crates": lambda: sorted(untested()),
    "docs/BENCHMARKS.md has no row for figures of README.md": unmeasured,
    "it is not said what threads cost, by docs/BENCHMARKS.md": unsaid,
    "README.md does not name the kit of release/PROVED, and no other": misproved,
    "CONTRIBUTING.md does not say what a crate without code costs": uncosted,
    "the table of CONTRIBUTING.md does not name functions without tests": untested_functions,
    "examples/detector/README.md counts other refusals than deficit.txt has": misplaced_refusals,
    "examples/README.md does not name folders": unnamed_examples,
    "pages that are packed cite docs/, and do not say that it is in no package": unpacked_pages,
}


def wrong_page(page):
    """Returns what is wrong with what a page cites."""
    found = sorted(set(dead(page)))
    return [f"it cites what is not there: {', '.join(found)}"] if found else []


def wrong_comparison(wrong, find):
    """Returns what is wrong if a comparison finds something."""
    found = find()
    return [f"{wrong}: {', '.join(found)}"] if found else []


def places():
    """Returns the places of docs/PROVED.md."""
    return PLACE.findall(" ".join(text_of("docs/PROVED.md").split()))


def wrong_place(names, path, lines):
    """Returns what is wrong with a place of docs/PROVED.md: it has another number of lines."""
    true = format(definitions.count(path, re.findall(r"\w+", names)), ",")
    return [] if lines == true else [f"it rests on {true} lines of definitions, and not on {lines}"]


def tests():
    for page in (it for it in files() if it.endswith(".md")):
        yield page, functools.partial(wrong_page, page)
    for names, path, lines in places():
        yield f"{names} in {path}", functools.partial(wrong_place, names, path, lines)
    for wrong, find in COMPARED.items():
        yield f"not {wrong}", functools.partial(wrong_comparison, wrong, find)
