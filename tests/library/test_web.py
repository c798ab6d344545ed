"""The package for browsers and Node, beside the native library: random calls, each fault, memory that runs out, a large
grid, its types, and that the same sources make the same bytes. CHIPFIRE_SOAK is the number of random calls, else
1,000."""
import array
import collections
import ctypes
import json
import os
import random
import re
import shutil
import sys
import unittest

import chipfire
import contents
import library
from library import BUILT, LARGEST, ROOT, Room, avalanches, called, need, stabilize_all, verify
from test_books import NEUTRAL
from test_games import drawn, grid, spoilt, stepped
from test_piles import Pile
from test_recurrents import are_recurrent, burning, drawn_at_random, identity, represented
from test_sums import Kept
from packing import web

WEB = f"{BUILT}/{contents.WEB}"
TESTS = f"{ROOT}/tests/library/web"
CALLS = int(os.environ.get("CHIPFIRE_SOAK") or 1000)
#: The most bytes that a release has for browsers and Node.
MOST = 2_000_000
#: The oldest Node that the package takes.
NODE = 18
#: The calls that put another configuration in place of one.
REPRESENTATIVES = ("recurrent", "superstable", "inverse")


class Halves(ctypes.Structure):
    """A number of 128 bits, as C returns it."""

    _fields_ = [("low", library.WORD), ("high", library.WORD)]


def columns_of(graph):
    return [graph.vertices, graph.sink, [it.numbers for it in graph.columns]]


def graph_of(draw):
    """Draws a graph: small, a grid, or one that may have a fault."""
    what = draw.randrange(4)
    if what == 0:
        return grid(draw.randint(1, 9))
    return spoilt(draw, drawn(draw)) if what == 1 else drawn(draw)


def chips_of(draw, graph, count=1):
    most = draw.choice([3, 9, 9, 1000])
    chips = [draw.randint(0, most) for _ in range(graph.vertices * count)]
    if chips and draw.random() < 0.1:
        chips[draw.randrange(len(chips))] = draw.choice([LARGEST + 1, 2**63, NEUTRAL])
    return chips[: len(chips) - (draw.random() < 0.03)]


def limit_of(draw):
    return draw.choice([LARGEST, LARGEST, LARGEST, 2**20, 0, 1, 7, LARGEST + 1, NEUTRAL])


def ended(status, place, written):
    return [status, place, *([] if status else written)]


def games(draw):
    """Draws games on one graph. A case is a name, what is given, and what the native library returns of it."""
    graph, count, limit = graph_of(draw), draw.choice([0, 1, 1, 2, 4]), limit_of(draw)
    chips = chips_of(draw, graph, count)
    guesses = [draw.choice([0, 1, 5, 2**39, NEUTRAL]) for _ in chips] if draw.random() < 0.4 else []
    outputs = [chips, [0] * len(chips), [0] * count]
    returned = called(library.LIBRARY.chipfire_stabilize_all, graph, limit, [guesses], outputs)
    return "stabilizeAll", [columns_of(graph), limit, guesses, chips, count], [ended(*returned)]


def drops_of(draw, graph):
    vertices = max(1, graph.vertices + (draw.random() < 0.2))
    return [[draw.randrange(vertices), draw.choice([0, 1, 1, 2, 30])] for _ in range(draw.choice([0, 1, 5, 30]))]


def drops(draw):
    graph, limit = graph_of(draw), limit_of(draw)
    chips, its = chips_of(draw, graph), drops_of(draw, graph)
    status, place, returned = avalanches(graph, chips, its, limit)
    columns = [] if status else [returned[0], *([row[i] for row in returned[1]] for i in range(3))]
    at, amounts = ([it[i] for it in its] for i in range(2))
    return "avalanches", [columns_of(graph), limit, at, amounts, chips], [ended(status, place, columns)]


def claims(draw):
    graph, limit = graph_of(draw), limit_of(draw)
    chips = chips_of(draw, graph)
    returned = stabilize_all(graph, [chips], limit)[2]
    ends, fired = returned[0][:2] if returned else (chips, [0] * len(chips))
    if ends and draw.random() < 0.5:
        side = draw.choice([ends, fired])
        side[draw.randrange(len(side))] ^= draw.choice([1, 2**63])
    return "verify", [columns_of(graph), limit, chips, fired, ends], [[*verify(graph, chips, fired, ends, limit)]]


def piles(draw):
    graph, limit = graph_of(draw), limit_of(draw)
    chips, pile = chips_of(draw, graph), Pile(graph)
    status, place = pile.new(chips, limit)
    steps, found = [], [[status, place]]
    for drop in drops_of(draw, graph) if not status else []:
        step, returned = step_on(draw, pile, limit, drop)
        steps.append(step)
        found += [returned, pile.now()]
    pile.free()
    return "pile", [columns_of(graph), limit, chips, steps], found


def step_on(draw, pile, limit, drop):
    """Draws a call on a pile. Returns what is given, and what the native library returns of it."""
    what = draw.choice(["put", "draw", "drops", "drops", *["drop"] * 7])
    if what == "draw":
        numbers = numbers_of_draw(draw)
        status, chips, place = pile.draw(*numbers)
        return [what, *numbers], ended(status, place, [chips])
    if what == "put":
        chips = chips_of(draw, pile.graph)
        return [what, chips], [pile.put(chips, limit), 0]
    if what == "drop":
        status, returned = pile.drop(*drop)
        return [what, *drop], ended(status, 0, returned)
    its = drops_of(draw, pile.graph)
    status, place, rows = pile.drops(its)
    made = {0: len(rows), 13: place}.get(status, 0)
    columns = [[row[i] for row in rows[:made]] for i in range(3)]
    return [what, *([it[i] for it in its] for i in range(2))], [status, place, *(columns if status in (0, 13) else [])]


def numbers_of_draw(draw):
    """Draws a seed, the number of the first random configuration, and how many there are."""
    return [draw.choice([0, 1, 2**53 + 1, NEUTRAL]), draw.choice([0, 0, 3, NEUTRAL]), draw.choice([0, 1, 1, 3])]


def draws(draw):
    graph, numbers = graph_of(draw), numbers_of_draw(draw)
    status, place, rows = drawn_at_random(graph, *numbers)
    return "draw", [columns_of(graph), *numbers], [ended(status, place, [sum(rows, [])])]


def groups(draw):
    """Draws a call on recurrent configurations."""
    graph, name = graph_of(draw), draw.choice(["burning", "areRecurrent", "identity", *REPRESENTATIVES])
    chips = chips_of(draw, graph, draw.choice([0, 1, 1, 3]))
    rows = [chips[i:i + graph.vertices] for i in range(0, len(chips), graph.vertices)]
    if name in ("burning", "identity"):
        status, place, *returned = (burning if name == "burning" else identity)(graph)
    elif name == "areRecurrent":
        status, place, *returned = are_recurrent(graph, rows)
    else:
        function = getattr(library.LIBRARY, f"chipfire_{name}")
        status, place, found = represented(function, graph, rows)
        returned = [sum(found, [])]
    return "group", [columns_of(graph), name, chips], [ended(status, place, returned)]


def edges_of(draw):
    """Draws edges, mostly other ones each."""
    edges = draw.sample(range(6), draw.choice([0, 1, 2, 3, 5]))
    if edges and draw.random() < 0.1:
        edges[draw.randrange(len(edges))] = draw.choice([0, 5, NEUTRAL])
    return edges


def acknowledged(kept, passive):
    """Acknowledges all that may be, the parent's messages last. Returns each edge with how many are acknowledged so far."""
    ins, _, parent, *_ = kept.now()
    owed = sorted((edge == parent, edge) for edge, messages, answered in ins if answered < messages)
    pairs = []
    for _, edge in owed:
        status, count, so_far = kept.step("acknowledge", edge, 0, passive)
        assert status == 0, edge
        if count:
            pairs.append([edge, so_far])
    return sorted(pairs)


def books(draw):
    """Draws books, and steps on them."""
    ins, outs = edges_of(draw), edges_of(draw)
    kept = Kept(*([(edge, 0, 0) for edge in sorted(side)] for side in (ins, outs)), NEUTRAL)
    steps, status = [], kept.call("open")
    found = [[status, 0]]
    for _ in range(0 if status else draw.choice([5, 40])):
        given, returned = step_of(draw, kept)
        steps.append(given)
        found += [returned, [kept.struct.parent, kept.struct.deficit]]
    return "books", [ins, outs, steps], found


def step_of(draw, kept):
    """Draws a step on books. Returns what is given, and what the native library returns of it."""
    name, edge, flag = draw.choice(["sent", "got", "acknowledge", "settled", "isOver"]), draw.randrange(6), draw.random() < 0.5
    if name == "acknowledge":
        return [name, flag], [0, 0, *acknowledged(kept, flag)]
    word = draw.choice([0, 1, 1, 2, 3, LARGEST, NEUTRAL])
    words = {"settled": [edge, word], "isOver": [flag]}.get(name, [edge])
    status, returned, _ = kept.step({"isOver": "is_over"}.get(name, name), edge, word, flag)
    return [name, *words], ended(status, 0, [returned] if name in ("settled", "isOver") else [])


def grids(draw):
    """Draws a lattice. Its edges are those that the Python package has, which shares nothing with the other."""
    lattice, periodic = draw.choice(["square", "triangular", "hexagonal"]), [draw.random() < 0.3 for _ in range(2)]
    rows, columns = (2 * draw.randint(1, 4) + (not joined and draw.randrange(2)) for joined in periodic)
    loss = draw.randint(all(periodic), 2)
    graph = chipfire.grid(rows=rows, columns=columns, lattice=lattice, periodic=periodic[::-1], loss=loss)
    sums = collections.Counter()
    for tail, head, mult in graph.edges:
        sums[tail, head] += mult
    edges = [[*ends, mult] for ends, mult in sorted(sums.items())]
    given = periodic[0] if len({*periodic}) == 1 and draw.random() < 0.5 else periodic
    return "grid", [rows, columns, lattice, given, loss], [graph.vertices, graph.sink, edges]


def texts(it):
    """Numbers as texts, since a number of JSON has 53 bits in JavaScript; what is true or false stays so."""
    if isinstance(it, (list, tuple)):
        return [texts(inner) for inner in it]
    return str(it) if isinstance(it, int) and not isinstance(it, bool) else it


DRAWN = games, drops, claims, piles, books, grids, groups, draws


@unittest.skipUnless(os.path.isdir(WEB), f"{contents.WEB}/ is not beside the program: tools/webassembly.py makes it")
class Web(Room):
    def node(self, name, **given):
        """Runs a file of tests of Node."""
        need("node")
        version = int(self.runs("node", "--version").lstrip("v").partition(".")[0])
        if version < NODE:
            self.skipTest(f"Node {version} is older than {NODE}")
        words = {f"CHIPFIRE_{key}": str(it) for key, it in {"WEB": WEB, **given}.items()}
        shown = self.runs("node", "--test", f"{TESTS}/{name}.test.mjs", env={**os.environ, **words})
        self.assertRegex(shown, r"(?m)^. pass [1-9]")
        for word in ("skipped", "todo"):
            self.assertRegex(shown, rf"(?m)^. {word} 0$")

    def test_random_calls_beside_the_native_library(self):
        draw, seen = random.Random("library: web"), set()
        with open(f"{self.room}/cases", "w", encoding="ascii") as file:
            for number in range(CALLS):
                name, given, found = DRAWN[number % len(DRAWN)](draw)
                if name != "grid":
                    seen.update(it[0] for it in (found[0], *found[1::2]))
                file.write(json.dumps([name, *map(texts, (given, found))]) + "\n")
        self.assertLessEqual({0, 2, 4, 5, 6, 7, 8, 9, 10, 11, 12, 13, 26, 46, 53}, seen)
        self.node("calls", CASES=f"{self.room}/cases", COUNT=CALLS)

    def test_the_module(self):
        number = library.LIBRARY.chipfire_version()
        version = f"{number // 10**6}.{number // 1000 % 1000}.{number % 1000}"
        self.node("module", DECLARED=" ".join(library.declared()), VERSION=version)
        with open(f"{WEB}/package.json", encoding="utf-8") as file:
            self.assertEqual(json.load(file)["version"], version)

    def test_each_fault(self):
        """Those of the header but 47, which no call of the package has. One has a test by itself: that memory runs out."""
        self.node("faults")
        with open(f"{WEB}/faults.js", encoding="utf-8") as file:
            numbers = {int(it) for it in re.findall(r"(?m)^  (\d+): \[", file.read())}
        with open(f"{TESTS}/faults.test.mjs", encoding="utf-8") as file:
            tried = {int(it) for it in re.findall(r"(?m)^  \[(\d+), \d+, \"", file.read())}
        with open(library.HEADER, encoding="ascii") as file:
            header = file.read()
        table = header.partition("if the fault has no place.")[2].partition("The first fault")[0]
        listed = re.findall(r"(?<![\^\d])([1-9]\d*) [a-z]", table) + re.findall(r"(?m)^ \*     (4\d)  ", header)
        self.assertEqual(numbers | {47}, {*map(int, listed)})
        self.assertEqual(tried | {90}, numbers)

    def test_memory_that_runs_out(self):
        self.node("memory")

    def test_a_large_grid(self):
        side, chips = 255, 2**17
        start = [0] * (side * side + 1)
        start[side * side // 2] = chips
        status, _, found = stabilize_all(grid(side), [start])
        self.assertEqual(status, 0)
        with open(f"{self.room}/large", "wb") as file:
            array.array("Q", [*found[0][0], *found[0][1]]).tofile(file)
        self.node("large", LARGE=f"{self.room}/large", SIDE=side, CHIPS=chips)

    def packed(self):
        """Puts the package where Node and tsc look for it."""
        os.makedirs(f"{self.room}/node_modules")
        os.symlink(WEB, f"{self.room}/node_modules/chipfire")

    def test_products_of_128_bits(self):
        """The module's own function for them, compiled for this machine: plays seldom need their upper half."""
        need("gcc")
        words = ["-D__multi3=product", "-D__heap_base=base", "-D__builtin_wasm_memory_size(at)=0"]
        words += ["-D__builtin_wasm_memory_grow(at,pages)=(0*(pages))"]
        with open(f"{self.room}/base.c", "w", encoding="ascii") as file:
            file.write("unsigned char base;\n")
        sources = [f"{ROOT}/tools/heap.c", f"{self.room}/base.c"]
        self.runs("gcc", "-O1", "-shared", "-fPIC", *words, *sources, "-o", f"{self.room}/product.so")
        product = ctypes.CDLL(f"{self.room}/product.so").product
        product.restype, product.argtypes = Halves, [library.WORD] * 4
        draw = random.Random("library: products")
        for _ in range(1000):
            one, other = (draw.getrandbits(draw.choice([1, 32, 64, 65, 128])) for _ in range(2))
            found = product(*(half for it in (one, other) for half in (it % 2**64, it >> 64)))
            self.assertEqual((found.high << 64) + found.low, one * other % 2**128, (one, other))

    def test_its_types(self):
        need("tsc")
        self.packed()
        shutil.copy(f"{TESTS}/use.ts", f"{self.room}/use.mts")
        words = ["--noEmit", "--strict", "--target", "es2020", "--lib", "es2020,dom", "--module", "node16"]
        self.runs("tsc", *words, "use.mts", cwd=self.room)

    def expect_example(self):
        """The example of its page: 225 topplings, as firing one vertex after another has them."""
        with open(f"{WEB}/README.md", encoding="utf-8") as file:
            code = re.search(r"^```js\n(.*?)^```", file.read(), re.DOTALL | re.MULTILINE)[1]
        with open(f"{self.room}/example.mjs", "w", encoding="utf-8") as file:
            file.write(f"{code}console.log(fired.reduce((sum, it) => sum + it, 0n), chips.slice(0, 7).join(''));\n")
        start = [0] * 50
        start[24] = 100
        ends, fired, *_ = stepped(grid(7), start, LARGEST)
        shown = self.runs("node", "example.mjs", cwd=self.room)
        self.assertEqual(shown, f"{sum(fired)}n {''.join(map(str, ends[:7]))}\n")

    def test_the_example_of_its_page(self):
        need("node")
        self.packed()
        self.expect_example()

    def test_npm_installs_what_is_in_a_release(self):
        """Without network; and a release has room for it."""
        need("node", "npm")
        carried = web.built_in(BUILT)
        self.assertLess(sum(map(len, carried.values())), MOST)
        with open(f"{self.room}/{contents.npm_name()}", "wb") as file:
            file.write(carried[contents.NPM])
        quiet = ["--offline", "--no-audit", "--no-fund", "--no-update-notifier", f"--cache={self.room}/cache"]
        self.runs("npm", "install", *quiet, f"./{contents.npm_name()}", cwd=self.room)
        installed = os.listdir(f"{self.room}/node_modules/chipfire")
        self.assertEqual({*installed, contents.BOARD}, {*os.listdir(WEB), contents.BOARD})
        self.expect_example()

    def test_the_same_sources_make_the_same_bytes(self):
        need("rt", "wasm-opt")
        if not os.path.isfile(f"{ROOT}/crates/chip_exports/out/libchip_exports.a"):
            self.skipTest("nothing was built of chip_exports here")
        for tool in ("webassembly", "board"):
            self.runs(sys.executable, f"{ROOT}/tools/{tool}.py", f"{self.room}/again")
        names = sorted(os.listdir(WEB))
        self.assertEqual(sorted(os.listdir(f"{self.room}/again")), names)
        for name in names:
            made = []
            for folder in (WEB, f"{self.room}/again"):
                with open(f"{folder}/{name}", "rb") as file:
                    made.append(file.read())
            self.assertTrue(made[0] == made[1], name)

    def test_a_tool_that_is_missing_is_named(self):
        os.mkdir(f"{self.room}/bin")
        tool = [sys.executable, f"{ROOT}/tools/webassembly.py", f"{self.room}/js"]
        ran = library.run(*tool, env={"PATH": f"{self.room}/bin"})
        self.assertEqual((ran.returncode, ran.stdout), (1, ""))
        self.assertIn("wasm-opt is not on the PATH: Debian's package binaryen has it", ran.stderr)
        self.assertFalse(os.path.exists(f"{self.room}/js"))


if __name__ == "__main__":
    unittest.main()
