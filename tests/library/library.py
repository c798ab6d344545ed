"""The library as Python finds it by ctypes alone, and the program beside it."""
import ctypes
import operator
import os
import re
import shutil
import subprocess
import tempfile
import unittest
from array import array

ROOT = os.path.dirname(os.path.dirname(os.path.dirname(os.path.realpath(__file__))))
BUILT = os.environ["CHIPFIRE_BUILT"]
PROGRAM, SHARED, STATIC = (f"{BUILT}/{name}" for name in ("chipfire", "libchipfire.so", "libchipfire.a"))
INCLUDE = f"{ROOT}/include"
HEADER = f"{INCLUDE}/chipfire.h"
LARGEST = 2**40
WORD = ctypes.c_uint64


def declared():
    """Returns the functions that the header declares, each with what it returns and its parameters' types."""
    with open(HEADER, encoding="ascii") as file:
        text = re.sub(r"/\*.*?\*/", "", file.read(), flags=re.DOTALL)
    found = re.findall(r"^(uint64_t|void) (chipfire_\w+)\(([^)]*)\);", text, re.MULTILINE)
    return {name: (kind, [" ".join(it.split()[:-1]) + "*" * it.count("*") for it in of.split(",") if it.strip() != "void"])
            for kind, name, of in found}


def loaded(path=SHARED):
    """Returns the library in this process, its functions declared as the header does."""
    kinds = {"uint64_t": WORD, "size_t": ctypes.c_size_t}
    library = ctypes.CDLL(path)
    for name, (kind, parameters) in declared().items():
        function = getattr(library, name)
        function.restype = kinds.get(kind)
        function.argtypes = [ctypes.c_void_p if "*" in it else kinds[it] for it in parameters]
    return library


LIBRARY = loaded()


class CArray:
    """Numbers in memory as C has them, with a guard after them that no call may write."""

    GUARD = 0x5A5A5A5A5A5A5A5A

    def __init__(self, numbers):
        self.numbers = list(numbers)
        self.memory = array("Q", self.numbers)
        self.memory.append(self.GUARD)

    def words(self):
        return self.memory.buffer_info()[0], len(self.numbers)

    def now(self):
        numbers = self.memory.tolist()
        assert numbers.pop() == self.GUARD, "written after its end"
        return numbers


class Graph:
    """A graph as it is handed over: vertices, sink and rows [tail, head, mult]."""

    def __init__(self, vertices, sink, edges):
        self.vertices, self.sink, self.edges = vertices, sink, [tuple(it) for it in edges]
        self.columns = [CArray(map(operator.itemgetter(i), self.edges)) for i in range(3)]

    def words(self):
        return self.vertices, self.sink, *(word for it in self.columns for word in it.words())


def called(function, graph, limit, inputs, outputs):
    """Returns the status of a call, its place, and what stands in the arrays that it may write.

    On a fault these are as they were, which is checked here. `limit` is None where the call has none, and a tuple where it
    has several numbers there."""
    inputs, outputs, place = [CArray(it) for it in inputs], [CArray(it) for it in outputs], CArray([7])
    words = [word for it in (*inputs, *outputs) for word in it.words()]
    numbers = limit if isinstance(limit, tuple) else (limit,) * (limit is not None)
    status = function(*graph.words(), *numbers, *words, place.words()[0])
    now = [it.now() for it in outputs]
    assert status == 0 or now == [it.numbers for it in outputs], "a fault that has written"
    assert [it.now() for it in (*inputs, *graph.columns)] == [it.numbers for it in (*inputs, *graph.columns)]
    return status, place.now()[0], now


def stabilize_all(graph, games, limit=LARGEST, guesses=()):
    """Plays games, each a list of chips. Returns (0, 0, [(chips, fired, stopped) of each]), or status, place and None."""
    chips = [it for game in games for it in game]
    outputs = [chips, [3] * len(chips), [5] * len(games)]
    status, place, (ends, fired, stopped) = called(
        LIBRARY.chipfire_stabilize_all, graph, limit, [[it for row in guesses for it in row]], outputs)
    if status:
        return status, place, None
    n = graph.vertices
    return 0, place, [(ends[n * i:n * i + n], fired[n * i:n * i + n], it) for i, it in enumerate(stopped)]


def avalanches(graph, chips, drops, limit=LARGEST):
    """Drops chips, each on a vertex. Returns (0, 0, (ends, [(size, extent, lost) of each])), or status, place and None."""
    outputs = [chips, *([9] * len(drops) for _ in range(3))]
    status, place, (ends, *columns) = called(
        LIBRARY.chipfire_avalanches, graph, limit, [[at for at, _ in drops], [many for _, many in drops]], outputs)
    return (status, place, None) if status else (0, place, (ends, list(zip(*columns))))


def verify(graph, chips, fired, ends, limit=LARGEST):
    """Says whether counts and chips are those of a game's end. Returns the status and the place."""
    return called(LIBRARY.chipfire_verify, graph, limit, [chips, fired, ends], [])[:2]


def need(*tools):
    """Skips a test where a tool of the system is missing."""
    for tool in tools:
        if shutil.which(tool) is None:
            raise unittest.SkipTest(f"there is no {tool}")


def run(*words, **how):
    """Runs a command and returns what came of it, with its output as text."""
    return subprocess.run(words, stdin=subprocess.DEVNULL, capture_output=True, encoding="utf-8", timeout=300, **how)


class Room(unittest.TestCase):
    """A test with a folder of its own."""

    def setUp(self):
        folder = tempfile.TemporaryDirectory(prefix="chipfire-library-")
        self.addCleanup(folder.cleanup)
        self.room = folder.name

    def runs(self, *words, **how):
        """Runs a command that ends with status 0, and returns its output."""
        ran = run(*words, **how)
        self.assertEqual(ran.returncode, 0, f"{' '.join(words)}: {ran.stdout}{ran.stderr}")
        return ran.stdout
