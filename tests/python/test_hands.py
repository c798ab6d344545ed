"""What users of SageMath, NumPy, SciPy and pandas expect: spellings, seeds, sizes, arrays, tables, files and types.

Values come from SageMath's results, from the slow words of `model`, and from calculations by hand.
"""
import base64
import copy
import dataclasses
import importlib
import itertools
import json
import os
import pickle
import random
import shutil
import tempfile
import unittest
from unittest import mock

import chipfire
import model
import typed_use
from test_sandpiles import CASES, has

IS_HERE = chipfire.find_library() is not None
#: How many of many games are played: without the library each starts the program some times.
SOME = 120 if IS_HERE else 8
#: Four vertices in a row with names, each with an edge to the next one.
ROW = chipfire.Graph.undirected([("a", "b"), ("b", "c"), ("c", "s")], "s")
DIRECTED = chipfire.Graph(4, 3, [(0, 1, 2), (1, 2), (1, 3), (2, 1, 2), (2, 3)])


def inner(graph, numbers):
    """Numbers of all vertices, without that of the sink."""
    return tuple(count for vertex, count in enumerate(numbers) if vertex != graph.sink)


class Sage(unittest.TestCase):
    def test_methods_of_a_graph_are_what_sage_says(self):
        for case in CASES:
            with self.subTest(case.how):
                self.assertEqual(case.graph.identity(), case.named(case.stored["identity"]))
                self.assertEqual(case.graph.order(), int(case.stored["order"]))

    def test_the_wave_stabilizes_as_in_sage(self):
        for case in CASES:
            for play in case.stored["plays"]:
                with self.subTest(case.how):
                    chips = chipfire.Configuration(case.graph, case.named(play["chips"]))
                    self.assertEqual(~chips, case.named(play["stable"]))
                    self.assertIs(type(~chips), chipfire.Configuration)
                    self.assertEqual(chips.equivalent_recurrent(), case.named(play["representative"]))

    def test_the_ampersand_adds_and_stabilizes(self):
        for graph in (chipfire.complete(4), ROW, DIRECTED):
            stable = itertools.product(*(range(most + 2) for most in graph.max_stable().values()))
            pairs = [*itertools.combinations([chipfire.Configuration(graph, it) for it in stable], 2)]
            for first, second in pairs[:: len(pairs) // SOME or 1]:
                together = [a + b for a, b in zip(first.numbers, second.numbers)]
                wanted = inner(graph, model.stabilized(graph, together)[0])
                numbers = tuple(second.values())
                for found in (first & second, first & numbers, numbers & first, first & dict(second)):
                    self.assertEqual(tuple(found.values()), wanted)
        self.assertEqual(1 & ROW.max_stable(), ~(ROW.max_stable() + 1))

    def test_the_group_of_the_square_by_hand(self):
        # (one of the three vertices at most is empty, and that in the middle is in the identity: by firing all once)
        square = chipfire.cycle(4)
        element = chipfire.Configuration(square, (1, 1, 0))
        powers = [square.identity()]
        for _ in range(4):
            powers.append(powers[-1] & element)
        self.assertEqual(square.order(), 4)
        self.assertEqual([tuple(it.values()) for it in powers], [(1, 0, 1), (1, 1, 0), (1, 1, 1), (0, 1, 1), (1, 0, 1)])

    def test_representatives_are_the_only_equivalent_ones(self):
        for graph in (chipfire.complete(4), DIRECTED):
            class_of = model.classes(graph)
            recurrents = {class_of(chips): inner(graph, chips) for chips in model.recurrents(graph)}
            width = range(graph.vertices - 1)
            full = {chips: [*chips[: graph.sink], 0, *chips[graph.sink :]] for chips in model.superstables(graph)}
            superstables = {class_of(numbers): chips for chips, numbers in full.items()}
            for chips in itertools.islice(itertools.product(range(-2, 4), repeat=len(width)), 0, None, 240 // SOME):
                held = chipfire.Configuration(graph, chips)
                found = held.equivalent_recurrent(), held.equivalent_superstable()
                wanted = recurrents[class_of(held.numbers)], superstables[class_of(held.numbers)]
                self.assertEqual(tuple(tuple(it.values()) for it in found), wanted, chips)

    def test_what_is_refused(self):
        most = ROW.max_stable()
        for call in (lambda: ~(most - 5), lambda: most & -5, lambda: -5 & most):
            with self.assertRaisesRegex(ValueError, "the chips of vertex 'a' are below 0"):
                call()
        rows = [({"z": 1}, KeyError, "no vertex 'z'"), ({1, 2}, TypeError, "no set"), ([0.5] * 3, TypeError, "'a'"),
                (chipfire.cycle(4).max_stable(), ValueError, "one of another graph"), ([1], ValueError, "for 1 vertices")]
        for wrong, kind, text in rows:
            for call in (lambda: most & wrong, lambda: wrong & most):
                with self.subTest(wrong=wrong), self.assertRaisesRegex(kind, text):
                    call()
        stuck = chipfire.Graph(3, 2, [(0, 1), (1, 0)])
        for call in (stuck.identity, stuck.order):
            with self.assertRaisesRegex(ValueError, "no walk leads to the sink from 2 of the vertices: 0, 1"):
                call()


#: What draws by a seed: each returns something that can be compared.
DRAWS = {
    "random_drops": lambda seed: list(chipfire.random_drops(chipfire.grid(4, 3), 99, seed)),
    "random_recurrent": lambda seed: chipfire.random_recurrent(chipfire.grid(4, 3), seed),
    "many of random_recurrent": lambda seed: chipfire.random_recurrent(chipfire.grid(4, 3), seed, 40),
    "random_schedule": lambda seed: chipfire.random_schedule(chipfire.Setting(ROW, 3), seed),
}
if IS_HERE:
    DRAWS["chains"] = lambda seed: chipfire.chains(ROW, 3, 20, seed).seeds
    DRAWS["chains with starts"] = lambda seed: chipfire.chains(ROW, 3, 20, seed, chips=0).seeds


class Seeds(unittest.TestCase):
    def test_numbers_and_texts_draw_by_python_s_own(self):
        for seed in (0, 3, -3, 2**70, "3", b"3", 2.5):
            wanted = random.Random(seed).choices(range(12), k=99)
            self.assertEqual(DRAWS["random_drops"](seed), wanted)

    @unittest.skipUnless(has("numpy"), "NumPy is not here")
    def test_a_generator_of_numpy_gives_the_next_number_that_it_has(self):
        import numpy

        for name, draw in DRAWS.items():
            for kind in (numpy.random.PCG64, numpy.random.MT19937):
                with self.subTest(name, kind=kind):
                    generator, other = (numpy.random.Generator(kind(5)) for _ in range(2))
                    for number in other.integers(0, 2**64, 3, "uint64").tolist():
                        self.assertEqual(draw(generator), draw(number))
                    self.assertEqual(generator.random(), other.random())

    @unittest.skipUnless(has("numpy"), "NumPy is not here")
    def test_a_sequence_of_seeds_gives_each_call_the_same(self):
        import numpy

        sequence = numpy.random.SeedSequence(5)
        low, high = sequence.generate_state(2).tolist()
        others = sequence.spawn(2)
        for name, draw in DRAWS.items():
            with self.subTest(name):
                self.assertEqual([draw(sequence), draw(sequence)], [draw(low + 2**32 * high)] * 2)
                self.assertEqual(draw(others[0]), draw(numpy.random.SeedSequence(5, spawn_key=(0,))))
        self.assertEqual(len({tuple(DRAWS["random_drops"](it)) for it in (sequence, *others)}), 3)

    @unittest.skipUnless(has("numpy") and IS_HERE, "NumPy or the library is not here")
    def test_chains_have_the_number_that_plays_them_again(self):
        import numpy

        grid, generator = chipfire.grid(4, 3), numpy.random.default_rng(5)
        number = int(numpy.random.default_rng(5).integers(0, 2**64, dtype="uint64"))
        found = chipfire.chains(grid, 3, 40, generator)
        self.assertEqual((type(found.seed), found.seed), (int, number))
        again, other = chipfire.chains(grid, 3, 40, found.seed), chipfire.chains(grid, 3, 40, generator)
        self.assertEqual((again.seeds, again.size.tolist()), (found.seeds, found.size.tolist()))
        self.assertNotEqual(other.seeds, found.seeds)

    @unittest.skipUnless(has("numpy"), "NumPy is not here")
    def test_what_is_refused_draws_nothing(self):
        import numpy

        generator, state = numpy.random.default_rng(5), numpy.random.default_rng(5).bit_generator.state
        lonely = chipfire.Graph(1, 0, [])
        for call in (lambda: chipfire.random_drops(lonely, 1, generator),
                     lambda: chipfire.random_drops(ROW, -1, generator),
                     lambda: chipfire.random_recurrent(DIRECTED, generator),
                     lambda: chipfire.chains(ROW, 0, 1, generator)):
            with self.assertRaises(ValueError):
                call()
        self.assertEqual(generator.bit_generator.state, state)


def some_graphs():
    """Graphs with each thing that a graph may have."""
    yield from [ROW, DIRECTED, chipfire.grid(4, 3), chipfire.torus(3, 4), chipfire.grid(2, 3, 2, loss=1), chipfire.aztec(2)]
    yield chipfire.Graph.undirected([((0, "a"), (1, None), 3), ((1, None), 2.5)], 2.5)
    yield chipfire.Graph(3, 2, [(0, 1, 3), (1, 2)], ["x", "y", "z"], from_sink=[(0, 2)], loops=[2, 0, 0])


def asked(graph):
    """Results of all kinds about a graph, which keeps some of them."""
    results = [graph.shape, graph.edges, graph.degrees(), graph.wrong, graph.number(graph.names[0]), graph.squares]
    results += [graph.max_stable(), graph.identity(), graph.order(), chipfire.laplacian(graph), graph.loops, graph.names]
    results += [chipfire.is_recurrent(graph, graph.max_stable()), chipfire.burning_script(graph), graph.outs(0)]
    results += [chipfire.stabilize(graph, 7), chipfire.plain(graph, 7), (graph.max_stable() + 3).equivalent_superstable()]
    if not graph.loops:
        results += [graph.text(), *map(list, graph.long_columns)]
    return results


class Pickles(unittest.TestCase):
    def test_a_pickle_of_a_graph_is_as_long_whatever_was_asked(self):
        for graph in some_graphs():
            before = pickle.dumps(graph)
            wanted = asked(graph)
            for protocol in range(pickle.HIGHEST_PROTOCOL + 1):
                for other in (pickle.loads(pickle.dumps(graph, protocol)), copy.copy(graph), copy.deepcopy(graph)):
                    self.assertEqual((other, other.answers, type(other)), (graph, {}, chipfire.Graph))
                    self.assertEqual(other.from_sink, graph.from_sink)
                self.assertEqual(asked(other), wanted)
            # (a shape may have been found)
            self.assertLess(len(pickle.dumps(graph)) - len(before), 40)
            self.assertEqual(asked(pickle.loads(before)), wanted)

    def test_results_carry_their_graph_and_nothing_that_it_keeps(self):
        grid = chipfire.grid(60, 50)
        # (an edge has three numbers of 32 bits, and a vertex few bytes in each result)
        most = 12 * len(grid.columns.tails) + 12 * grid.vertices + 2000
        report = chipfire.plain(grid, 7)
        drops = chipfire.drops(grid, grid.max_stable(), [0, 1, 2])
        results = [grid, report, report.configuration, drops, chipfire.Setting(grid, 3), ~grid.max_stable()]
        for result in results:
            before = len(pickle.dumps(result))
            self.assertLess(before, most, type(result))
            grid.identity(), grid.edges, grid.long_columns, grid.shape, grid.number(3), grid.wrong
            self.assertEqual(len(pickle.dumps(result)), before)
            again = pickle.loads(pickle.dumps(result))
            if not isinstance(result, (chipfire.Drops, chipfire.Setting)):
                self.assertEqual(again, result)
        again = pickle.loads(pickle.dumps(drops))
        self.assertEqual((again.size.tolist(), again.report), (drops.size.tolist(), drops.report))

    def test_a_graph_that_was_unpickled_is_never_changed(self):
        other = pickle.loads(pickle.dumps(ROW))
        with self.assertRaisesRegex(AttributeError, "never changed"):
            other.sink = 0
        self.assertIsNot(other.answers, ROW.answers)


class Sizes(unittest.TestCase):
    def test_rows_and_columns_are_height_and_width(self):
        options = [{}, {"loss": 1}, {"periodic": (True, False)}, {"lattice": "triangular"}, {"periodic": True, "loss": [3] * 6}]
        for some in options:
            with self.subTest(some):
                found = chipfire.grid(rows=2, columns=3, **some)
                self.assertEqual((found, found.shape), (chipfire.grid(3, 2, **some), (2, 3)))
        torus = chipfire.torus(columns=4, rows=3)
        self.assertEqual((torus, torus.shape), (chipfire.torus(4, 3), (3, 4)))
        self.assertEqual(chipfire.grid(width=4, height=3), chipfire.grid(4, 3))
        # (in a row below the first one, a vertex has that above it, and those beside it)
        self.assertIn((3, 0, 1), chipfire.grid(rows=2, columns=3).edges)

    def test_sizes_that_do_not_fit_together_are_refused_by_their_names(self):
        rows = [((), {}, "said: none of them"), ((3,), {}, "said: width"), ((), {"rows": 3}, "said: rows"),
                ((), {"columns": 3}, "said: columns"), ((3,), {"rows": 3}, "said: width, rows"),
                ((3,), {"columns": 3}, "said: width, columns"), ((), {"height": 3, "columns": 3}, "said: height, columns"),
                ((3, 3), {"rows": 3}, "said: width, height, rows"),
                ((3, 3), {"rows": 3, "columns": 3}, "said: width, height, rows, columns")]
        for make, name in ((chipfire.grid, "a grid"), (chipfire.torus, "a torus")):
            for sizes, named, text in rows:
                with self.subTest(name, text=text), self.assertRaises(TypeError) as raised:
                    make(*sizes, **named)
                self.assertEqual(str(raised.exception), f"{name} has a width and a height, or rows and columns; {text}")
        with self.assertRaisesRegex(TypeError, "said: width, height, rows, columns"):
            chipfire.grid(3, 3, 3, rows=3, columns=3)
        for sizes, text in [({"rows": 0, "columns": 3}, "the number of rows is below 1: 0"),
                            ({"rows": 3, "columns": -1}, "the number of columns is below 1: -1")]:
            with self.assertRaisesRegex(ValueError, text):
                chipfire.grid(**sizes)
        with self.assertRaisesRegex(TypeError, "the number of rows is no whole number: 'x'"):
            chipfire.grid(rows="x", columns=3)
        with self.assertRaisesRegex(ValueError, "the number of rows of a torus is below 3: 2"):
            chipfire.torus(rows=2, columns=3)


class Lists(unittest.TestCase):
    def rows_of(self, found):
        return [*map(tuple, found.tolist() if has("numpy") else found)]

    def test_all_of_a_graph_are_rows_of_one_array(self):
        for graph in (chipfire.complete(4), ROW, DIRECTED, chipfire.grid(2, 2), chipfire.Graph(1, 0, [])):
            found = chipfire.recurrents(graph, as_array=True)
            rows = self.rows_of(found)
            self.assertEqual({*rows}, model.recurrents(graph))
            self.assertEqual(len(rows), len({*rows}))
            self.assertEqual(rows, [it.numbers for it in chipfire.recurrents(graph)])
            others = self.rows_of(chipfire.superstables(graph, as_array=True))
            self.assertEqual(others, [it.numbers for it in chipfire.superstables(graph)])
            if graph.vertices > 1:
                self.assertEqual({inner(graph, row) for row in others}, {*model.superstables(graph)})
            if has("numpy"):
                self.assertEqual((found.shape, found.dtype), ((graph.order(), graph.vertices), "int64"))
                self.assertEqual(chipfire.are_recurrent(graph, found), [True] * len(rows))

    def test_without_numpy_they_are_a_list_of_rows(self):
        with mock.patch("chipfire.configurations.recurrent.import_optional", return_value=None):
            found = chipfire.recurrents(ROW, as_array=True)
        self.assertEqual(found, [it.numbers for it in chipfire.recurrents(ROW)])
        self.assertIs(type(found), list)

    def test_more_than_there_is_memory_for_are_refused_before_they_begin(self):
        # (by Cayley there are 30^28 of them, each with 30 numbers of 8 bytes)
        for call in (chipfire.recurrents, chipfire.superstables):
            with self.assertRaisesRegex(MemoryError, f"{30**28:,} configurations of 30 vertices take "):
                call(chipfire.complete(30), as_array=True)


class WithFiles(unittest.TestCase):
    def setUp(self):
        self.folder = tempfile.mkdtemp(prefix="chipfire-python-")
        self.addCleanup(shutil.rmtree, self.folder)
        self.file = f"{self.folder}/result.npz"

    def is_same(self, one, other, field=""):
        """Whether two results, or parts of them, are the same, their types too."""
        self.assertIs(type(one), type(other), field)
        if dataclasses.is_dataclass(one):
            for it in dataclasses.fields(one):
                self.is_same(getattr(one, it.name), getattr(other, it.name), it.name)
        elif isinstance(one, chipfire.Firings):
            for some in zip(one, other, one._fields):
                self.is_same(*some)
        elif isinstance(one, chipfire.Graph):
            self.assertEqual(one, other)
            for name in ("shape", "from_sink", "squares", "names", "loops"):
                self.assertEqual(*(self.listed(getattr(it, name)) for it in (one, other)), name)
        elif hasattr(one, "dtype"):
            self.assertEqual((one.dtype, one.shape, one.tolist()), (other.dtype, other.shape, other.tolist()), field)
        else:
            self.assertEqual(one, other, field)

    def listed(self, found):
        return found if found is None else [*found]


def played_drops():
    """Drops on graphs of all kinds, and in reports of all kinds."""
    for graph in some_graphs():
        for vertices in (list(chipfire.random_drops(graph, 60, 1)), []):
            found = chipfire.drops(graph, graph.max_stable(), vertices)
            yield from [found, dataclasses.replace(found, report=dataclasses.replace(found.report, graph=None))]
    yield chipfire.drops(chipfire.grid(4, 3), 3, [1, 2, 1], amounts=[4, 0, 2**12])
    report = chipfire.Report((1, 0, 3), (4, 2, 0), over=(0,), sealed=(1,), prior=(2**40, 0, 0))
    yield dataclasses.replace(chipfire.drops(chipfire.cycle(3), 0, [1, 2]), report=report)


#: A path whose vertices have names of all kinds that a file can have.
NAMES = [(0, "a", (None, True)), b"b\xff", None, 2.5, "é\ud800", -7]
NAMED = chipfire.Graph(6, 5, [(v, u) for v in range(5) for u in (v - 1, v + 1) if u >= 0], NAMES, from_sink=None)


def played_chains():
    """Chains by each option."""
    grid = chipfire.grid(4, 3)
    for graph in (grid, NAMED, chipfire.Graph.undirected([(7, 9), (9, 8)], 8)):
        options = [{}, {"fired": True}, {"until": "loss"}, {"chips": 0, "workers": 1}, {"until": "loss", "fired": True}]
        for some in [*options, *[{"until": "spans", "fired": True}] * (graph is grid)]:
            yield chipfire.chains(graph, 3, 25, 7, **some)
        yield from [chipfire.chains(graph, 2, 0, 7, fired=True), chipfire.chains(graph, 1, 0, 7)]
    for seed in (None, "x", b"x\xff", 2.5, 2**80):
        yield chipfire.chains(grid, 1, 4, seed)


@unittest.skipUnless(has("numpy"), "NumPy is not here")
class Files(WithFiles):
    def test_drops_go_through_a_file(self):
        for found in played_drops():
            found.save(self.file)
            again = chipfire.Drops.load(self.file)
            self.is_same(again, found)
            self.assertEqual(again.histogram(), found.histogram())
        self.assertEqual(os.listdir(self.folder), ["result.npz"])

    @unittest.skipUnless(IS_HERE, "chains take the library")
    def test_chains_go_through_a_file(self):
        for found in played_chains():
            found.save(self.file)
            self.is_same(chipfire.Chains.load(self.file), found)
        self.assertEqual(os.listdir(self.folder), ["result.npz"])

    def test_numpy_reads_the_arrays_of_a_file(self):
        import numpy

        found = chipfire.drops(ROW, 1, ["a", "a", "c"])
        found.save(self.file)
        with numpy.load(self.file, allow_pickle=False) as parts:
            self.assertEqual(parts["size"].tolist(), found.size.tolist())
            header = json.loads(parts["header"].tobytes())
        self.assertEqual((header["chipfire"], header["version"]), ("Drops", 1))
        self.assertEqual(header["graph"]["names"], ["a", "b", "c", "s"])

    def test_numbers_without_numpy_are_saved_with_it(self):
        with mock.patch("chipfire.ensembles.drops.import_optional", return_value=None):
            found = chipfire.drops(ROW, 1, ["a", "a", "c"])
        self.assertEqual(type(found.size).__name__, "array")
        found.save(self.file)
        self.is_same(chipfire.Drops.load(self.file), chipfire.drops(ROW, 1, ["a", "a", "c"]))

    def test_names_that_no_file_can_have_are_refused(self):
        for name in (frozenset({1}), complex(1), chipfire.Fault, (1, (frozenset(), 2))):
            graph = chipfire.Graph.undirected([("a", name), (name, "s")], "s")
            found = chipfire.drops(graph, 0, ["a"])
            with self.assertRaisesRegex(TypeError, "of a vertex cannot be saved, since it is none of numbers, texts"):
                found.save(self.file)
        self.assertEqual(os.listdir(self.folder), [])

    def test_a_file_is_replaced_whole_or_not_at_all(self):
        import numpy

        first, second = (chipfire.drops(ROW, 1, ["a"] * count) for count in (3, 5))
        first.save(self.file)
        os.chmod(self.file, 0o600)

        def broken(out, **arrays):
            out.write(b"PK some of it")
            raise OSError("no space")

        for error in (broken, KeyboardInterrupt):
            kind = OSError if error is broken else KeyboardInterrupt
            with mock.patch.object(numpy, "savez", side_effect=error), self.assertRaises(kind):
                second.save(self.file)
            self.assertEqual(os.listdir(self.folder), ["result.npz"])
            self.is_same(chipfire.Drops.load(self.file), first)
        os.symlink(self.file, f"{self.folder}/link")
        second.save(f"{self.folder}/link")
        self.is_same(chipfire.Drops.load(self.file), second)
        self.assertTrue(os.path.islink(f"{self.folder}/link"))
        self.assertEqual(os.stat(self.file).st_mode & 0o777, 0o600)
        for wrong in ("/dev/null", self.folder):
            with self.assertRaisesRegex(ValueError, "is no file that can be replaced"):
                second.save(wrong)
        with self.assertRaises(FileNotFoundError):
            second.save(f"{self.folder}/none/result.npz")

    def stored(self, **changes):
        """Writes the parts of a file of drops, with changes, and some left out that are None."""
        import numpy

        chipfire.drops(ROW, 1, ["a", "b"]).save(self.file)
        with numpy.load(self.file, allow_pickle=False) as parts:
            held = {name: parts[name] for name in parts.files}
        header = {**json.loads(held["header"].tobytes()), **changes.pop("header", {})}
        held["header"] = numpy.frombuffer(json.dumps(header).encode(), "u1")
        held = {name: it for name, it in {**held, **changes}.items() if it is not None}
        numpy.savez(self.file, **held)

    def test_what_is_no_such_file_is_refused_by_what_it_is(self):
        import numpy

        self.stored()
        self.assertEqual(len(chipfire.Drops.load(self.file)), 2)
        with self.assertRaisesRegex(ValueError, "result.npz has Drops of chipfire, and no Chains"):
            chipfire.Chains.load(self.file)
        self.stored(header={"version": 2})
        with self.assertRaisesRegex(ValueError, "is of version 2, and this chipfire reads version 1"):
            chipfire.Drops.load(self.file)
        two = numpy.array([1, 2])
        lacks = {"size": None}, {"graph": None}, {"header": {"chipfire": None}}, {"chips": None}, {"tails": None}
        wrong = {"size": numpy.array([1])}, {"size": two.astype(float)}, {"size": numpy.array([two])}, {"chips": two}
        others = {"tails": numpy.array([-1] * 6)}, {"heads": two}, {"mults": two}, {"prior": two}, {"over": numpy.array([9])}
        graphs = [{"header": {"graph": it}} for it in (3, {}, {"vertices": 4}, [])]
        for changes in (*lacks[:1], *lacks[2:], *wrong, *others, *graphs):
            self.stored(**changes)
            with self.subTest(changes), self.assertRaisesRegex(ValueError, "result.npz (is no file|has None)"):
                chipfire.Drops.load(self.file)
        self.stored()
        with open(self.file, "rb") as file:
            whole = file.read()
        for text in (b"", b"PK", b"text", whole[:-30], whole[: len(whole) // 2], b"PK\x03\x04" + bytes(99)):
            with open(self.file, "wb") as file:
                file.write(text)
            with self.assertRaisesRegex(ValueError, "is no file of chipfire's Drops"):
                chipfire.Drops.load(self.file)
        with self.assertRaises(FileNotFoundError):
            chipfire.Drops.load(f"{self.folder}/none")

    def test_nothing_of_a_file_is_run(self):
        import numpy

        class Runs:
            def __reduce__(self):
                return os.mkdir, (f"{folder}/made",)

        folder = self.folder
        for name in ("header", "size"):
            self.stored(**{name: {}} if name == "header" else {name: numpy.array([Runs(), 1], object)})
            if name == "header":
                numpy.savez(self.file, header=numpy.array([Runs()], object))
            with self.assertRaisesRegex(ValueError, "is no file of chipfire's Drops"):
                chipfire.Drops.load(self.file)
        self.assertEqual(os.listdir(folder), ["result.npz"])

    def test_what_there_is_no_memory_for_is_not_read(self):
        self.stored()
        with mock.patch("chipfire.ensembles.archive.require_memory", side_effect=MemoryError("too much")) as asked:
            with self.assertRaises(MemoryError):
                chipfire.Drops.load(self.file)
        self.assertGreater(asked.call_args[0][0], 500)


class Tables(unittest.TestCase):
    @unittest.skipUnless(has("pandas"), "pandas is not here")
    def test_drops_by_rows(self):
        found = chipfire.drops(ROW, 1, ["a", "a", "c"])
        frame = found.to_dataframe()
        self.assertEqual([*map(tuple, frame.values.tolist())], [*zip(*(it.tolist() for it in (found.size, found.extent, found.lost)))])
        self.assertEqual((frame.index.name, [*frame.index], [*frame.columns]), ("drop", [0, 1, 2], ["size", "extent", "lost"]))
        self.assertEqual({*map(str, frame.dtypes)}, {"int64"})
        self.assertEqual(chipfire.drops(ROW, 1, []).to_dataframe().shape, (0, 3))

    @unittest.skipUnless(has("pandas") and IS_HERE, "pandas or the library is not here")
    def test_chains_by_the_drops_that_were_made(self):
        for options in ({}, {"until": "loss"}):
            found = chipfire.chains(chipfire.grid(4, 3), 5, 30, 7, **options)
            frame = found.to_dataframe()
            rows = [(chain, drop) for chain in range(5) for drop in range(found.made[chain])]
            self.assertEqual([*frame.index], rows)
            self.assertEqual(frame.index.names, ["chain", "drop"])
            for name in ("size", "extent", "lost"):
                self.assertEqual(frame[name].tolist(), [getattr(found, name)[at] for at in rows])
            self.assertEqual(frame["lost"].groupby("chain").sum().tolist(), found.lost.sum(1).tolist())
        self.assertLess(len(frame), 150)
        self.assertEqual(chipfire.chains(ROW, 2, 0, 1).to_dataframe().shape, (0, 3))

    def test_without_their_libraries_they_say_so(self):
        found = [chipfire.drops(ROW, 1, ["a"])]
        if IS_HERE:
            found.append(chipfire.chains(ROW, 1, 1, 1))
        for result in found:
            with mock.patch.dict("sys.modules", {"pandas": None}):
                with self.assertRaisesRegex(ImportError, "a table is one of pandas, which is not installed"):
                    result.to_dataframe()
            with mock.patch.dict("sys.modules", {"numpy": None}):
                for call in (lambda: result.save("nowhere"), lambda: type(result).load("nowhere")):
                    with self.assertRaisesRegex(ImportError, "a file of results is one of NumPy, which is not installed"):
                        call()


class Notebooks(unittest.TestCase):
    def results(self):
        grid = chipfire.grid(5, 5)
        yield chipfire.drops(grid, 3, chipfire.random_drops(grid, 200, 1)), "<figcaption>200 avalanches, "
        if IS_HERE:
            yield chipfire.chains(grid, 3, 40, 7), "<figcaption>Chains: 3 of up to 40 drops</figcaption>"

    @unittest.skipUnless(has("matplotlib"), "Matplotlib is not here")
    def test_they_show_how_many_there_are_of_each_size(self):
        image, pyplot = (importlib.import_module(f"matplotlib.{it}") for it in ("image", "pyplot"))
        for result, text in self.results():
            shown = result._repr_html_()
            self.assertIn(text, shown)
            data = shown.partition("base64,")[2].partition('"')[0]
            with tempfile.NamedTemporaryFile(suffix=".png") as file:
                file.write(base64.b64decode(data))
                file.flush()
                height, width, _ = image.imread(file.name).shape
            self.assertGreater(width, height)
        self.assertEqual(pyplot.get_fignums(), [])
        self.assertIsNone(chipfire.drops(ROW, 0, ["b"])._repr_html_())
        self.assertIsNone(chipfire.drops(ROW, 0, [])._repr_html_())

    @unittest.skipUnless(has("matplotlib"), "Matplotlib is not here")
    def test_the_points_are_numbers_for_each_size(self):
        axes = importlib.import_module("matplotlib.figure").Figure().subplots()
        with mock.patch("matplotlib.figure.Figure.subplots", return_value=axes):
            from chipfire.ensembles import power_law

            power_law.sizes_figure([[0, 1, 1, 2], [3, 3, 0, 9]], "some")
        # (two of size 1; three from 2 to 3; one from 8 to 15)
        points = axes.lines[0].get_xydata().tolist()
        self.assertEqual(points, [[1, 2], [6**0.5, 3 / 2], [120**0.5, 1 / 8]])
        self.assertEqual((axes.get_xscale(), axes.get_yscale()), ("log", "log"))

    def test_without_matplotlib_the_text_is_shown(self):
        for result, _ in self.results():
            with mock.patch.dict("sys.modules", {"matplotlib.figure": None, "matplotlib": None}):
                self.assertIsNone(result._repr_html_())
            self.assertRegex(repr(result), "^<(Drops: 200 avalanches, [0-9,]+ firings|Chains: 3 of up to 40 drops)>$")


class Types(unittest.TestCase):
    def test_the_code_of_a_user_that_mypy_reads_also_runs(self):
        self.assertEqual(typed_use.use(), 15)


if __name__ == "__main__":
    unittest.main()
