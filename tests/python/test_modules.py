"""How the package is built: its modules, the names that it exports, its signatures and its types."""
import ast
import glob
import importlib
import inspect
import os
import pydoc
import shutil
import subprocess
import sys
import tempfile
import unittest

import chipfire
import without

PACKAGE = os.path.dirname(chipfire.__file__)
HERE = os.path.dirname(os.path.realpath(__file__))
ROOT = os.path.dirname(os.path.dirname(HERE))
#: The names of the modules in the package and its rooms, each room by its own `__init__`.
MODULES = sorted(
    os.path.relpath(f"{folder}/{name}", PACKAGE)[:-3].replace(os.sep, ".")
    for folder, _, names in os.walk(PACKAGE) for name in names if name.endswith(".py")
)
#: The Python that builds, packs and times: the paths of its files at the top of the repository.
TOOLS = sorted(
    os.path.relpath(it, ROOT)
    for form in ("package.py", "bench/*.py", "packing/*.py", "python/*.py", "tools/*.py")
    for it in glob.glob(f"{glob.escape(ROOT)}/{form}")
)
#: The modules beside the rooms whose names are those of former pages.
NAMES_OF_BEFORE = {"computations", "detectors", "library", "machine", "model"}
COMMANDS = (
    "check", "plain", "run", "simulate", "replay", "resume", "explain", "identity", "verify", "drops", "judge_log",
)

#: What users write who have their own code checked.
USE = """
from typing import Optional

import chipfire
import chipfire.model

grid = chipfire.grid(3, 3)
chips: dict[int, int] = {4: 9}
report = chipfire.plain(grid, chips, limit=3, guess={4: 2})
left: tuple[int, ...] = report.chips
sum_: chipfire.Configuration = report.configuration + grid.max_stable() - 2 * chipfire.identity(grid)
print(sum_[0] + 1, chipfire.Program().verify(grid, chips, report), chipfire.machine.Schedule().take(4).fire(0, 2))
setting = chipfire.Setting(grid, (4,) * grid.vertices)
found: Optional[chipfire.Schedule] = chipfire.explore(setting, "at-once", most=10_000).schedule
class Own(chipfire.model.Core):
    def is_closed(self) -> bool:
        return super().is_closed()
print(chipfire.random_schedule(setting, 1, Own).note("last"), chipfire.judge(setting, []).is_true, found)
print(chipfire.drops(grid, chips, chipfire.random_drops(grid, 9, 1), amounts=[1] * 9).histogram()[0], setting)
with chipfire.Pile(grid, chips, 9) as pile:
    size: int = pile.drop(4, 2).size
    print(size, pile.drops([1, 2], amounts=[3, 4]).size, pile.chips[0] + pile.fired[0], pile.report, pile.is_stopped)
print(chipfire.stabilize_many(grid, [chips, 4])[0], chipfire.are_recurrent(grid, [chips])[0], chipfire.find_library())
print(chipfire.chains(grid, 2, 3, 1).size, chipfire.random_recurrent(grid, 1))
rounds: dict[int, int] = chipfire.chains(grid, 2, 3, 1, durations=True, collect="histogram").total("durations")
log = chipfire.model_log(setting, Own, []) + chipfire.read_json_lines([], channel=lambda it: it["to"])
print(chipfire.judge_log(log, cut=True).claims, chipfire.read_shiviz("", str.strip), chipfire.judge_log("log").is_right)
books = chipfire.Books([0], [1, 2], process=3, log=[])
pairs: list[tuple[int, int]] = books.acknowledge(passive=True)
detector = chipfire.Detector(["a", "b"], log=None)
detector.begin("a", 5)
for content in detector["a"]:
    detector["a"].send("b", content)
detector.wait(5)
print(detector.check().is_right, pairs)
print(chipfire.Schedule().take(4), chipfire.MAX_CHIPS, chipfire.find_program(), chipfire.CHIPS_HEADER, chipfire.RULES)
"""


def tree_of(module):
    with open(f"{PACKAGE}/{module.replace('.', '/')}.py", encoding="utf-8") as file:
        return ast.parse(file.read())


def imported(module):
    """The modules of the package that one imports anywhere, but where types are checked."""
    tree = tree_of(module)
    for node in ast.walk(tree):
        if isinstance(node, ast.If) and ast.unparse(node.test) == "TYPE_CHECKING":
            node.body = []
    for node in ast.walk(tree):
        if isinstance(node, ast.ImportFrom) and node.module.partition(".")[0] == "chipfire":
            room = node.module.partition(".")[2]
            inner = [f"{room}.{it.name}".lstrip(".") for it in node.names]
            yield from (it if it in MODULES else room or "__init__" for it in inner)
        elif isinstance(node, ast.Import):
            yield from ("__init__" for it in node.names if it.name == "chipfire")


def tree_of_tool(path):
    with open(f"{ROOT}/{path}", encoding="utf-8") as file:
        return ast.parse(file.read())


def imported_tools(path):
    """The files of TOOLS that one imports anywhere: those beside it, at the top, in tools/ and in python/."""
    for node in ast.walk(tree_of_tool(path)):
        names = [it.name for it in node.names] if isinstance(node, (ast.Import, ast.ImportFrom)) else []
        if isinstance(node, ast.ImportFrom):
            names = [node.module, *(f"{node.module}.{it}" for it in names)]
        for name in names:
            file = f"{name.replace('.', '/')}.py"
            places = [os.path.join(folder, file) for folder in (os.path.dirname(path), "", "tools", "python")]
            yield from [it for it in places if it in TOOLS][:1]


def trees():
    """The trees of all files, of the package and of the tools, by their names."""
    yield from ((module, tree_of(module)) for module in MODULES)
    yield from ((path, tree_of_tool(path)) for path in TOOLS)


class Modules(unittest.TestCase):
    def goes_down(self, below):
        """Checks that no import goes in a circle: `below` has what each module imports."""
        while below:
            lowest = {module for module, others in below.items() if not others & below.keys()}
            self.assertTrue(lowest, below)
            below = {module: others for module, others in below.items() if module not in lowest}

    def test_no_import_goes_in_a_circle(self):
        below = {module: set(imported(module)) for module in MODULES}
        self.assertNotIn("__init__", set().union(*below.values()))
        self.goes_down(below)

    def test_no_import_of_what_packs_goes_in_a_circle(self):
        below = {path: set(imported_tools(path)) for path in TOOLS}
        for path, other in [
            ("python/build_wheel.py", "tools/release.py"), ("tools/release.py", "packing/proved.py"),
            ("packing/proved.py", "python/contents.py"), ("bench/run.py", "bench/frame.py"), ("package.py", "packing/wheel.py"),
        ]:
            self.assertIn(other, below[path], path)
        self.goes_down(below)

    def test_one_file_changes_where_python_searches(self):
        self.assertEqual([it for it in TOOLS if "sys.path" in ast.unparse(tree_of_tool(it))], ["tools/paths.py"])

    def test_each_module_imports_those_before_it_in_the_drawing(self):
        with open(f"{ROOT}/docs/ARCHITECTURE.md", encoding="utf-8") as file:
            drawing = file.read().partition("```rooms\n")[2].partition("```")[0]
        order = []
        for room, *names in (line.replace(",", "").split() for line in drawing.splitlines()):
            order += [f"{room}.{name}" for name in names] or [room]
        inner = {it for it in MODULES if not it.endswith("__init__")} - NAMES_OF_BEFORE - {"__main__"}
        self.assertEqual(sorted(order), sorted(inner))
        for place, module in enumerate(order):
            self.assertLessEqual(set(imported(module)), {*order[:place]}, module)

    def test_the_package_itself_only_hands_on(self):
        body = tree_of("__init__").body
        others = [node for node in body if not isinstance(node, (ast.Expr, ast.Import, ast.ImportFrom, ast.Assign))]
        self.assertEqual([ast.unparse(node).partition("\n")[0] for node in others], [
            "if _sys.version_info < (3, 9):", "def __dir__() -> list[str]:",
        ])
        self.assertEqual([name for name in chipfire.__all__ if not hasattr(chipfire, name)], [])

    def test_a_list_of_its_names_has_the_public_ones_alone(self):
        self.assertEqual([name for name in dir(chipfire) if not name.startswith("__")], sorted(chipfire.__all__))

    def test_rooms_of_their_own_hand_on_nothing(self):
        for module in MODULES:
            if module.endswith(".__init__"):
                self.assertEqual([type(node) for node in tree_of(module).body], [ast.Expr], module)

    def test_modules_that_pages_name_are_where_they_were(self):
        for name in sorted(NAMES_OF_BEFORE):
            module = importlib.import_module(f"chipfire.{name}")
            room = "backend" if name == "library" else "lab"
            self.assertEqual(module.__name__, f"chipfire.{room}.{name}")
            self.assertIs(module, importlib.import_module(f"chipfire.{room}.{name}"))

    def test_the_words_of_the_machine_are_in_its_module_and_reachable(self):
        page = pydoc.plain(pydoc.render_doc(chipfire))
        self.assertIn("class Configuration", page)
        for name in ("Board", "Event", "Schedule", "Setting", "Simulation", "TraceRow", "write_trace"):
            self.assertIs(getattr(chipfire, name), getattr(chipfire.machine, name))
            self.assertNotIn(f"class {name}", page)

    def test_what_is_asked_for_is_all_that_an_import_brings(self):
        asked = [sys.executable, "-c", "import chipfire, sys; print(*sys.modules)"]
        environment = {**os.environ, **without.environment(os.path.dirname(PACKAGE))}
        brought = subprocess.run(asked, env=environment, stdout=subprocess.PIPE, encoding="utf-8", check=True).stdout
        unwanted = {"numpy", "scipy", "PIL", "matplotlib", "networkx", "pandas", "importlib.metadata"}
        self.assertEqual(unwanted & {*brought.split()}, set())


class Signatures(unittest.TestCase):
    def test_the_options_of_each_command_are_in_its_signature(self):
        options = {name: list(inspect.signature(getattr(chipfire, name)).parameters) for name in COMMANDS}
        self.assertEqual(options["plain"], ["graph", "chips", "limit", "guess", "progress", "program"])
        self.assertIn("workers", options["run"])
        for name in COMMANDS:
            method = getattr(chipfire.Program("/nowhere"), name)
            self.assertEqual([*inspect.signature(method).parameters, "program"], options[name], name)
            self.assertEqual(inspect.getdoc(method), inspect.getdoc(getattr(chipfire, name)))

    def test_no_public_function_hides_its_options(self):
        for name in chipfire.__all__:
            value = getattr(chipfire, name)
            if inspect.isfunction(value):
                kinds = {it.kind for it in inspect.signature(value).parameters.values()}
                self.assertNotIn(inspect.Parameter.VAR_KEYWORD, kinds, name)
                self.assertTrue(inspect.getdoc(value), name)

    def test_a_graph_a_report_and_a_large_configuration_are_one_line(self):
        grid = chipfire.grid(50, 40)
        report = chipfire.plain(grid, {820: 900})
        for value in (grid, report, report.configuration, chipfire.frames(grid, {820: 9}), chipfire.plain(grid, {})):
            self.assertLess(len(repr(value)), 200)
            self.assertNotIn("\n", repr(value))
        # (each square has an edge to each side, but two of those of a corner are one)
        self.assertEqual(repr(grid), "<Graph of 2001 vertices, 7996 edges, sink 2000>")
        self.assertIn("2001 vertices", repr(report))


class Layout(unittest.TestCase):
    @unittest.skipUnless(shutil.which("black"), "black is not here: Debian's package black has it")
    def test_it_is_that_of_black(self):
        words = ["black", "--check", "--quiet", "--line-length=100", "--target-version=py39", PACKAGE, *TOOLS]
        self.assertEqual(subprocess.run(words, cwd=ROOT).returncode, 0)

    def test_a_function_has_40_lines_at_most(self):
        """Without its docstring."""
        for module, tree in trees():
            for node in ast.walk(tree):
                if isinstance(node, ast.FunctionDef):
                    first = node.body[1:2] if ast.get_docstring(node) else node.body[:1]
                    length = node.end_lineno - (first[0].lineno if first else node.end_lineno) + 1
                    self.assertLessEqual(length, 40, f"{module}: {node.name}")

    def test_no_conditional_expression_is_in_another(self):
        for module, tree in trees():
            for node in ast.walk(tree):
                inner = [it for it in ast.walk(node) if isinstance(it, ast.IfExp)] if isinstance(node, ast.IfExp) else []
                self.assertLessEqual(len(inner), 1, f"{module}: {ast.unparse(node)}")


@unittest.skipUnless(shutil.which("mypy"), "mypy is not here: Debian's package mypy has it")
class Types(unittest.TestCase):
    def test_all_types_hold(self):
        with tempfile.TemporaryDirectory(prefix="chipfire-python-") as folder:
            with open(f"{folder}/use.py", "w", encoding="utf-8") as file:
                file.write(USE)
            words = ["mypy", "--strict", "--no-color-output", f"--cache-dir={folder}", PACKAGE, f"{folder}/use.py"]
            words.append(f"{HERE}/typed_use.py")
            environment = {**os.environ, "MYPYPATH": os.path.dirname(PACKAGE)}
            ran = subprocess.run(words, env=environment, cwd=folder, stdout=subprocess.PIPE, encoding="utf-8")
        self.assertIn("Success", ran.stdout)
        self.assertTrue(os.path.isfile(f"{PACKAGE}/py.typed"))


if __name__ == "__main__":
    unittest.main()
