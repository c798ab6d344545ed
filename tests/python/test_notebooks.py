"""The notebooks of examples/python: their cells show what is stored in them.

A kernel of Jupyter plays them, if nbclient, nbformat and ipykernel are there. Else this Python runs the code cells, and
shows what a notebook would. Texts are compared, and pictures by their kind. With CHIPFIRE_STORE=1 in the environment the
kernel's outputs are stored in place of those that are there.
"""

import ast
import contextlib
import importlib
import io
import json
import os
import re
import tempfile
import unittest
import unittest.mock

import chipfire
import paths
from test_sandpiles import has

FOLDER = f"{paths.EXAMPLES}/python"
NAMES = sorted(it for it in os.listdir(FOLDER) if it.endswith(".ipynb"))
#: What a kernel and its outputs take, and what the cells take besides.
JUPYTER = ("nbclient", "nbformat", "ipykernel")
NEEDED = ("numpy", "scipy", "matplotlib")
IS_STORED = os.environ.get("CHIPFIRE_STORE") == "1"

METADATA = {
    "kernelspec": {"display_name": "Python 3", "language": "python", "name": "python3"},
    "language_info": {"name": "python"},
}
PICTURE, TEXT = "image/png", "text/plain"
MOST_BYTES = 300_000
#: What a place or a user of one machine would bring into a cell or an output.
OF_ONE_MACHINE = re.compile(r"/(home|root|tmp|work|usr)/|0x[0-9a-f]{8}")


def read(name):
    """The notebook with this name, with each text in one piece."""
    with open(f"{FOLDER}/{name}", encoding="utf-8") as file:
        notebook = json.load(file)
    for cell in notebook["cells"]:
        cell["source"] = "".join(cell["source"])
        for output in cell.get("outputs", ()):
            texts = output["data"] if "data" in output else output
            texts.update({kind: "".join(it) for kind, it in texts.items() if isinstance(it, list)})
    return notebook


def code_cells(notebook):
    """The cells of a notebook that have code."""
    return [cell for cell in notebook["cells"] if cell["cell_type"] == "code"]


def shown(output):
    """What an output shows: its text, or that it is a picture."""
    if output["output_type"] == "stream":
        return output["name"], output["text"]
    data = output["data"]
    return (PICTURE, "") if PICTURE in data else (TEXT, data[TEXT])


def joined(outputs):
    """The same outputs with each text in one piece: a kernel sends what is printed in several."""
    found = []
    for output in outputs:
        is_more = found and output["output_type"] == found[-1]["output_type"] == "stream"
        if is_more and output["name"] == found[-1]["name"]:
            found[-1]["text"] += output["text"]
        else:
            found.append(output)
    return found


def by_kernel(name):
    """The notebook after a kernel of Jupyter has played it, in an empty folder."""
    nbclient, nbformat = (importlib.import_module(it) for it in ("nbclient", "nbformat"))
    notebook = nbformat.read(f"{FOLDER}/{name}", as_version=4)
    with tempfile.TemporaryDirectory(prefix="chipfire-notebook-") as folder:
        kept = ("IPYTHONDIR", "JUPYTER_CONFIG_DIR", "JUPYTER_DATA_DIR", "JUPYTER_RUNTIME_DIR")
        own = {it: f"{folder}/jupyter" for it in kept} | {"PYDEVD_DISABLE_FILE_VALIDATION": "1"}
        options = {
            "timeout": 600,
            "startup_timeout": 600,
            "resources": {"metadata": {"path": folder}},
        }
        with unittest.mock.patch.dict(os.environ, own):
            os.environ.pop("MPLBACKEND", None)
            nbclient.NotebookClient(notebook, **options).execute()
    for cell in code_cells(notebook):
        cell.outputs = joined(cell.outputs)
    return notebook


def store(name, played):
    """Stores a notebook that was played, without what differs from run to run."""
    played.metadata = METADATA
    for number, cell in enumerate(code_cells(played), 1):
        cell.metadata, cell.execution_count = {}, number
        for output in cell.outputs:
            if "data" in output:
                kind = PICTURE if PICTURE in output.data else TEXT
                output.data, output.metadata = {kind: output.data[kind]}, {}
            if "execution_count" in output:
                output.execution_count = number
    importlib.import_module("nbformat").write(played, f"{FOLDER}/{name}")


def outputs_here(source, names):
    """What a cell shows that runs in this Python: its prints, its last value, and its pictures."""
    body = ast.parse(source).body
    is_shown = isinstance(body[-1], ast.Expr) and not source.endswith(";")
    last = ast.Expression(body.pop().value) if is_shown else None
    with contextlib.redirect_stdout(io.StringIO()) as said:
        exec(compile(ast.Module(body, []), "cell", "exec"), names)
        value = eval(compile(last, "cell", "eval"), names) if last else None
    found = [("stdout", said.getvalue())] if said.getvalue() else []
    if value is not None:
        found.append((TEXT, repr(value)))
    pyplot = importlib.import_module("matplotlib.pyplot")
    found += [(PICTURE, "")] * len(pyplot.get_fignums())
    pyplot.close("all")
    return found


@unittest.skipUnless(all(map(has, NEEDED)), "NumPy, SciPy or Matplotlib is not here")
@unittest.skipUnless(chipfire.find_library(), "the library is not here")
class Played(unittest.TestCase):
    maxDiff = None

    def compare(self, name):
        notebook = read(name)
        stored = [[*map(shown, cell["outputs"])] for cell in code_cells(notebook)]
        if all(map(has, JUPYTER)):
            played = by_kernel(name)
            if IS_STORED:
                store(name, played)
            found = [[*map(shown, cell.outputs)] for cell in code_cells(played)]
        else:
            self.assertFalse(IS_STORED, "a kernel of Jupyter stores outputs, and there is none")
            importlib.import_module("matplotlib").use("Agg")
            names = {"__name__": "__main__"}
            found = [outputs_here(cell["source"], names) for cell in code_cells(notebook)]
        if not IS_STORED:
            self.assertEqual(found, stored)

    def test_the_tour(self):
        self.compare("tour.ipynb")

    def test_the_avalanches(self):
        self.compare("avalanches.ipynb")

    def test_the_critical_group(self):
        self.compare("critical-group.ipynb")

    def test_the_first_detector(self):
        self.compare("first-detector.ipynb")


class Stored(unittest.TestCase):
    def test_all_are_played(self):
        tests = unittest.defaultTestLoader.getTestCaseNames(Played)
        played = [f"{it.removeprefix('test_the_').replace('_', '-')}.ipynb" for it in tests]
        self.assertEqual(played, NAMES)

    def test_each_can_be_looked_at_on_a_page(self):
        for name in NAMES:
            with self.subTest(name):
                self.assertLess(os.path.getsize(f"{FOLDER}/{name}"), MOST_BYTES)
                outputs = [it for cell in code_cells(read(name)) for it in cell["outputs"]]
                kinds = {kind for it in outputs for kind in it.get("data", ())}
                self.assertEqual(kinds - {PICTURE, TEXT}, set())
                self.assertIn(PICTURE, kinds)

    def test_nothing_is_of_one_machine_or_run(self):
        for name in NAMES:
            with self.subTest(name):
                notebook = read(name)
                self.assertEqual(notebook["metadata"], METADATA)
                self.assertEqual([it["metadata"] for it in notebook["cells"] if it["metadata"]], [])
                cells = code_cells(notebook)
                counts = [cell["execution_count"] for cell in cells]
                self.assertEqual(counts, [*range(1, len(cells) + 1)])
                texts = [cell["source"] for cell in notebook["cells"]]
                texts += [shown(it)[1] for cell in cells for it in cell["outputs"]]
                self.assertEqual([it for it in texts if OF_ONE_MACHINE.search(it)], [])


if __name__ == "__main__":
    unittest.main()
