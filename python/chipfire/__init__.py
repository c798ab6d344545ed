"""chipfire for Python: graphs, chips, schedules and reports as objects, and the program's commands as functions.

    import chipfire

    grid = chipfire.grid(20, 20)
    report = chipfire.plain(grid, {190: 1000})
    print(report.chips, report.fired)

Results come from the program, whose contracts are proved. Not proved: the package. The package needs only the standard
library: `pip install ./python` installs it, and a copy of its folder works too. It uses the first program of this list:

    the `program` that a call or a `Program` names
    the program that the environment variable CHIPFIRE names
    the program that an installed package carries
    `target/chipfire` in the clone of the repository that has the package, or from which pip installed the package
    the program in the folder `release` of this clone, if `./chipfire` would take it
    `chipfire` in a folder that the PATH names by an absolute path

A clone that users other than this user and root can change is ignored. An import that finds no program warns, with one
exception: for a C library that is too old for the program, the package carries only chipfire's library. Then plays,
groups, books and the detector work. The library has the same functions and proofs as the program. If the library lies
beside the program, plays start no process. `chipfire.library` has the library's calls, and `find_library()` returns its
file. A copy of the package's folder does not call the library: it has no version to compare with the library's version.

The usual terms for sandpiles have these names here:

    sandpile graph             Graph; its sink is the global sink, edges have a multiplicity
    configuration              the chips of all vertices but the sink: Configuration, a mapping by vertex
    stable                     no vertex is legal
    topple                     fire
    stabilization              what `plain` finds: Report.chips, Report.configuration
    odometer, firing vector    Report.fired, and without the sink Report.odometer
    maximal stable             Graph.max_stable()
    recurrent identity         identity(graph), Graph.identity()
    stable sum                 add(graph, first, second), or first & second of configurations
    recurrent, superstable     is_recurrent(graph, chips), is_superstable(graph, chips); all of them: recurrents(graph)
    many configurations        stabilize_many(graph, rows), are_recurrent(graph, rows)
    equivalent, q-reduced      recurrent_representative(graph, chips), superstable_representative(graph, chips)
    sandpile group             order(graph), invariant_factors(graph), Configuration.order(); coordinates: Group(graph);
                               with add(graph, first, second): identity(graph), inverse(graph, chips)
    divisor, linear system     Divisor(graph, chips): reduced, effective, is_equivalent, rank; canonical_divisor, genus
    polynomials                tutte_polynomial(graph), level_polynomial(graph), avalanche_polynomial(graph)
    Laplacian                  laplacian(graph), reduced_laplacian(graph)
    avalanche                  avalanche(graph, chips, vertex), avalanches(graph, chips, vertices); by the million:
                               drops(graph, chips, vertices), with random_drops(graph, count, seed); drops that
                               depend on one another: Pile(graph, chips).drop(vertex)
    many series of drops       chains(graph, n, drops, seed), from random_recurrent(graph, seed); power_law(sizes),
                               moments(chains), collapse(sizes by length)
    mean sizes, resistances    green(graph), the inverse of the reduced Laplacian
    tables, files of results   Drops.to_dataframe(), Drops.save(file), Drops.load(file), and those of Chains

`image` and `show` draw reports and configurations, and `frames` draws plays. `page` makes a page that shows a run of
the distributed machine. `wrong_page` makes a page on which a wrong detector fails, and `choice_page` a page on which
you pick each event. `chipfire.machine` has the machine's types: schedules, replies, books and traces. `explore`,
`judge`, `play` and `random_schedule` compute on `chipfire.model`. All of these except `judge` also take a
`Computation`: see `chipfire.computations`.

`judge_log` checks the log of any distributed program, and returns the verdicts of chipfire's program. `read_json_lines`
and `read_shiviz` read such logs, and `model_log` makes a log from a schedule of the model.

`Detector` detects when your own program is over, on threads, in asyncio or by multiprocessing. `Books` keeps the
counters of one process, for programs that send messages by their own means.

In place of a graph, chips, a schedule, a trace or a report, calls take the name of its file. `Graph.chips` lists the
forms of chips, and `Report.picture` says what can be drawn. Each vertex has a number, counted from 0, and may have a
name. Sequences and arrays are indexed by numbers, and dicts and Series of pandas by names. Numbers of chips and firings
go up to 2^40. A graph has up to 2,097,152 vertices and 8,388,608 edges.
"""

import sys as _sys

if _sys.version_info < (3, 9):
    _this = ".".join(map(str, _sys.version_info[:3]))
    raise ImportError(f"chipfire requires Python >=3.9, and {_sys.executable} is Python {_this}")

from chipfire.backend import library as library
from chipfire.backend.commands import (
    Check,
    Program,
    check,
    drops,
    explain,
    identity,
    plain,
    read_chips,
    replay,
    resume,
    run,
    simulate,
    verify,
    write_chips,
)
from chipfire.backend.finding import (
    ProgramNotFound,
    find_program as find_program,
    start_program as start_program,
    version,
    warn_without_program,
)
from chipfire.backend.library import find_library as find_library
from chipfire.backend.process import Fault, TraceCut
from chipfire.backend.report import Report
from chipfire.configurations.configuration import CHIPS_HEADER as CHIPS_HEADER, Chips, Configuration
from chipfire.configurations.green import Green, green
from chipfire.configurations.group import Group
from chipfire.configurations.laplacian import invariant_factors, laplacian, order, reduced_laplacian
from chipfire.configurations.recurrent import (
    are_recurrent,
    burning_configuration,
    burning_script,
    inverse,
    is_recurrent,
    is_superstable,
    recurrent_representative,
    recurrents,
    superstable_representative,
    superstables,
)
from chipfire.configurations.stabilization import add, is_stable, stabilize, stabilize_many
from chipfire.divisors.divisor import Divisor, canonical_divisor, genus
from chipfire.divisors.polynomials import avalanche_polynomial, level_polynomial, tutte_polynomial
from chipfire.ensembles.avalanche import Avalanche, avalanche, avalanches, random_drops
from chipfire.ensembles.chains import Chains, chains
from chipfire.ensembles.firings import Firings
from chipfire.ensembles.drops import Drops
from chipfire.ensembles.histograms import Histograms
from chipfire.ensembles.pile import Drop as Drop, Pile
from chipfire.ensembles.power_law import PowerLaw, plot_sizes, power_law
from chipfire.ensembles.scaling import Collapse, Moments, collapse, moments
from chipfire.ensembles.wilson import random_recurrent
from chipfire.graphs.convert import from_edges, from_networkx, from_sage, to_networkx, to_scipy
from chipfire.graphs.families import complete, cycle, path, torus, wheel
from chipfire.graphs.graph import Graph
from chipfire.graphs.lattices import aztec, grid, grid_for, region
from chipfire.lab import (
    computations as computations,
    detectors as detectors,
    machine,
    model as model,
)
from chipfire.lab.books import Books
from chipfire.lab.choosing import choice_page
from chipfire.lab.computations import Computation
from chipfire.lab.detector import Detector
from chipfire.lab.explorer import explore
from chipfire.lab.judging import judge
from chipfire.lab.logs import judge_log, read_json_lines, read_shiviz
from chipfire.lab.machine import (
    RULES as RULES,
    SCHEDULE_HEADER as SCHEDULE_HEADER,
    TRACE_HEADER as TRACE_HEADER,
    Board as Board,
    Event as Event,
    Firing as Firing,
    Reply as Reply,
    Schedule as Schedule,
    Setting as Setting,
    Simulation as Simulation,
    TraceRow as TraceRow,
    read_schedule as read_schedule,
    read_trace as read_trace,
    write_schedule as write_schedule,
    write_trace as write_trace,
)
from chipfire.lab.pages import page, recorded
from chipfire.lab.schedules import model_log, play, random_schedule, shiviz, shrink
from chipfire.lab.wrong import wrong_page
from chipfire.pictures.animation import Frames, frames, frames_by_chips
from chipfire.pictures.picture import PALETTES, Picture
from chipfire.utils import (
    MAX_CHIPS as MAX_CHIPS,
    MAX_EDGES as MAX_EDGES,
    MAX_LARGE_EDGES as MAX_LARGE_EDGES,
    MAX_LARGE_VERTICES as MAX_LARGE_VERTICES,
    MAX_LIMIT as MAX_LIMIT,
    MAX_MULT as MAX_MULT,
    MAX_VERTICES as MAX_VERTICES,
    FileName as FileName,
)

__version__ = version()
warn_without_program()

#: Other imported names can be used too; `chipfire.machine` describes them.
__all__ = [
    "Avalanche",
    "Books",
    "Chains",
    "Check",
    "Chips",
    "Collapse",
    "Computation",
    "Configuration",
    "Detector",
    "Divisor",
    "Drops",
    "Fault",
    "Firings",
    "Frames",
    "Graph",
    "Green",
    "Group",
    "Histograms",
    "Moments",
    "PALETTES",
    "Picture",
    "Pile",
    "PowerLaw",
    "Program",
    "ProgramNotFound",
    "Report",
    "TraceCut",
    "add",
    "are_recurrent",
    "avalanche",
    "avalanche_polynomial",
    "avalanches",
    "aztec",
    "burning_configuration",
    "burning_script",
    "canonical_divisor",
    "chains",
    "check",
    "choice_page",
    "collapse",
    "complete",
    "cycle",
    "drops",
    "explain",
    "explore",
    "frames",
    "frames_by_chips",
    "from_edges",
    "from_networkx",
    "from_sage",
    "genus",
    "green",
    "grid",
    "grid_for",
    "identity",
    "invariant_factors",
    "inverse",
    "is_recurrent",
    "is_stable",
    "is_superstable",
    "judge",
    "judge_log",
    "laplacian",
    "level_polynomial",
    "machine",
    "model_log",
    "moments",
    "order",
    "page",
    "path",
    "plain",
    "play",
    "plot_sizes",
    "power_law",
    "random_drops",
    "random_recurrent",
    "random_schedule",
    "read_chips",
    "read_json_lines",
    "read_shiviz",
    "recorded",
    "recurrent_representative",
    "recurrents",
    "reduced_laplacian",
    "region",
    "replay",
    "resume",
    "run",
    "shiviz",
    "shrink",
    "simulate",
    "stabilize",
    "stabilize_many",
    "superstable_representative",
    "superstables",
    "to_networkx",
    "to_scipy",
    "torus",
    "tutte_polynomial",
    "verify",
    "wheel",
    "write_chips",
    "wrong_page",
]


def __dir__() -> list[str]:
    """The public names."""
    return [*__all__, "__all__", "__doc__", "__file__", "__name__", "__path__", "__version__"]
