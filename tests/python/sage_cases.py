"""Asks SageMath for the results in sage_cases.json, which the tests compare with chipfire's.

    sage -python tests/python/sage_cases.py >tests/python/sage_cases.json

The file that lies here was written by SageMath 9.5 (Debian's package `sagemath`). Each case is a sandpile graph as Sage
has it, its identity element, the order and the invariant factors of its group, its burning script and configuration,
and configurations drawn at random (the seed is fixed) with what Sage's `stabilize(True)` returns, the stable
configuration and the firing vector, and its `equivalent_recurrent`; each vertex has as many chips as loops at least.
Chips are then dropped one at a time on the identity: `drops` are names, `avalanches` are how many firings each caused
and of how many vertices, and `left` is what lies there at the end. `stables` are stable configurations, with what
Sage's `is_recurrent` and `is_superstable` say. Chips and firings leave out the sink, as Sage's do.

In `divisors` are undirected graphs with their genus, their canonical divisor, and the coefficients of two polynomials:
of Tutte's by the powers of x and y, which takes each edge once, and of that of avalanches by the firings of each
vertex. `ranks` are divisors drawn at random, with chips from -1 to 3 of each vertex, of degrees from -1 to 2g - 1, each
with its `rank`.
"""
import itertools
import json
import random

from sage.all import Graph, Sandpile, SandpileConfig, SandpileDivisor, graphs, sandpiles, version

PLAYS = 4
RANKS = 12
DROPS = 12
STABLES = 3


def from_draw(draw):
    """A directed multigraph on which each vertex reaches the sink 0."""
    rows = {}
    for tail in range(1, 9):
        heads = {draw.randrange(tail): draw.randint(1, 3)}
        for head in draw.sample(range(9), 3):
            if head != tail:
                heads[head] = draw.randint(1, 4)
        rows[tail] = heads
    rows[0] = {}
    return Sandpile(rows, 0)


def games(draw):
    """Each game: how it is made, its sandpile, and the most chips that a vertex gets."""
    yield "sandpiles.Grid(2, 3)", sandpiles.Grid(2, 3), 20
    yield "sandpiles.Grid(5, 4)", sandpiles.Grid(5, 4), 12
    yield "sandpiles.Grid(20, 20)", sandpiles.Grid(20, 20), 6
    yield "sandpiles.Cycle(7)", sandpiles.Cycle(7), 12
    yield "sandpiles.Complete(4)", sandpiles.Complete(4), 30
    yield "sandpiles.Complete(9)", sandpiles.Complete(9), 30
    yield "sandpiles.House()", sandpiles.House(), 20
    yield "sandpiles.Diamond()", sandpiles.Diamond(), 20
    yield "sandpiles.Wheel(6)", sandpiles.Wheel(6), 20
    yield "graphs.ToroidalGrid2dGraph(4, 5), (0, 0)", Sandpile(graphs.ToroidalGrid2dGraph(4, 5), (0, 0)), 8
    yield "graphs.PetersenGraph(), 3", Sandpile(graphs.PetersenGraph(), 3), 12
    for number in range(4):
        yield f"a directed multigraph drawn at random, {number}", from_draw(draw), 40
    yield "two edges and a loop", Sandpile({0: {}, 1: {0: 2, 1: 1}}, 0), 9
    for number in range(3):
        rows = {tail: dict(heads) for tail, heads in from_draw(draw).dict().items()}
        yield f"the same with loops, {number}", Sandpile({
            tail: {**heads, tail: draw.randint(1, 3)} if tail % 3 == number else heads for tail, heads in rows.items()
        }, 0), 30
    edges = [(0, 1, 2), (1, 1, 1), (1, 2, 1), (2, 0, 1)]
    yield "an undirected graph with loops", Sandpile(Graph(edges, loops=True), 0), 9


def undirected():
    """Each undirected graph whose divisors are drawn: how it is made, and its sandpile."""
    yield "sandpiles.Cycle(5)", sandpiles.Cycle(5)
    yield "sandpiles.Complete(4)", sandpiles.Complete(4)
    yield "sandpiles.Complete(5)", sandpiles.Complete(5)
    yield "sandpiles.Diamond()", sandpiles.Diamond()
    yield "sandpiles.House()", sandpiles.House()
    yield "sandpiles.Fan(5)", sandpiles.Fan(5)
    yield "sandpiles.Wheel(5)", sandpiles.Wheel(5)
    yield "graphs.CompleteBipartiteGraph(2, 3), 0", Sandpile(graphs.CompleteBipartiteGraph(2, 3), 0)
    yield "with multiple edges", Sandpile({0: {1: 2, 2: 1}, 1: {0: 2, 2: 1}, 2: {0: 1, 1: 1, 3: 2}, 3: {2: 2}}, 0)


def plain_name(name):
    """A vertex as JSON has it: a pair is a list of two numbers."""
    if isinstance(name, tuple):
        return [int(it) for it in name]
    return name if isinstance(name, str) else int(name)


def numbers(configuration):
    """The chips, or firings, of a configuration in the order of its vertices."""
    return [int(it) for it in configuration.values()]


def play_of(chips):
    """What Sage says of one configuration."""
    stable, fired = chips.stabilize(True)
    return {
        "chips": numbers(chips),
        "stable": numbers(stable),
        "fired": numbers(fired),
        "representative": numbers(chips.equivalent_recurrent()),
    }


def dropped(sandpile, draw):
    """Chips dropped one at a time, from the identity on: where, and what each caused."""
    at, drops, avalanches = sandpile.identity(), [], []
    for name in draw.choices(sandpile.nonsink_vertices(), k=DROPS):
        more = SandpileConfig(sandpile, {it: int(it == name) for it in sandpile.nonsink_vertices()})
        at, fired = (at + more).stabilize(True)
        drops.append(plain_name(name))
        avalanches.append([int(sum(fired.values())), sum(1 for count in fired.values() if count)])
    return {"drops": drops, "avalanches": avalanches, "left": numbers(at)}


def stables_of(sandpile, draw):
    """Stable configurations: some drawn, some recurrent and some superstable, with what Sage says of each."""
    most = sandpile.max_stable()
    for _ in range(STABLES):
        drawn = SandpileConfig(sandpile, {name: draw.randint(0, int(most[name])) for name in most})
        for found in (drawn, drawn.equivalent_recurrent(), most - drawn.equivalent_recurrent()):
            # (a configuration that was asked for its representative says wrongly whether it is recurrent)
            chips = SandpileConfig(sandpile, dict(found))
            yield {
                "chips": numbers(chips),
                "recurrent": bool(chips.is_recurrent()),
                "superstable": bool(chips.is_superstable()),
            }


def plays_of(sandpile, most, draw):
    names = sandpile.nonsink_vertices()
    loops = {name: int(sandpile.edge_label(name, name)) if sandpile.has_edge(name, name) else 0 for name in names}
    drawn = ({name: loops[name] + int(draw.randint(0, most)) for name in names} for _ in range(PLAYS))
    return [play_of(SandpileConfig(sandpile, chips)) for chips in drawn]


def case_of(how, sandpile, most, draw):
    sink = plain_name(sandpile.sink())
    rows = sandpile.edge_iterator(labels=True)
    edges = [[plain_name(tail), plain_name(head), int(mult)] for tail, head, mult in rows]
    own = random.Random(how)
    return {
        "how": how,
        "sink": sink,
        "names": [plain_name(name) for name in sandpile.nonsink_vertices()],
        "edges": [edge for edge in edges if edge[0] != sink],
        "max_stable": numbers(sandpile.max_stable()),
        "identity": numbers(sandpile.identity()),
        "order": str(sandpile.group_order()),
        "factors": [str(factor) for factor in sandpile.invariant_factors()],
        "burning_script": numbers(sandpile.burning_script()),
        "burning": numbers(sandpile.burning_config()),
        "plays": plays_of(sandpile, most, draw),
        **dropped(sandpile, own),
        "stables": list(stables_of(sandpile, own)),
    }


def coefficients(polynomial):
    """The coefficients of a polynomial of several variables, each after its powers."""
    return sorted([*map(int, powers), int(count)] for powers, count in polynomial.dict().items())


def divisors_of(how, sandpile):
    draw, names, genus = random.Random(how), sandpile.vertices(), int(sandpile.genus())
    drawn = (draw.choices(range(-1, 4), k=len(names)) for _ in iter(int, 1))
    kept = itertools.islice((chips for chips in drawn if -1 <= sum(chips) < 2 * genus), RANKS)
    return {
        "how": how,
        "sink": plain_name(sandpile.sink()),
        "names": [plain_name(name) for name in names],
        "edges": [[plain_name(it) for it in edge] for edge in sandpile.edge_iterator(labels=True)],
        "genus": genus,
        "canonical": numbers(sandpile.canonical_divisor()),
        "tutte": coefficients(sandpile.tutte_polynomial()),
        "avalanches": coefficients(sandpile.avalanche_polynomial()),
        "ranks": [[chips, int(SandpileDivisor(sandpile, dict(zip(names, chips))).rank())] for chips in kept],
    }


def lines(rows):
    """Rows of JSON, each on a line."""
    return ",\n".join(json.dumps(row, separators=(",", ":")) for row in rows)


def main():
    draw = random.Random("chipfire")
    cases = lines(case_of(*game, draw) for game in games(draw))
    divisors = lines(divisors_of(*it) for it in undirected())
    print('{"from":"%s","cases":[\n%s\n],"divisors":[\n%s\n]}' % (version(), cases, divisors))


if __name__ == "__main__":
    main()
