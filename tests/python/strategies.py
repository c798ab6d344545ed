"""What tests draw: small graphs, chips and drops, by Hypothesis if it is here, and else by numbered generators.

What makes one takes a generator with the methods of `random.Random`. Hypothesis has such a generator too, which shrinks
what fails. With CHIPFIRE_SOAK=N in the environment each test gets N of them, if that is more.
"""
import dataclasses
import os
import random

import chipfire

try:
    import hypothesis
except ImportError:
    hypothesis = None


def shown(value):
    """A value as a failure shows it: a graph with its edges, and a setting with its graph."""
    if isinstance(value, chipfire.Graph):
        return f"Graph({value.vertices}, {value.sink}, {list(value.edges)})"
    if isinstance(value, chipfire.Setting):
        parts = [getattr(value, it.name) for it in dataclasses.fields(value)]
        return f"Setting{shown(parts)}"
    if isinstance(value, (list, tuple)):
        return f"({', '.join(map(shown, value))})"
    return repr(value)


def named(function, test):
    """The function under the name of a test, by which its readers show it."""
    function.__name__ = test.__name__
    function.__qualname__ = test.__qualname__
    function.__doc__ = test.__doc__
    return function


def by_hypothesis(test, make, rounds):
    """A test of what Hypothesis draws, the same each time."""
    checks = hypothesis.HealthCheck
    settings = hypothesis.settings(
        max_examples=rounds,
        derandomize=True,
        database=None,
        deadline=None,
        suppress_health_check=(checks.too_slow, checks.data_too_large, checks.large_base_example),
    )
    generators = hypothesis.strategies.randoms(use_true_random=False)

    def noted(self, value):
        hypothesis.note(shown(value))
        test(self, value)

    return settings(hypothesis.given(generators.map(make))(named(noted, test)))


def by_numbers(test, make, rounds):
    """A test of what the generators of the numbers below `rounds` draw."""

    def each(self):
        for number in range(rounds):
            value = make(random.Random(number))
            with self.subTest(number=number, drawn=shown(value)):
                test(self, value)

    return named(each, test)


def drawn(make, rounds):
    """Hands a test what `make` draws, `rounds` times."""

    def handed(test):
        most = max(rounds, int(os.environ.get("CHIPFIRE_SOAK") or 0))
        return (by_hypothesis if hypothesis else by_numbers)(test, make, most)

    return handed


def random_graph(draw, vertices, most):
    """A directed multigraph on which each vertex reaches the sink 0."""
    edges = [(tail, draw.randrange(tail), draw.randint(1, most)) for tail in range(1, vertices)]
    for _ in range(3 * vertices):
        tail, head = draw.sample(range(vertices), 2)
        if tail:
            edges.append((tail, head, draw.randint(1, most)))
    return chipfire.Graph(vertices, 0, edges)


def piles(draw, graph, least, most):
    """Chips for each vertex but the sink, as a configuration has them."""
    return [draw.randint(least, most) for _ in range(graph.vertices - 1)]
