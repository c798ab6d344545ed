"""Computations of any kind that a detector watches: their messages go over the edges of a graph, and carry any load.

A `Computation` takes the place of a `chipfire.Setting` in `explore`, `random_schedule`, `shrink`, `shiviz`, `play` and
`wrong_page`, with any detector of chip-firing. Everything here is computed on `chipfire.model` and is not proved.
"""

from __future__ import annotations

import copy
from collections.abc import Iterable, Mapping, Sequence
from typing import Any, ClassVar

from chipfire.graphs.graph import Graph
from chipfire.lab.model import Core, Event, Vertex

#: What is sent: the number of an edge, or of the vertex that the root sends to, and what the message carries.
Sends = Iterable[tuple[int, Any]]


class Computation:
    """What the vertices of a graph compute: a base class for computations of your own.

    A vertex is passive until a message comes. Then it returns messages for its own edges, and may stay at work: once
    all these messages are sent, it goes on by itself, each time in one of several ways. Each vertex has a state, which
    is a vertex of the model. The computation keeps all its knowledge in the attributes of the states. These attributes,
    and the loads of messages, are plain values. A state has the vertex's `number`, and its edges in `outs`. Its
    `chips`, `fired`, `halt` and `parent` belong to the model.

    Parameters
    ----------
    graph : Graph
        The graph. The root can send messages to every vertex.

    Attributes
    ----------
    begins : dict of str to Any
        The attributes that each state has at the start.

    See Also
    --------
    explore, random_schedule, play

    Notes
    -----
    None of this is proved.

    Examples
    --------
    >>> class Once(chipfire.Computation):
    ...     begins = {"got": 0}
    ...     def on_start(self):
    ...         return [(0, 1)]
    ...     def on_message(self, state, edge, load):
    ...         state.got += load
    ...         return []
    >>> chipfire.explore(Once(chipfire.path(1)), "right").status
    0
    """

    #: The attributes that each state has at the start.
    begins: ClassVar[Mapping[str, Any]] = {}
    #: A computation is never fed.
    fed = False

    def __init__(self, graph: Graph) -> None:
        self.graph = graph

    def on_start(self) -> Sends:
        """The messages of the root: pairs of a vertex and a load."""
        raise NotImplementedError

    def on_message(self, state: Any, edge: int, load: Any) -> Sends:
        """Handles a message from an edge, and returns what the vertex sends: pairs of an edge and a load."""
        raise NotImplementedError

    def is_passive(self, state: Any) -> bool:
        """Whether a vertex does nothing until another message comes."""
        return True

    def ways(self, state: Any) -> int:
        """The number of ways in which a vertex at work may go on."""
        return 1

    def on_work(self, state: Any, way: int) -> Sends:
        """Lets a vertex go on in one of its ways, numbered from 0, and returns what the vertex sends."""
        raise NotImplementedError

    def show(self, state: Any) -> str:
        """A short text of the state, for pages: the values that are not empty."""
        of_model = {*vars(Vertex()), "number", "outs"}
        own = [(name, value) for name, value in vars(state).items() if name not in of_model]
        full = [
            (name, value)
            for name, value in own
            if value is not None and value is not False and value != ()
        ]
        return " ".join(name if value is True else str(value) for name, value in full)

    def opened(self, make: type[Core]) -> Core:
        """A game at its start, with a detector."""
        graph = self.graph
        held = {
            "vertices": graph.vertices,
            "sink": graph.sink,
            "edges": graph.edges,
            "computation": self,
        }
        bases = (Computed,) if make is Core else (make, Computed)
        game: Core = type(make.__name__, bases, {"__module__": make.__module__})(
            held, (), 2**40, 1, False
        )
        return game


class Computed(Core):
    """A game of a computation. What a vertex sends is claimed at once, and each message put in an event of its own."""

    HELD = (*Core.HELD, "computation")
    __slots__ = ("computation",)

    def __init__(self, graph: Mapping[str, Any], chips: Sequence[int], *options: Any) -> None:
        super().__init__(graph, [0] * graph["vertices"], *options)
        self.computation: Computation = graph["computation"]
        for number, state in enumerate(self.vertices):
            vars(state).update(number=number, outs=tuple(e.number for e in self.outs(number)))
            if taken := [name for name in self.computation.begins if name in vars(state)]:
                made = type(self.computation).__name__
                raise ValueError(
                    f"{made}.begins has {taken[0]!r}, which the model keeps: choose another name"
                )
            vars(state).update(copy.deepcopy(dict(self.computation.begins)))
        self.claim_all(
            -1, [(self.graph_edges + vertex, load) for vertex, load in self.computation.on_start()]
        )
        for e in self.outs(-1):
            e.put = len(e.sent)

    def is_legal(self, v: int) -> bool:
        return not self.computation.is_passive(self.vertices[v])

    def ways(self, v: int) -> int:
        return self.computation.ways(self.vertices[v]) if self.is_legal(v) else 0

    def at_work(self, v: int) -> str:
        return "is at work" if self.is_legal(v) else ""

    def works(self) -> list[Event]:
        free = [v for v in range(len(self.vertices)) if not self.has_unput(v)]
        return [("work", v, way) for v in free for way in range(self.ways(v))]

    def take(self, at: int) -> str:
        e = self.edge(at)
        if e.delivered == e.put:
            return "empty"
        e.delivered += 1
        self.on_take(e)
        self.claim_all(
            e.head, self.computation.on_message(self.vertices[e.head], at, e.sent[e.delivered - 1])
        )
        return f"got {e.delivered - 1}"

    def put(self, at: int) -> str:
        super().put(at)
        return f"done {self.edges[at].put - 1}"

    def work(self, at: int, way: int) -> str:
        """A vertex that is at work goes on."""
        state = self.vertex(at)
        self.need("Unput", not self.has_unput(at))
        self.need("NotLegal", 0 <= way < self.ways(at))
        self.claim_all(at, self.computation.on_work(state, way))
        return "done"

    def claim_all(self, v: int, sends: Sends) -> None:
        """A vertex, or the root, claims places for messages."""
        own = [e.number for e in self.outs(v)]
        for at, load in sends:
            if at not in own:
                raise ValueError(
                    f"vertex {v} sends on edge {at}, which is none of its own"
                    if v >= 0
                    else f"the root sends to vertex {at - self.graph_edges}, which is not there"
                )
            e = self.edges[at]
            e.sent = (*e.sent, load)
            self.on_send(e)


class Flooding(Computation):
    """Marks what can be reached: a vertex that gets its first message sends one on each of its edges."""

    begins: ClassVar[Mapping[str, Any]] = {"marked": False}

    def __init__(self, graph: Graph, starts: Sequence[int] = (0,)) -> None:
        super().__init__(graph)
        self.starts = tuple(starts)

    def on_start(self) -> Sends:
        return [(start, 0) for start in self.starts]

    def on_message(self, state: Any, edge: int, load: Any) -> Sends:
        is_first = not state.marked
        state.marked = True
        return [(out, 0) for out in state.outs if is_first]


class ShortestPaths(Flooding):
    """Finds the distance to each vertex from the nearest start. The length of an edge is its multiplicity."""

    begins: ClassVar[Mapping[str, Any]] = {"distance": None}

    def on_message(self, state: Any, edge: int, load: Any) -> Sends:
        if state.distance is not None and state.distance <= load:
            return []
        state.distance = load
        return [(out, load + self.graph.edges[out][2]) for out in state.outs]


class RandomWalk(Computation):
    """Tokens go from vertex to vertex, on any edges. `tokens` has, for a vertex, the number of hops of the token that
    begins there."""

    begins: ClassVar[Mapping[str, Any]] = {"hops": ()}

    def __init__(self, graph: Graph, tokens: Mapping[int, int]) -> None:
        super().__init__(graph)
        self.tokens = tuple(tokens.items())

    def on_start(self) -> Sends:
        return self.tokens

    def on_message(self, state: Any, edge: int, load: Any) -> Sends:
        state.hops = (*state.hops, load) if load and state.outs else state.hops
        return ()

    def is_passive(self, state: Any) -> bool:
        return not state.hops

    def ways(self, state: Any) -> int:
        return len(state.outs)

    def on_work(self, state: Any, way: int) -> Sends:
        hops = state.hops[0]
        state.hops = state.hops[1:]
        return [(state.outs[way], hops - 1)]


class WorkStealing(Computation):
    """Fork and join on a tree of tasks: one of depth d forks into two of depth d - 1, and one of depth 0 is done.

    A vertex works on its newest task. As long as it has more than one, a neighbour may steal the oldest, which begins
    with it at once. All tasks are joined when the root is closed.
    """

    begins: ClassVar[Mapping[str, Any]] = {"tasks": (), "done": 0}

    def __init__(self, graph: Graph, depth: int, start: int = 0) -> None:
        super().__init__(graph)
        self.depth = depth
        self.start = start

    def on_start(self) -> Sends:
        return [(self.start, self.depth)]

    def on_message(self, state: Any, edge: int, load: Any) -> Sends:
        if load:
            state.tasks = (*state.tasks, load - 1, load - 1)
        else:
            state.done += 1
        return ()

    def is_passive(self, state: Any) -> bool:
        return not state.tasks

    def ways(self, state: Any) -> int:
        return 1 + (len(state.outs) if len(state.tasks) > 1 else 0)

    def on_work(self, state: Any, way: int) -> Sends:
        if way == 0:
            newest = state.tasks[-1]
            state.tasks = state.tasks[:-1]
            return self.on_message(state, -1, newest)
        oldest = state.tasks[0]
        state.tasks = state.tasks[1:]
        return [(state.outs[way - 1], oldest)]


class Firing(Computation):
    """Chip-firing without the machine: a message has all chips of some firings, and an edge holds any number."""

    def __init__(self, graph: Graph, chips: Any) -> None:
        super().__init__(graph)
        self.chips = graph.chips(chips)
        self.degrees = graph.degrees()

    def on_start(self) -> Sends:
        return [(vertex, count) for vertex, count in enumerate(self.chips) if count]

    def on_message(self, state: Any, edge: int, load: Any) -> Sends:
        state.chips += load
        return ()

    def is_passive(self, state: Any) -> bool:
        return state.number == self.graph.sink or self.ways(state) == 0

    def ways(self, state: Any) -> int:
        return int(state.chips // self.degrees[state.number])

    def on_work(self, state: Any, way: int) -> Sends:
        state.chips -= (way + 1) * self.degrees[state.number]
        state.fired += way + 1
        return [(out, (way + 1) * self.graph.edges[out][2]) for out in state.outs]

    def show(self, state: Any) -> str:
        return str(state.chips)
