"""Games of a detector on the model: random schedules, a shrinker, and logs for ShiViz and `judge_log`.

A game is a `Setting` of chip-firing, or another `Computation`. A detector is a name of `chipfire.detectors.DETECTORS`
or a class of your own, made of `chipfire.model.Core`. Everything here is computed on that model and is not proved.
"""

from __future__ import annotations

from collections import Counter, defaultdict, deque
from collections.abc import Callable, Iterable, Sequence
from dataclasses import dataclass
from typing import Any, Union

from chipfire.lab.computations import Computation, Computed
from chipfire.lab.detectors import known_detector
from chipfire.lab.machine import Event, Reply, Schedule, Setting
from chipfire.lab.model import Core, HOOKS
from chipfire.utils import as_int, random_generator

Game = Union[Setting, Computation]
Detector = Union[str, type[Core]]

#: The events of the machine, and that of a computation in which a vertex goes on; a detector may have others.
EVENTS = (
    "take",
    "ack",
    "fire",
    "clear",
    "claim",
    "put",
    "halt",
    "settle",
    "seal",
    "read",
    "feed",
    "end",
)
WORK = "work"

#: What a detector may not have in another way, as an attribute of its class or of the game.
FROZEN = frozenset(
    name
    for made in (Core, Computed)
    for name in (*dir(made), "ended")
    if not name.startswith("__") and name not in HOOKS
) | {"__setattr__", "__getattribute__", "__delattr__"}

#: Rows of a log: process, kind, channel.
_Acts = list[tuple[int, str, int]]


def detector_name(detector: Detector) -> str:
    """What a detector is called: its name, or that of its class."""
    return detector if isinstance(detector, str) else detector.__name__


def opened(setting: Game, detector: Detector = "right") -> Any:
    """A game at its start, on the model: a `Core` of the detector's class."""
    if not isinstance(setting, (Setting, Computation)):
        known = "a chipfire.Setting of graph and chips, or a Computation"
        raise TypeError(f"a game is {known}, and no {type(setting).__name__}")
    make = known_detector(detector).make
    require_hooks(make)
    core = game_of(setting, make)
    if taken := [name for name in vars(core) if name in FROZEN and name != "ended"]:
        raise _taken(make, taken[0], "keeps something as")
    return core


class NameTaken(ValueError):
    """A detector has something of its own under a name that is the game's."""


def require_hooks(make: type[Core]) -> None:
    """Refuses a detector that has another thing under a name of the model that is no hook."""
    for made in make.__mro__:
        taken = [name for name in vars(made) if name in FROZEN]
        if taken and made not in (Core, object):
            raise _taken(made, taken[0], "has its own")


def _taken(made: type[Core], name: str, does: str) -> NameTaken:
    return NameTaken(
        f"{made.__name__} {does} {name!r}, which is the game's: choose another name. A detector may have its own "
        f"{', '.join(HOOKS)}"
    )


def game_of(setting: Game, make: type[Core]) -> Any:
    """A game at its start, of a class that is not tried: it may have any of the model's names for itself."""
    if isinstance(setting, Computation):
        return setting.opened(make)
    graph = {
        "vertices": setting.graph.vertices,
        "sink": setting.graph.sink,
        "edges": setting.graph.edges,
    }
    return make(graph, setting.chips, setting.limit, setting.ring, setting.fed)


def is_early(core: Core) -> bool:
    """Whether the root is closed and something is left."""
    return core.is_closed() and bool(core.left())


def random_schedule(
    setting: Game, seed: Any, detector: Detector = "right", *, most: int = 100_000
) -> Schedule:
    """Draws a schedule in which each event does something, until the root is closed.

    Parameters
    ----------
    setting : Setting or Computation
        The game.
    seed : int, float, str, bytes, None, numpy.random.Generator or numpy.random.SeedSequence
        The seed, as in `random_drops`.
    detector : str or type, optional
        A name of `chipfire.detectors.DETECTORS`, or a class.
    most : int, optional
        The number of events after which the schedule is cut.

    Returns
    -------
    Schedule
        The schedule. Its `ended` is False if the schedule was cut, for example because the events of a detector repeat
        for ever. With a wrong detector, the schedule may also end because no event is possible.

    Raises
    ------
    ValueError
        The detector cannot be played.

    See Also
    --------
    play, shrink, explore

    Notes
    -----
    The right detector closes the root in each such schedule.

    None of this is proved, and the program is not run.

    Examples
    --------
    >>> from chipfire import detectors
    >>> chipfire.random_schedule(detectors.DETECTORS["right"].game, seed=1).ended
    True
    """
    core = opened(setting, detector)
    draw = random_generator(seed)
    made = Schedule()
    as_int(most, "most")
    while not core.is_closed() and (events := core.enabled()):
        if len(made) == most:
            made.ended = False
            break
        made.append(Event(*draw.choice(events)))
        core.step(*made[-1])
    return made


@dataclass(frozen=True)
class Play:
    """A run that the model alone played, with any detector. Not proved: its replies.

    replies      a reply for each event
    root_closed  whether the detector says in the end that all is over
    left         what is left then, in words
    """

    game: Game
    detector: Detector
    schedule: Schedule
    replies: tuple[Reply, ...]
    root_closed: bool
    left: tuple[str, ...]


def play(setting: Game, events: Iterable[Sequence[Any]], detector: Detector = "right") -> Play:
    """Plays a schedule on the model, with any detector.

    Parameters
    ----------
    setting : Setting or Computation
        The game.
    events : iterable of (kind, at, count)
        The schedule.
    detector : str or type, optional
        A name of `chipfire.detectors.DETECTORS`, or a class.

    Returns
    -------
    Play
        The replies and the states, for `page`.

    Raises
    ------
    ValueError
        An entry is no event, or the detector cannot be played.

    See Also
    --------
    page, simulate, random_schedule

    Notes
    -----
    None of this is proved, and the program is not run.

    Examples
    --------
    >>> from chipfire import detectors
    >>> game = detectors.DETECTORS["right"].game
    >>> chipfire.page(chipfire.play(game, [("take", 4, 0), ("fire", 0, 2)]), "play.html")
    """
    core = opened(setting, detector)
    schedule = Schedule(events)
    replies = []
    for event in schedule:
        kind, *numbers = core.step(*event).split() or ["done"]
        replies.append(Reply(kind, tuple(int(word) for word in numbers if word.isdecimal())))
    return Play(setting, detector, schedule, tuple(replies), core.is_closed(), tuple(core.left()))


def played(setting: Game, detector: Detector, events: Iterable[Sequence[Any]]) -> Any:
    """The game after a schedule, on the model."""
    core = opened(setting, detector)
    for event in events:
        core.step(*event)
    return core


def shrink(
    setting: Game,
    detector: Detector,
    events: Iterable[Sequence[Any]],
    is_bad: Callable[[Core], bool] = is_early,
) -> Schedule:
    """Leaves out events of a schedule as long as the game is bad after the rest.

    Parameters
    ----------
    setting : Setting or Computation
        The game.
    detector : str or type
        A name of `chipfire.detectors.DETECTORS`, or a class.
    events : iterable of (kind, at, count)
        The schedule.
    is_bad : callable, optional
        Returns whether a game is bad. By default it is bad if the root is closed and something is left.

    Returns
    -------
    Schedule
        A schedule after which the game is bad. If any one of its events is left out, the game is not bad.

    Raises
    ------
    ValueError
        The game is not bad after the schedule.

    See Also
    --------
    random_schedule, explore

    Notes
    -----
    None of this is proved.

    Examples
    --------
    >>> from chipfire import detectors
    >>> game = detectors.DETECTORS["right"].game
    >>> [kind for kind, at, count in chipfire.shrink(game, "at-once", chipfire.explore(game, "at-once").schedule)]
    ['take', 'ack', 'settle']
    """
    kept = [Event(*event) for event in events]
    if not is_bad(played(setting, detector, kept)):
        raise ValueError("nothing is wrong after this schedule, so there is nothing to shrink")
    size = len(kept)
    while size:
        before = len(kept)
        for at in range(before, 0, -size):
            fewer = kept[: max(at - size, 0)] + kept[at:]
            if is_bad(played(setting, detector, fewer)):
                kept = fewer
        # (smaller pieces are tried then; one event at a time until none can be left out)
        size = size // 2 if size > 1 else int(len(kept) < before)
    return Schedule(kept)


def shiviz(setting: Game, events: Iterable[Sequence[Any]], detector: Detector = "right") -> str:
    r"""Returns a schedule as a log that ShiViz draws.

    Parameters
    ----------
    setting : Setting or Computation
        The game.
    events : iterable of (kind, at, count)
        The schedule.
    detector : str or type, optional
        A name of `chipfire.detectors.DETECTORS`, or a class.

    Returns
    -------
    str
        Two lines for each event: the part that makes it, with the vector clock; and what happened. ShiViz reads them
        with the expression ``(?<host>\S*) (?<clock>{.*})\n(?<event>.*)``.

    Raises
    ------
    ValueError
        The detector defines events, whose clocks are not known.

    See Also
    --------
    read_shiviz, play

    Notes
    -----
    None of this is proved.

    Examples
    --------
    >>> from chipfire import detectors
    >>> print(chipfire.shiviz(detectors.DETECTORS["right"].game, [("take", 4, 0)]).count("\n"))
    2
    """
    core = opened(setting, detector)
    lines = []
    clocks: dict[str, Counter[str]] = defaultdict(Counter)
    #: The clocks that travel with the messages of an edge, and with its acknowledgements.
    messages: dict[int, deque[Counter[str]]] = {
        e.number: deque([Counter()] * e.put) for e in core.edges
    }
    acks: dict[int, Counter[str]] = defaultdict(Counter)
    for event in events:
        if event[0] not in (*EVENTS, WORK):
            raise ValueError(
                f"{event[0]} is an event of {detector_name(detector)}: what it carries is not known"
            )
        kind = event[0]
        at = event[1]
        reply = core.step(*event)
        if reply.startswith("not-now") or reply in ("empty", "full"):
            continue
        # The root also writes down the stopper's seals.
        host = str(at) if kind in ("fire", "halt", WORK) else "root"
        if kind in ("take", "ack"):
            host = str(core.edges[at].head)
        elif kind in ("clear", "claim", "put", "settle") and core.edges[at].tail >= 0:
            host = str(core.edges[at].tail)
        clock = clocks[host]
        if kind in ("take", "settle"):
            clock |= messages[at].popleft() if kind == "take" else acks[at]
        clock[host] += 1
        if kind == "put":
            messages[at].append(clock.copy())
        elif kind == "ack":
            acks[at] = clock.copy()
        counts = ", ".join(f'"{name}":{count}' for name, count in sorted(clock.items()))
        lines += [f"{host} {{{counts}}}", f"{kind} {at}: {reply}"]
    return "".join(f"{line}\n" for line in lines)


def model_log(
    setting: Game, detector: Detector, events: Iterable[Sequence[Any]]
) -> list[tuple[int, str, int]]:
    """Returns a schedule of the model as a log for `judge_log`.

    Parameters
    ----------
    setting : Setting or Computation
        The game.
    detector : str or type
        A name of `chipfire.detectors.DETECTORS`, or a class. If the detector defines events, its `tells` says who sends
        to whom.
    events : iterable of (kind, at, count)
        The schedule.

    Returns
    -------
    list of (int, str, int)
        Rows (process, kind, channel). The vertices are processes, and the root is the process after them. The root
        claims that the computation is over when it first closes.

    Raises
    ------
    ValueError
        An entry is no event, or `tells` lacks one.

    See Also
    --------
    judge_log, random_schedule

    Notes
    -----
    Messages of edge e are on channel e, and so are their acknowledgements. Let m be the number of edges, including root
    edges. Then channel m + e has what the tail of edge e reads of the edge's cells, and channel 2m + e what the tail
    reads of a seal.

    None of this is proved.

    Examples
    --------
    >>> from chipfire import detectors
    >>> game = detectors.DETECTORS["right"].game
    >>> found = chipfire.explore(game, "at-once")
    >>> chipfire.judge_log(chipfire.model_log(game, "at-once", found.schedule)).is_right
    False
    """
    core = opened(setting, detector)
    root = len(core.vertices)
    is_over = False
    seen = dict[tuple[str, int, int], _Acts]()
    log: list[_Acts] = [
        [(root, "active", 0)],
        *([(root, "send", e.number)] * e.put for e in core.edges),
    ]
    active = {root}
    for event in [None, *events]:
        log.append(_acts(core, Event(*event), seen) if event else [])
        active.update(process for process, kind, _ in log[-1] if kind == "receive")
        rests = core.ended and not core.has_unput(root)
        passive = [it for it in sorted(active) if (rests if it == root else core.is_passive(it))]
        active.difference_update(passive)
        log.append([(it, "passive", 0) for it in passive])
        if core.is_closed() and not is_over:
            is_over = True
            log.append([(root, "over", 0)])
    return [act for acts in log for act in acts]


def _messages_of(core: Any, kind: str, at: int) -> list[tuple[int, int]]:
    """Who sends to whom in an event of a detector's own, which is at one part or between two."""
    pairs = [(int(teller), int(hearer)) for teller, hearer in core.tells(kind, at)]
    if len({part for pair in pairs for part in pair}) > 2:
        raise ValueError(
            f"{kind} {at} is one event of {type(core).__name__} in which more than two parts tell and hear something: "
            "make an event of each"
        )
    return pairs


def _acts(core: Any, event: Event, seen: dict[tuple[str, int, int], _Acts]) -> _Acts:
    """What an event adds to a log. A tail reads of a take or a seal later: until then its acts are in `seen`."""
    (kind, at, _) = event
    root = len(core.vertices)
    many = len(core.edges)
    own = [] if kind in (*EVENTS, WORK) else _messages_of(core, kind, at)
    e = core.edges[core.graph_edges if kind == "end" or at >= len(core.edges) else at]
    before = e.acked + e.settled
    said, *_ = core.step(*event).split() or ["done"]
    if said in ("not-now", "empty", "full") or kind in ("fire", "halt", "read", "feed", WORK):
        return []
    if kind not in EVENTS:
        messages = [(*pair, 3 * many + pair[0] * (root + 1) + pair[1]) for pair in own]
        return [
            act
            for teller, hearer, it in messages
            for act in ((teller, "tell", it), (hearer, "hear", it))
        ]
    tail = root if e.tail < 0 else e.tail
    if kind in ("take", "seal"):
        new = (kind, at, e.delivered) if kind == "take" else (kind, at, 0)
        return seen.setdefault(new, [(e.head, "receive", at)] if kind == "take" else [])
    if kind in ("ack", "settle", "end"):
        count = e.acked + e.settled - before
        return [(e.head, "tell", at) if kind == "ack" else (tail, "hear", e.number)] * count
    old = ("seal", at, 0) if said == "sealed" else ("take", at, len(e.sent) - core.ring + 1)
    acts = seen.pop(old, None) if kind == "clear" or said == "sealed" else None
    if acts is None:
        return [(tail, "send", at)] if kind == "put" else []
    channel = many * (1 + (said == "sealed")) + at
    acts.append((root if said == "sealed" else e.head, "tell", channel))
    return [(tail, "hear", channel)]
