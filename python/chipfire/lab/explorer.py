"""All schedules of a small game: whether its detector can close the root too early, and always can close it at last."""

from __future__ import annotations

import contextlib
import os
import random
import traceback
from collections.abc import Callable, Iterable, Iterator, Sequence
from dataclasses import replace
from typing import Any

from chipfire.graphs.graph import Graph
from chipfire.lab.endings import Moves
from chipfire.lab.explored import DetectorError as DetectorError, Explored, RIGHT, UNDECIDED
from chipfire.lab.locality import unknown
from chipfire.lab.machine import Event, Schedule, Setting
from chipfire.lab.model import Core, TooManyEvents, TooManyFirings
from chipfire.lab.reached import Reached, State, Step
from chipfire.lab.schedules import (
    Detector,
    detector_name,
    Game,
    is_early,
    model_log,
    NameTaken,
    opened,
    played,
)
from chipfire.lab.shadow import GAME_EVENTS, Shadow
from chipfire.lab.states import frozen, States
from chipfire.utils import as_int, with_unit

#: How many random schedules of each search are played once more, and of how many, if there are as many states, the logs
#: are read.
REPLAYS = 200
LOGS = 1000


def explore(
    setting: Game,
    detector: Detector = "right",
    *,
    most: int = 100_000,
    whole_sends: bool = False,
    feeds: Iterable[Sequence[int]] = (),
    seals: Iterable[int] = (),
) -> Explored:
    """Tries a detector in all schedules of a small game.

    It visits the states breadth first, until it finds the root closed while something is left.

    Parameters
    ----------
    setting : Setting or Computation
        The game.
    detector : str or type, optional
        A name of `chipfire.detectors.DETECTORS`, or a class.
    most : int, optional
        The greatest number of states to visit. If there are more states, the result says what was found among those
        visited.
    whole_sends : bool, optional
        Whether a send is one step. By default, a send is three steps: clear, claim and put, as on threads. With one
        step there are fewer states, but an error between two of the three steps is not found.
    feeds : iterable of (int, int), optional
        What the root feeds, in this order: pairs of a root edge and a number of chips. The setting must be `fed`. The
        root may note the end of feeding at any time, and feeds no more after that.
    seals : iterable of int, optional
        The edges of the graph that may be sealed, each at any time.

    Returns
    -------
    Explored
        What was found. Its `status` is 0 if the detector is right in this game, 2 if it closes the root too early, 3 if
        it can miss the end, 4 if there were too many states, and 5 if it closes the root although no message reported
        some act to the root. `schedule` is a schedule that leads there.

    Raises
    ------
    ValueError
        The detector cannot be tried: one of its attributes cannot be compared; or it does not repeat its steps on a
        second game; or it raises an exception, changes the game, or opens a closed root; or its `tells` lacks one of
        its events. The error's `schedule` leads there.

    See Also
    --------
    judge, random_schedule, shrink, wrong_page

    Notes
    -----
    Other chips, feeds, seals, limits and rings are not tried. Nor are messages that are lost, duplicated or overtaken.
    The logs of the shortest schedule to each closed root, and of up to 1,000 random schedules, show whether messages
    reported each act to the root. A read of other vertices that never helps to close the root is not found.

    The state consists of all attributes of the game, its edges and its vertices, except those that the class names in
    `not_state`. The schedules found, and 200 random schedules, are played a second time.

    None of this is proved.

    Examples
    --------
    >>> game = chipfire.Setting(chipfire.path(1), (2, 0))
    >>> chipfire.explore(game, "right").status, chipfire.explore(game, "at-once").status
    (0, 2)
    """
    return _Search(setting, detector, most, whole_sends, feeds, seals).result()


class _Search:
    """A search over numbered states. A move is a step with its replies, and has a number too."""

    def __init__(
        self,
        setting: Game,
        detector: Detector,
        most: int,
        whole_sends: bool,
        feeds: Iterable[Sequence[int]],
        seals: Iterable[int],
    ) -> None:
        self.setting = setting
        self.detector = detector
        self.whole_sends = bool(whole_sends)
        self.most = as_int(most, "most", 1)
        #: The state of Python's random numbers, which a detector may not change.
        self.chance = random.getstate()
        #: The game, which `states` brings from one state to another.
        self.core, self.states, start = self._opened()
        #: What stands in classes and in the setting, which a detector may not change.
        self.shared = _shared(self.core, setting)
        self.name = detector_name(detector)
        self.feeds = self._taken_feeds(feeds)
        self.seals = self._taken_seals(seals)
        #: How many messages the root sends before it feeds any.
        self.opening = sum(len(e.sent) for e in self.core.outs(-1))
        #: The game without a detector, which says what each event of the game does.
        self.shadow = Shadow(setting)
        self.reached = Reached(start)
        #: The number of each step by its first event.
        self.step_numbers: dict[tuple[str, int, int], int] = {}
        #: Whether the search has found all states so far, and no more than `most`.
        self.is_whole = True
        #: Where the search is: a state, and the step that it takes from there, or -1.
        self.trail = 0, -1

    def _opened(self) -> tuple[Core, States, State]:
        """The game at its start, its states, and the first of them; a class of others that raises is refused."""
        if not (isinstance(self.detector, type) and issubclass(self.detector, Core)):
            return self._made()
        with self._guarded(lambda: ()):
            return self._made()

    def _made(self) -> tuple[Core, States, State]:
        core: Core = opened(self.setting, self.detector)
        states = States(core)
        return core, states, states.noted()

    def _taken_feeds(self, feeds: Iterable[Sequence[int]]) -> list[tuple[int, int]]:
        """Feeds as the edges and the numbers of chips; what cannot be fed is refused."""
        found = [
            (as_int(at, "the edge of a feed"), as_int(count, "a feed", 1)) for at, count in feeds
        ]
        if found and not self.setting.fed:
            raise ValueError("there are feeds, and the setting is not fed")
        edges = range(self.core.graph_edges, len(self.core.edges))
        if strange := [at for at, _ in found if at not in edges]:
            raise ValueError(
                f"edge {strange[0]} is none of the root's, which are {edges.start} to {edges.stop - 1}"
            )
        return found

    def _taken_seals(self, seals: Iterable[int]) -> list[int]:
        """The edges that may be sealed; those of another game than chip-firing are refused."""
        last = self.core.graph_edges - 1
        found = [as_int(at, "the edge of a seal", 0, last) for at in seals]
        if found and not isinstance(self.setting, Setting):
            raise ValueError("there are seals, and the game is not one of chip-firing")
        return found

    def result(self) -> Explored:
        """Searches, plays what was found once more, and judges what the root knew."""
        with self._guarded(self._trail):
            early, stuck = self._searched()
            if early is None:
                self._require_closed_stays()
        self._play_again()
        options = {"stuck": self.reached.way_or_none(stuck), "whole_sends": self.whole_sends}
        if early is not None:
            return self._early(self.reached.way(early), options)
        found = self._endings(options)
        if found.status in (RIGHT, UNDECIDED):
            return replace(found, **self._knowledge())
        return found

    def _early(self, schedule: Schedule, options: dict[str, Any]) -> Explored:
        """A root that is closed too early, also on a game of its own."""
        core = played(self.setting, self.detector, schedule)
        if not is_early(core):
            raise self._other(schedule, "end")
        states = len(self.reached.order)
        return Explored(states, schedule, tuple(core.left()), is_whole=False, **options)

    def _endings(self, options: dict[str, Any]) -> Explored:
        """Whether the root can always be closed, and is once nothing is forgotten."""
        found = Explored(len(self.reached.order), is_whole=self.is_whole, **options)
        if self.is_whole:
            moves = self.reached.graph()
            lost = self.reached.way_or_none(moves.lost())
            found = replace(found, lost=lost, **self._round(moves))
        for way in (found.stuck, found.lost, found.endless):
            if way is not None and played(self.setting, self.detector, way).is_closed():
                raise self._other(way, "end")
        return found

    def _round(self, moves: Moves) -> dict[str, Any]:
        """A schedule with a round at its end that can go on for ever, and how many events that has."""
        found = moves.round(self._is_due, self._is_outside)
        if found is None:
            return {}
        at, steps = found
        events = [event for step in steps for event in self.reached.steps[step]]
        return {"endless": Schedule([*self.reached.way(at), *events]), "round": len(events)}

    def _is_due(self, step: int) -> bool:
        """Whether a step is the game's, which goes on as long as it can."""
        return self.reached.steps[step][0].kind in GAME_EVENTS and not self._is_outside(step)

    def _is_outside(self, step: int) -> bool:
        """Whether a step is a feed or a seal, which need never come."""
        kinds = {event.kind for event in self.reached.steps[step]}
        return bool(kinds & {"feed", "seal"})

    def _searched(self) -> tuple[int | None, int | None]:
        """The first state in which the root is closed too early, and the first in which nothing can happen."""
        stuck = None
        core = self.core
        closed = self.reached.closed
        for at, state in enumerate(self.reached.order):
            self.trail = at, -1
            self.states.load(state)
            closed[at] = bool(core.is_closed())
            if closed[at] and core.left():
                return at, stuck
            if self.is_whole:
                steps = self._steps(core)
                self._require_unchanged(state)
                if not steps and not closed[at] and stuck is None and self.is_whole:
                    stuck = at
                self._go_on(at, state, steps)
        return None, stuck

    def _go_on(self, at: int, state: tuple[int, ...], steps: list[int]) -> None:
        """Takes each step from a state, as long as there are not too many states."""
        load = self.states.load
        noted = self.states.noted
        step_of = self.core.step
        reached = self.reached
        for step in steps:
            self.trail = at, step
            load(state)
            replies = tuple([step_of(*event) for event in reached.steps[step]])
            head = noted()
            beside = self._beside(at, step, replies)
            move = reached.move(step, replies)
            found = reached.places.get(head)
            if found is None:
                found = len(reached.order)
                if found == self.most:
                    self.is_whole = False
                    return
                self._require_same_game(beside)
                reached.add(head, at, move, beside)
            elif reached.beside[found] != beside:
                self._require_same_game(beside)
            reached.moves.append(move)
            reached.heads.append(found)
        if self.is_whole:
            reached.firsts.append(len(reached.moves))

    def _beside(self, at: int, step: int, replies: tuple[str, ...]) -> int:
        """The state of the shadow after a step, whose replies have to be those of the game's events."""
        events = self.reached.steps[step]
        before = self.reached.beside[at]
        if events[0].kind not in GAME_EVENTS:
            return before
        after, wanted = self.shadow.after(before, events)
        for event, said, right in zip(events, replies, wanted):
            if said != right and event.kind != "end":  # (that settles too, which is the detector's)
                self._require_shared()
                raise self._error(
                    f"{event.kind} {event.at} replies {said!r}, and in the game {right!r}"
                )
        return after

    def _require_unchanged(self, state: tuple[int, ...]) -> None:
        """Refuses a detector that another state has after it was asked."""
        if self.states.noted() != state:
            changed = ", ".join(self.states.changed(state))
            raise self._error(
                f"it changes {changed} when it is only asked what may happen: only an event may change its state, or "
                "it is named in not_state"
            )

    def _require_same_game(self, beside: int) -> None:
        """Refuses a detector that changed the game."""
        if other := self.shadow.difference(beside, self.core):
            self._require_shared()
            raise self._error(
                f"it changes {other}, which is the game's: of the model's it may write acked, settled and parent"
            )

    def _require_shared(self) -> None:
        """Refuses what changed in a class or in a computation, which all games share."""
        for name, value in _shared(self.core, self.setting).items():
            if self.shared.get(name) != value:
                reason = f"{name}, and changed: keep it in an attribute of the game"
                raise DetectorError(reason, Schedule())

    def _require_closed_stays(self) -> None:
        """Refuses a root that is open again after it was closed."""
        if (found := self.reached.reopened()) is not None:
            self.trail = found
            raise self._error("the root is open again, and it was closed before this event")

    def _steps(self, core: Core) -> list[int]:
        """The numbers of the steps that may happen next."""
        try:
            events = core.enabled(self.most)
        except TooManyEvents:
            self.is_whole = False
            return []
        if self.feeds or self.seals:
            events += self._outside(core)
        try:
            return [self.step_numbers[event] for event in events]
        except (KeyError, TypeError):  # (there are others than ever before)
            return [self._number(*event) for event in events]

    def _number(self, kind: str, at: int, count: int = 0) -> int:
        """The number of the step that begins with an event."""
        if not callable(getattr(self.core, kind, None)):
            raise ValueError(f"there is an event {kind!r}, and no method of that name")
        step: Step = (Event(kind, at, count),)
        if kind == "clear" and self.whole_sends:
            middle = Event("claim", at) if at < self.core.graph_edges else Event("feed", at, count)
            step = Event("clear", at), middle, Event("put", at)
        steps = self.reached.steps
        number = self.step_numbers.setdefault((kind, at, count), len(steps))
        steps += [step] if number == len(steps) else []
        return number

    def _outside(self, core: Core) -> Iterator[tuple[str, int, int]]:
        """How the next feed begins, if there is room, and the seals."""
        fed = sum(len(e.sent) for e in core.outs(-1)) - self.opening
        if not core.ended and fed < len(self.feeds):
            at, count = self.feeds[fed]
            e = core.edges[at]
            if e.clear:
                yield "feed", at, count
            elif e.put == len(e.sent) and len(e.sent) - e.delivered < core.ring:
                yield "clear", at, count if self.whole_sends else 0
        yield from (("seal", at, 0) for at in self.seals if not core.edges[at].sealed)

    def _trail(self) -> Schedule:
        """The events that led to where the search is."""
        at, step = self.trail
        last = self.reached.steps[step] if step >= 0 else ()
        return Schedule([*self.reached.way(at), *last])

    @contextlib.contextmanager
    def _guarded(self, events: Callable[[], Iterable[Event]]) -> Iterator[None]:
        """Says of an exception in a class where it was raised, and after which events."""
        try:
            yield
        except (DetectorError, TooManyFirings):
            raise
        except NameTaken as error:
            raise DetectorError(str(error), Schedule()) from error
        except Exception as error:  # (whatever a class does)
            raise self._error(_said(error), events()) from error

    def _error(self, reason: str, events: Iterable[Event] | None = None) -> DetectorError:
        """A refusal, with the events that led there: those to where the search is, if no others are given."""
        schedule = Schedule(self._trail() if events is None else events)
        after = f"after {with_unit(len(schedule), 'event')}" if schedule else "at the start"
        return DetectorError(f"{detector_name(self.detector)}, {after}: {reason}", schedule)

    def _other(self, events: Iterable[Event], what: str) -> DetectorError:
        schedule = Schedule(events)
        return DetectorError(
            f"{self.name} does not do the same again: after {with_unit(len(schedule), 'event')} it has another "
            f"{what} than in the search. What it keeps has to stand in attributes of the game, and not in those of a "
            "class or in globals; and it may not ask chance or the clock",
            schedule,
        )

    def _play_again(self) -> None:
        """Plays random schedules of the search from the start, each on a game of its own."""
        self.states.check()
        self._require_shared()
        if random.getstate() != self.chance:
            raise DetectorError(
                f"{self.name} does not do the same again: it asks chance", Schedule()
            )
        draw = random.Random(0)
        most = 2 * self.reached.length() + 10
        for _ in range(REPLAYS):
            schedule: list[Event] = []
            with self._guarded(schedule.copy):
                core = opened(self.setting, self.detector)
                self._walk(core, States(core, self.states), draw, most, schedule)

    def _walk(
        self, core: Core, states: States, draw: random.Random, most: int, schedule: list[Event]
    ) -> None:
        """Plays a random schedule of at most `most` steps, and adds its events to `schedule`. In each state the game has
        to be the one of the search: its state, its end, what may happen, and the replies."""
        reached = self.reached
        number = 0
        if states.noted() != reached.order[number]:
            raise self._other(schedule, "state")
        while reached.is_left(number) and most:
            places = reached.after(number)
            if bool(core.is_closed()) != reached.closed[number]:
                raise self._other(schedule, "end")
            if self._steps(core) != [reached.step(place) for place in places]:
                raise self._other(schedule, "choice of events")
            if not places:
                return
            place = draw.choice(places)
            step, replies = reached.known[reached.moves[place]]
            events = reached.steps[step]
            schedule += events
            most = most - 1
            if tuple(core.step(*event) for event in events) != replies:
                raise self._other(schedule, "reply")
            number = reached.heads[place]
            if states.noted() != reached.order[number]:
                raise self._other(schedule, "state")

    def _knowledge(self) -> dict[str, Any]:
        """A schedule after which the root is closed and does not know all, and what it does not know then."""
        root = len(self.core.vertices)
        for schedule in self.reached.closings(min(LOGS, len(self.reached.order))):
            with self._guarded(lambda: schedule):
                log = model_log(self.setting, self.detector, schedule)
            if (found := unknown(log)) is not None:
                process, words = found
                who = "it" if process == root else f"vertex {process}"
                return {"not_local": schedule, "unknown": f"{who} {words}"}
        return {}


def _said(error: BaseException) -> str:
    """An exception in words, with the last line of a class of others that led there."""
    said = f"{type(error).__name__}: {error}"
    package = os.path.dirname(os.path.dirname(os.path.abspath(__file__)))
    frames = [
        frame
        for frame in traceback.extract_tb(error.__traceback__)
        if not os.path.abspath(frame.filename).startswith(package + os.sep)
    ]
    if not frames:
        return said
    last = frames[-1]
    return f"{said}, in {last.name} ({os.path.basename(last.filename)}, line {last.lineno})"


def _shared(core: Core, setting: Game) -> dict[str, Any]:
    """What all games share, in classes and in the setting, but for what cannot be compared."""
    classes = (*type(core).__mro__, *type(setting).__mro__)
    held = [(f"{made.__name__}.{{}} stands in a class", made) for made in classes]
    found = {}
    for says, holder in [
        *held,
        (f"{type(setting).__name__}.{{}} stands in a computation", setting),
    ]:
        for name, value in vars(holder).items():
            if not name.startswith("__") and not callable(value) and not isinstance(value, Graph):
                with contextlib.suppress(TypeError, RecursionError):
                    found[says.format(name)] = frozen(value)
    return found
