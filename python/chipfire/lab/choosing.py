"""A page on which one picks each next event among those that may happen: it has all states of a small game."""

from __future__ import annotations

import json
from collections.abc import Mapping
from typing import Any

from chipfire.lab.detectors import DETECTORS, known_detector
from chipfire.lab.layout import Point
from chipfire.lab.ledger import Ledger, ModelLedger
from chipfire.lab.machine import Event, Setting, Simulation, WORDS
from chipfire.lab.pages import closed_end, filled, keeps_books, page_data, Words
from chipfire.lab.schedules import Detector, detector_name, EVENTS
from chipfire.lab.states import States
from chipfire.utils import FileName, with_unit, write_text

#: How many states a page has at most.
MOST_STATES = 2000


def choice_page(
    detector: Detector,
    file: FileName,
    setting: Setting | None = None,
    *,
    title: str | None = None,
    positions: Mapping[Any, Point] | None = None,
) -> None:
    """Writes a page on which a reader picks each event of a game among those that are possible.

    Parameters
    ----------
    detector : str or type
        A name of `chipfire.detectors.DETECTORS`, or a class. The page has no words for events that the detector itself
        defines.
    file : path
        The page to write, one HTML file that loads nothing else.
    setting : Setting, optional
        The game, with at most 2,000 states. By default the one that `DETECTORS` has for the detector.
    title : str, optional
        The title of the page.
    positions : mapping of names to (right, down), optional
        Where the vertices are drawn.

    Raises
    ------
    ValueError
        The game has more than 2,000 states, or there is no such detector.

    See Also
    --------
    page, wrong_page, explore

    Notes
    -----
    A send is one event on this page. None of this is proved: all replies are those of the model in Python.

    Examples
    --------
    >>> chipfire.choice_page("right", "choose.html", chipfire.Setting(chipfire.path(1), (2, 0)))
    """
    write_text(file, choice_page_text(detector, setting, title=title, positions=positions))


def choice_page_text(
    detector: Detector,
    setting: Setting | None = None,
    *,
    title: str | None = None,
    positions: Mapping[Any, Point] | None = None,
) -> str:
    """The text of the page that `choice_page` writes."""
    name = detector_name(detector)
    known = known_detector(name if name in DETECTORS else "right")
    setting = setting or known.game
    if not isinstance(setting, Setting):
        raise TypeError(
            f"one picks the events of a chipfire.Setting, and not of {type(setting).__name__}"
        )
    data = page_data(Simulation((), None, setting=setting), positions)
    choices = _Choices(setting, detector, Ledger(setting, detector))
    moves = choices.data()
    kinds = {step["kind"] for step in moves["steps"]}
    # The moves of all states show whether the detector keeps books. If it keeps none, they are written again without.
    if not keeps_books(detector, kinds):
        choices = _Choices(setting, detector, ModelLedger(setting, detector, keeps_books=False))
        moves = choices.data()
        data["start"] = choices.start
        data["hidden"] = WORDS["books"]
    data |= {"steps": [], "choices": moves, "words": list(choices.words.numbers), "end": None}
    says = known.says if name in DETECTORS else f"the class <code>{name}</code>"
    parts = {"says": says, "states": with_unit(len(choices.states), "state")}
    return filled(
        title or f"Choose each event: {name}", data, parts, "run-choices.html", "drawing.html"
    )


class _Choices:
    """All states of a game in the order in which they are reached, and the moves from each."""

    def __init__(self, setting: Setting, detector: Detector, ledger: Ledger) -> None:
        self.name = detector_name(detector)
        self.words = Words(setting)
        self.ledger = ledger
        self.core = ledger.core
        self.start = ledger.state()
        #: What goes from one state of the game to another, and notes the present one.
        self.known = States(self.core)
        #: The states by number, and the number of each.
        self.states = [self.known.noted()]
        self.places = {self.states[0]: 0}
        #: The number of each step, which is a text of JSON.
        self.steps: dict[str, int] = {}

    def data(self) -> dict[str, Any]:
        """Of each state its moves (the numbers of their steps, and where they lead), and its verdict, if any."""
        moves = []
        ends = []
        for state in self.states:
            self.known.load(state)
            events = self.core.enabled()
            ends.append(self._end(bool(events)))
            moves.append([self._move(state, Event(*event)) for event in events])
        early = WORDS["pages"]["early"]
        return {
            "steps": list(map(json.loads, self.steps)),
            "moves": moves,
            "ends": ends,
            "early": early,
        }

    def _move(self, state: tuple[int, ...], event: Event) -> tuple[list[int], int]:
        """The numbers of the steps that an event from a state has on the page, and of the state to which they lead."""
        if event.kind not in EVENTS:
            raise ValueError(
                f"{self.name} has events of its own, which no page shows; chipfire.explore tries them"
            )
        kinds = ("clear", "claim", "put") if event.kind == "clear" else (event.kind,)
        events = [event._replace(kind=kind) for kind in kinds]
        # The game plays the events once for their replies, and once more from the same state for their words.
        self.known.load(state)
        lines = [self.core.step(*played) for played in events]
        replies = Simulation.parse("\n".join([*lines, "root open"])).replies
        reached = self.known.noted()
        self.known.load(state)
        self.ledger.refresh()
        steps = []
        for played, reply in zip(events, replies):
            steps.append(json.dumps(self.words.step(self.ledger, played, reply)))
        # (the next `load` has to know that the game has gone on)
        self.known.noted()
        numbers = [self.steps.setdefault(step, len(self.steps)) for step in steps]
        return numbers, self._place(reached)

    def _place(self, state: tuple[int, ...]) -> int:
        """The number of a state, which is added if it is new."""
        if state not in self.places:
            if len(self.states) == MOST_STATES:
                raise ValueError(
                    f"this game has more than {MOST_STATES:,} states: take fewer chips"
                )
            self.places[state] = len(self.states)
            self.states.append(state)
        return self.places[state]

    def _end(self, goes_on: bool) -> dict[str, Any] | None:
        """The verdict on the present state."""
        if self.core.is_closed():
            return closed_end(self.core.left())
        return None if goes_on else {"text": WORDS["pages"]["stuck"], "isWrong": True}
