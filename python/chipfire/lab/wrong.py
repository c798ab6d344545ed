"""A page for a wrong detector: the shortest schedule on which it closes too early, beside the right one."""

from __future__ import annotations

from collections.abc import Mapping
from typing import Any

from chipfire.backend.commands import AnyProgram
from chipfire.lab.detectors import known_detector
from chipfire.lab.explorer import explore
from chipfire.lab.layout import Point
from chipfire.lab.ledger import Ledger, ModelLedger
from chipfire.lab.machine import Schedule, Setting
from chipfire.lab.pages import asked, compared, filled, model_data, model_parts, Words
from chipfire.lab.schedules import Detector, detector_name, EVENTS, Game, play, WORK
from chipfire.utils import FileName, with_unit, write_text


def wrong_page(
    detector: Detector,
    file: FileName,
    setting: Game | None = None,
    *,
    title: str | None = None,
    positions: Mapping[Any, Point] | None = None,
    program: AnyProgram = None,
) -> None:
    """Writes a page of the shortest schedule after which a wrong detector says too early that the computation is over.

    Parameters
    ----------
    detector : str or type
        A name of `chipfire.detectors.DETECTORS`, or a class.
    file : path
        The page to write, one HTML file that loads nothing else. It shows the right detector too.
    setting : Setting or Computation, optional
        The game to search. By default the one that `DETECTORS` has for the detector.
    title : str, optional
        The title of the page.
    positions : mapping of names to (right, down), optional
        Where the vertices are drawn.
    program : path, optional
        The program to run. By default, the program that the package finds.

    Raises
    ------
    ValueError
        The detector is never too early in this game, or cannot be tried.

    See Also
    --------
    explore, page, choice_page

    Notes
    -----
    None of this is proved except the replies of the right detector in a game of chips.

    Examples
    --------
    >>> chipfire.wrong_page("at-once", "wrong.html")
    """
    write_text(
        file, wrong_page_text(detector, setting, title=title, positions=positions, program=program)
    )


def wrong_page_text(
    detector: Detector,
    setting: Game | None = None,
    *,
    title: str | None = None,
    positions: Mapping[Any, Point] | None = None,
    program: AnyProgram = None,
) -> str:
    """The text of the page that `wrong_page` writes."""
    name = detector_name(detector)
    setting = setting or known_detector(detector).game
    found = explore(setting, detector)
    if found.schedule is None:
        states = with_unit(found.states, "state")
        none = f"{name} closes the root too early in no schedule of this game, which has {states}"
        raise ValueError(none if found.is_whole else f"{name}: {found}")
    run = play(setting, found.schedule, detector)
    words = Words(setting)
    data = model_data(run, words, positions)
    data |= {
        "beside": _beside(setting, found.schedule, words, program),
        "words": list(words.numbers),
    }
    parts = {**model_parts(run), "states": with_unit(found.states, "state")}
    proved = "run-wrong.html" if isinstance(setting, Setting) else "run-wrong-model.html"
    return filled(title or f"A wrong detector: {name}", data, parts, proved, "two-drawings.html")


def _beside(setting: Game, schedule: Schedule, words: Words, program: AnyProgram) -> dict[str, Any]:
    """The start of the right detector, and a step for each event of a schedule, which the program plays if it can. In an
    event that the wrong detector alone has the right one does nothing."""
    shared_kinds = (*EVENTS, WORK)
    shared = Schedule(event for event in schedule if event.kind in shared_kinds)
    ledger = Ledger(setting) if isinstance(setting, Setting) else ModelLedger(setting)
    start = ledger.state()
    if isinstance(setting, Setting):
        right = asked(setting, shared, program)
        right_steps = [words.step(ledger, *row) for row in compared(right, ledger)]
        ledger.close(right.report)
    else:
        replies = play(setting, shared).replies
        right_steps = [words.step(ledger, *row) for row in zip(shared, replies)]
    sentence = words.number("This is an event of the other detector.")
    own = {"done": True, "isOwn": True, "event": sentence, "reply": sentence, "changes": []}
    next_right_steps = iter(right_steps)
    steps = []
    for event in schedule:
        if event.kind in shared_kinds:
            steps.append(next(next_right_steps))
        else:
            steps.append({"kind": event.kind, "at": event.at, **own})
    return {"start": start, "steps": steps}
