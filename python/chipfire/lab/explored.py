"""What is found of a detector in all schedules of a small game, and the refusal of one that cannot be tried."""

from __future__ import annotations

from dataclasses import dataclass

from chipfire.lab.machine import Schedule
from chipfire.utils import with_unit

#: The statuses with which the command `explore` ends.
RIGHT, EARLY, MISSED, UNDECIDED, NOT_LOCAL = 0, 2, 3, 4, 5


class DetectorError(ValueError):
    """A detector cannot be tried: why, and the schedule after which that shows."""

    def __init__(self, reason: str, schedule: Schedule) -> None:
        super().__init__(reason)
        self.schedule = schedule


@dataclass(frozen=True)
class Explored:
    """What is found in all schedules of a game.

    states       how many states the game has, or had until a schedule was found, or `most`
    schedule     a shortest schedule after which the root is closed and something is left; None if none was found
    left         what is left then
    stuck        a shortest schedule after which the root is open and nothing can happen; None if none was found
    lost         a shortest schedule after which the root is open and stays so, whether nothing can happen or events go
                 on for ever; None if there is none, or if that was not tried
    is_whole     whether these are all states; else a schedule was found, or there are more than `most`, and no `lost`
    endless      a schedule whose last `round` events can repeat for ever while the root is open, though no possible
                 event is forgotten; None if there is none, or if that was not tried
    round        the number of these events
    not_local    a schedule after which the root is closed though no message reported some act to it; None if none was
                 found among the shortest to each closed root and random ones, or if that was not tried
    unknown      that act
    whole_sends  whether a send was one step
    """

    states: int
    schedule: Schedule | None = None
    left: tuple[str, ...] = ()
    stuck: Schedule | None = None
    lost: Schedule | None = None
    is_whole: bool = True
    endless: Schedule | None = None
    round: int = 0
    not_local: Schedule | None = None
    unknown: str = ""
    whole_sends: bool = False

    @property
    def status(self) -> int:
        """The status of the command: 0 right, 2 too early, 3 can miss the end, 4 too many states, 5 not local."""
        if self.schedule is not None:
            return EARLY
        if self.lost is not None or self.endless is not None or self.stuck is not None:
            return MISSED
        if self.not_local is not None:
            return NOT_LOCAL
        return RIGHT if self.is_whole else UNDECIDED

    @property
    def shown(self) -> Schedule | None:
        """The schedule that shows what is wrong. Where the root can never be closed, it is one to the end of a run."""
        if self.schedule is not None:
            return self.schedule
        missed = (self.lost or None, self.stuck, self.endless, self.not_local)
        return next((found for found in missed if found is not None), None)

    def __str__(self) -> str:
        sends = ", with each send as one step" if self.whole_sends else ""
        among = f"among {with_unit(self.states, 'state')}{sends}"
        status = self.status
        after = f"after {with_unit(len(self.shown or ()), 'event')}"
        if status == UNDECIDED:
            return f"not too early {among}; the others are not tried, nor whether the root can always be closed"
        if status == EARLY:
            return f"too early: {after} the root is closed, but {'; '.join(self.left)} ({among})"
        if status == MISSED:
            return f"{self._missed(after)} ({among}{'' if self.is_whole else '; the others are not tried'})"
        if status == NOT_LOCAL:
            return f"not local: {after} the root is closed, and no message reported that {self.unknown} ({among})"
        right = "never too early in any schedule of this game, and the root can always be closed"
        return f"{right}; the detector was not found to read other vertices ({among})"

    def _missed(self, after: str) -> str:
        """How the end is missed."""
        if not self.is_whole:
            return f"stuck: {after} the root is open and nothing can happen"
        if self.lost:
            return f"never too early, but {after} the root can never be closed"
        rounds = f"it is open, and their end, a round of {with_unit(self.round, 'event')}, can go on for ever"
        if self.lost is None:
            return (
                f"never too early, but only a favourable schedule closes the root: {after} {rounds}"
            )
        goes = rounds if self.stuck is None else "nothing can happen, and it is open"
        return f"never too early, but the root can never be closed: {after} {goes}"
