"""Detectors that answer the exercises of docs/tasks/exercises.md. `python -m chipfire explore` ends with 0 for each."""
from chipfire.model import Core
from given import Arrived, TwoCounters


class Repaired(Arrived):
    """A message that was taken is not acknowledged: whoever took it may still send."""

    def may_let_go(self, edge):
        return self.is_passive(edge.head) and self.deficit(self.outs(edge.head)) == 0


class FourCounters(TwoCounters):
    """The sums of the wave before have to be the same."""

    before = None

    def wave_is_back(self, sums):
        self.over, self.before = sums[0] == sums[1] and sums == self.before, sums


class FedFourCounters(FourCounters):
    """What the waves found is old when the root feeds once more."""

    def on_send(self, edge):
        super().on_send(edge)
        if edge.tail < 0:
            self.over = False


class OneByOne(Core):
    """Each acknowledgement is a signal of its own, and the sender sees one at a time."""

    def may_ack(self, edge):
        return min(super().may_ack(edge), 1)

    def settle(self, at):
        edge = self.edge(at)
        seen = min(edge.acked - edge.settled, 1)
        edge.settled += seen
        return f"done {seen}"
