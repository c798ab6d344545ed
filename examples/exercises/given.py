"""Detectors that the exercises of docs/tasks/exercises.md begin with. Each closes the root too early."""
from chipfire.model import Core


class Arrived(Core):
    """A passive vertex acknowledges the message that engaged it when all that it sent has been taken."""

    def may_let_go(self, edge):
        return self.is_passive(edge.head) and all(it.delivered == len(it.sent) for it in self.outs(edge.head))


class TwoCounters(Core):
    """Waves visit one vertex after the other, each when it is passive, and add up what was sent and what was taken. The
    root closes when the two sums of a wave are equal."""

    def __init__(self, graph, chips, *options):
        self.sent = self.taken = (0,) * (graph["vertices"] + 1)  # (of each vertex, and last of the root)
        self.next, self.sums, self.over = 0, (0, 0), False
        super().__init__(graph, chips, *options)

    def on_send(self, edge):
        self.sent = one_more(self.sent, edge.tail if edge.tail >= 0 else len(self.vertices))

    def on_take(self, edge):
        self.taken = one_more(self.taken, edge.head)

    def may_ack(self, edge):
        return 0

    def own_events(self):
        if not self.is_closed() and self.is_passive(self.next):
            yield "visit", self.next, 0

    def tells(self, kind, at):
        return [(at, at + 1)]

    def visit(self, at):
        """The wave moves to a vertex, and from the last one to the root."""
        self.sums = (self.sums[0] + self.sent[at], self.sums[1] + self.taken[at])
        self.next = (at + 1) % len(self.vertices)
        if self.next == 0:
            self.wave_is_back((self.sums[0] + self.sent[-1], self.sums[1]))
            self.sums = (0, 0)
        return "done"

    def wave_is_back(self, sums):
        """What the root does with the sums of a wave, its own messages among them."""
        self.over = sums[0] == sums[1]

    def is_closed(self):
        return self.ended and self.over


def one_more(counts, at):
    """The counts, with one more at a place."""
    return (*counts[:at], counts[at] + 1, *counts[at + 1 :])
