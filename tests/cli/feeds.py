"""Random schedules that feed: the root gives chips to the vertices while they fire, and notes the end or not.

The games are small and drawn at random, and so are the events, those of a turn and of a feed more often than others.
What must come is known from chipfire.model, which shares nothing with the program: each reply, and the report. Of
a play that closes and that no seal stopped, examples/play.py says besides what one stage makes of all chips together.
"""
import json

import listed
import play
from chains import NO_LIMIT, Chain, faults_of, status_of
from paths import model

GAMES = 200
KINDS = ["take", "ack", "fire", "clear", "claim", "put", "settle"] * 10 + ["feed"] * 30 + ["halt", "read"]
EVENTS = 120
SEALED_ONE_IN = 4
ROUNDS = 10_000
OPEN = 3


class Feed(Chain):
    """A random game with a random schedule that feeds it."""

    def feed(self):
        """A look, a feed and a put on one root edge, of which one is left out now and then."""
        edge = len(self.graph["edges"]) + self.draw.randrange(self.graph["vertices"])
        count = self.draw.choice([0, 1, 2, 3, 30, 2**40])
        rows = [("clear", edge, 0), ("feed", edge, count), ("put", edge, 0)]
        return [row for row in rows if self.draw.random() < 0.9]

    def events(self):
        """Events of all kinds, of vertices and edges that are there, and the end of feeding as one of the last."""
        edges, vertices = len(self.graph["edges"]), self.graph["vertices"]
        rows, kinds = [], KINDS + ["seal"] * (self.draw.randrange(SEALED_ONE_IN) == 0)
        for _ in range(EVENTS):
            kind = self.draw.choice(kinds)
            if kind == "feed":
                rows += self.feed()
            elif kind in ("fire", "halt", "read"):
                rows.append((kind, self.draw.randrange(vertices), self.draw.randint(1, 3)))
            else:
                rows.append((kind, self.draw.randrange(edges + vertices), 0))
        if self.draw.random() < 0.8:
            rows.insert(self.draw.randint(len(rows) // 2, len(rows)), ("end", self.draw.randrange(10**6), 0))
        # What is claimed on a root edge is put, or else the root could not close.
        return rows + [("put", edge, 0) for edge in range(edges, edges + vertices) if self.draw.random() < 0.95]

    def replies(self):
        """What of the program's output is not as the slow simulation says."""
        limit, ring = self.draw.choice([NO_LIMIT, self.draw.randint(0, 9)]), self.draw.choice([1, 2, 64])
        core = model().Core(self.graph, self.chips, limit, ring, True)
        rows, lines = ["event,at,count"], []
        for kind, at, count in self.events():
            rows.append(f"{kind},{at},{count}")
            lines.append(core.step(kind, at, count))
        core.drive(ROUNDS)
        end = ["root closed", core.report()] if core.is_closed() else ["root open"]
        self.write("schedule.csv", "".join(f"{row}\n" for row in rows))
        words = ["simulate", "graph.json", "chips.csv", "schedule.csv", "--fed", "--limit", str(limit)]
        wanted = "".join(f"{line}\n" for line in [*lines, *end])
        status = status_of(end[1]) if core.is_closed() else OPEN
        words += ["--ring", str(ring), "--rounds", str(ROUNDS)]
        faults = self.differences(words, wanted, status)[1]
        if core.is_closed() and not json.loads(end[1])["sealed"]:
            faults += self.whole_play(core, limit, end[1])
        return faults

    def whole_play(self, core, limit, report):
        """Whether one play of all chips that were given has the same result."""
        chips = [sum(edge.sent) for edge in core.edges[core.graph_edges :]]
        if sum(chips) > 10_000:
            return []
        fired = play.play(self.graph, chips, limit, self.draw)
        whole = play.report(self.graph, chips, fired)
        return [] if whole == report else [f"all chips at once result in {whole}, fed they result in {report}"]


def tests(program):
    return listed.drawn(GAMES, "feed", faults_of, program, Feed, Feed.replies)
