"""Random schedules with the books of the detector after each reply.

The games are small and drawn at random, and so are the events, those of a turn more often than others. What must come
is known from chipfire.model, which shares nothing with the program: each reply, and the board after it.
"""
import listed
from chains import NO_LIMIT, Chain, faults_of, status_of
from paths import model

GAMES = 200
KINDS = ["take", "ack", "fire", "clear", "claim", "put", "settle"] * 20 + ["halt", "seal", "read"]
EVENTS = 400
OPEN = 3


class Schedule(Chain):
    """A random game with a random schedule on it."""

    def events(self):
        """Events of all kinds, of vertices and edges that are there."""
        edges, vertices = len(self.graph["edges"]), self.graph["vertices"]
        for _ in range(EVENTS):
            kind = self.draw.choice(KINDS)
            if kind in ("fire", "halt", "read"):
                yield kind, self.draw.randrange(vertices), self.draw.randint(1, 3)
            elif kind in ("take", "ack", "settle"):
                yield kind, self.draw.randrange(edges + vertices), 0
            else:
                yield kind, self.draw.randrange(edges), 0

    def boards(self):
        """What of the program's output is not as the slow simulation says."""
        limit, ring = self.draw.choice([NO_LIMIT, self.draw.randint(0, 4)]), self.draw.choice([1, 2, 64])
        core = model().Core(self.graph, self.chips, limit, ring)
        rows, lines = ["event,at,count"], []
        for kind, at, count in self.events():
            rows.append(f"{kind},{at},{count}")
            lines += [core.step(kind, at, count), core.board()]
        end = ["root closed", core.report()] if core.is_closed() else ["root open"]
        self.write("schedule.csv", "".join(f"{row}\n" for row in rows))
        words = ["simulate", "graph.json", "chips.csv", "schedule.csv", "--books", "--limit", str(limit)]
        wanted = "".join(f"{line}\n" for line in [*lines, *end])
        status = status_of(end[1]) if core.is_closed() else OPEN
        return self.differences([*words, "--ring", str(ring)], wanted, status)[1]


def tests(program):
    return listed.drawn(GAMES, "board", faults_of, program, Schedule, Schedule.boards)
