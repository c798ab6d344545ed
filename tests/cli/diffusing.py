"""All that can happen in small diffusing computations, and what each premise of crates/chip_diffusing is for.

The root sends to A, and A and B to each other, at most two messages on each edge. By the rules of
specs/Computation.antt every event is tried in every world. Then no world is closed too early (closed, but not quiescent)
and none is stuck (quiescent and not closed, with nothing due), nor where A sends to itself. If one rule is changed,
events lead to such a world: those that stand beside the change, and no fewer. The numbers of worlds were found by a
search that shares nothing with this.

No event is wasted: up to any world at most three events advanced for each message sent, and three can. If all parts are
passive and no event advances, the world is closed. In a closed world what was sent on each edge was got, acknowledged
and settled.

A message that is got wakes its part here: where it is passive again at once, that is a rest more.
"""
import collections
import functools
import typing

MOST = 2


class Edge(typing.NamedTuple):
    """The messages and the acknowledgements of an edge, as its tail and its head count them."""
    sent: int = 0
    got: int = 0
    acked: int = 0
    settled: int = 0


class World(typing.NamedTuple):
    """The counts of each edge, and of each part whether it is passive and the edge that engaged it."""
    edges: dict
    passive: dict
    parent: dict


def key_of(world):
    """Returns what distinguishes a world from others."""
    return tuple(tuple(it.values()) for it in world)


class Computation:
    """Parts that send on edges, each with its tail and head. One rule may be changed."""

    def __init__(self, edges, changed=None):
        self.edges, self.changed = edges, changed
        self.parts = sorted({part for ends in edges.values() for part in ends})

    def start(self):
        """Returns the world before all events."""
        passive = {it: it != "root" and self.changed != "parts open active" for it in self.parts}
        return World({it: Edge() for it in self.edges}, passive, dict.fromkeys(self.parts))

    def deficit(self, world, part):
        """Returns how many acknowledgements a part waits for."""
        return sum(it.sent - it.settled for edge, it in world.edges.items() if self.edges[edge][0] == part)

    def may_ack(self, world, edge):
        """Returns how many messages of an edge its head may acknowledge now: `may_ack` of chip_detect."""
        head = self.edges[edge][1]
        owed = {at: it.got - it.acked for at, it in world.edges.items() if self.edges[at][1] == head}
        is_done = sum(owed.values()) == owed[edge]
        is_done &= world.passive[head] or self.changed == "acknowledges while active"
        is_done &= self.deficit(world, head) == 0 or self.changed == "acknowledges with a deficit"
        is_done |= self.changed == "acknowledges the engaging message at once"
        return owed[edge] - 1 if world.parent[head] == edge and not is_done else owed[edge]

    def events(self, world):
        """Returns each event that may be done, and the world after it."""
        for edge, (tail, head) in self.edges.items():
            at = world.edges[edge]
            if at.sent < MOST and (not world.passive[tail] or self.changed == "a passive part sends"):
                yield f"send {edge}", self.after(world, edge, at._replace(sent=at.sent + 1))
            if at.got < (MOST if self.changed == "gets what was not sent" else at.sent):
                new = self.after(world, edge, at._replace(got=at.got + 1))
                new.passive[head], new.parent[head] = False, world.parent[head] or edge
                yield f"get {edge}", new
            for count in range(1, self.may_ack(world, edge) + 1):
                new = self.after(world, edge, at._replace(acked=at.acked + count))
                parent = new.parent[head]
                if parent and new.edges[parent].got == new.edges[parent].acked:
                    new.parent[head] = None
                yield f"ack {edge}", new
            heard = at.got if self.changed == "hears of what was got" else at.acked
            for word in range(at.settled + 1, heard + 1):
                yield f"settle {edge}", self.after(world, edge, at._replace(settled=word))
        for part in self.parts:
            if not world.passive[part] or self.changed == "work wakes":
                new = World(*map(dict, world))
                new.passive[part] = not world.passive[part]
                yield f"{'rest' if new.passive[part] else 'wake'} {part}", new

    def after(self, world, edge, at):
        """Returns a world with other counts of an edge."""
        return World({**world.edges, edge: at}, dict(world.passive), dict(world.parent))

    def is_wrong(self, world):
        """Returns what is wrong with a world: it is closed too early, it is stuck, or nothing."""
        has_ended = world.passive["root"] or self.changed == "closed without the end"
        is_closed = has_ended and self.deficit(world, "root") == 0
        is_silent = all(it.sent == it.got for it in world.edges.values()) and all(world.passive.values())
        is_due = any(self.may_ack(world, edge) or it.settled < it.acked for edge, it in world.edges.items())
        if is_closed and not is_silent:
            return "early"
        return "stuck" if is_silent and not is_closed and not is_due else None

    def search(self):
        """Returns how many worlds were visited until one is wrong, what is wrong with it, and after how many events."""
        left, met = collections.deque([(0, self.start())]), {key_of(self.start())}
        while left:
            events, world = left.popleft()
            if wrong := self.is_wrong(world):
                return len(met), wrong, events
            for _, new in self.events(world):
                if key_of(new) not in met:
                    met.add(key_of(new))
                    left.append((events + 1, new))
        return len(met), None, None

    def worlds(self):
        """Returns all worlds, each after those from which an event leads to it."""
        left, met = [self.start()], {key_of(self.start()): self.start()}
        while left:
            for _, new in self.events(left.pop()):
                if key_of(new) not in met:
                    met[key_of(new)] = new
                    left.append(new)
        return sorted(met.values(), key=lambda it: (sum(map(sum, it.edges.values())), sum(it.passive.values())))

    def wrong_after(self, story):
        """Returns what is wrong with the world to which these events lead; each has to be enabled."""
        world = self.start()
        for event in story:
            world = next(new for it, new in self.events(world) if it == event)
        return self.is_wrong(world)


BOTH_WAYS = {"r": ("root", "A"), "a": ("A", "B"), "b": ("B", "A")}
LOOP = {"r": ("root", "A"), "a": ("A", "A")}
WORLDS = [("both ways", BOTH_WAYS, 3584), ("a loop", LOOP, 348)]
#: Each change of a rule, and the events that it makes go wrong.
CHANGES = {
    "acknowledges while active": "send r, get r, ack r, settle r, rest root",
    "acknowledges with a deficit": "send r, get r, send a, rest A, ack r, settle r, rest root",
    "acknowledges the engaging message at once": "send r, get r, ack r, settle r, rest root",
    "work wakes": "rest root, wake A",
    "a passive part sends": "rest root, send a",
    "gets what was not sent": "rest root, get r",
    "hears of what was got": "send r, get r, settle r, rest root",
    "closed without the end": "",
    "parts open active": "rest root",
}
TO_THE_ROOT = {"r": ("root", "A"), "back": ("A", "root")}
STUCK = "send r, get r, send back, rest A, get back, rest root"


def wrong_search(edges, worlds):
    """What is wrong with a computation by the rules as they are, which has `worlds` worlds."""
    found = Computation(edges).search()
    return [] if found == (worlds, None, None) else [f"{found}, not {worlds} worlds"]


def advances(event):
    """Whether an event gets a message, or acknowledges or settles one or more."""
    return event.split()[0] in ("get", "ack", "settle")


def is_settled(world):
    """Whether what was sent on each edge was got, acknowledged and settled."""
    return all(it == Edge(*[it.sent] * 4) for it in world.edges.values())


def wrong_waste(edges):
    """What is wrong with the events that advance, in a computation by the rules as they are."""
    computation, found, is_most = Computation(edges), [], False
    most = collections.Counter()
    for world in computation.worlds():
        here, sent = most[key_of(world)], sum(it.sent for it in world.edges.values())
        is_closed = world.passive["root"] and computation.deficit(world, "root") == 0
        is_due = False
        for event, new in computation.events(world):
            is_due |= advances(event)
            most[key_of(new)] = max(most[key_of(new)], here + advances(event))
        is_most |= 0 < here == 3 * sent
        if here > 3 * sent:
            found.append(f"{here} events advanced until {world}")
        if is_closed and not is_settled(world):
            found.append(f"closed, and not settled: {world}")
        if all(world.passive.values()) and not is_due and not is_closed:
            found.append(f"nothing is due, and not closed: {world}")
    return found if is_most else [*found, "never do three events advance for each message"]


def wrong_story(changed, edges, wrong, story):
    """What is wrong with a computation one rule of which is changed: these events lead to a wrong world, and no fewer."""
    computation, events = Computation(edges, changed), story.split(", ") if story else []
    found, reached = computation.search()[1:], computation.wrong_after(events)
    is_well = found == (wrong, len(events)) and reached == wrong
    return [] if is_well else [f"{found}, and {reached} after {story}"]


def tests(_program):
    for name, edges, worlds in WORLDS:
        yield name, functools.partial(wrong_search, edges, worlds)
        yield f"{name}, no waste", functools.partial(wrong_waste, edges)
    stories = [(it, BOTH_WAYS, "early", story) for it, story in CHANGES.items()]
    for changed, edges, wrong, story in [*stories, ("edges to the root", TO_THE_ROOT, "stuck", STUCK)]:
        yield changed, functools.partial(wrong_story, changed, edges, wrong, story)
