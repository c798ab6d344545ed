"""All schedules of a small game a second time, for the tests of `chipfire.explore`: depth first, over plain tuples.

It shares nothing with the package. A state is a tuple of eight: of each vertex its chips, firings and parent, and of
each edge, those of the root last, what is pending, all messages, and how many are taken, acknowledged and settled.
A send is one step, and an edge holds one message. A rule says when a passive or busy vertex may acknowledge the message
that engaged it: `rule(is_passive, deficit, owed_elsewhere)`.
"""

RULES = {
    "right": lambda passive, deficit, others: passive and not deficit and not others,
    "at-once": lambda passive, deficit, others: True,
    "without-passive": lambda passive, deficit, others: not deficit and not others,
    "without-deficit": lambda passive, deficit, others: passive and not others,
    "any-order": lambda passive, deficit, others: passive and not deficit,
}
#: A vertex that lets go only if it owes something elsewhere: never too early, and it may wait for ever.
SHY = lambda passive, deficit, others: passive and not deficit and others  # noqa: E731


class Game:
    """A graph with its sink, and the chips at the start."""

    def __init__(self, vertices, sink, edges, chips):
        self.sink = sink
        self.tails = [edge[0] for edge in edges] + [None] * vertices
        self.heads = [edge[1] for edge in edges] + list(range(vertices))
        self.mults = [edge[2] if len(edge) > 2 else 1 for edge in edges] + [0] * vertices
        self.all = range(len(self.tails))
        self.degrees = [sum(self.mults[it] for it in self.all if self.tails[it] == at) for at in range(vertices)]
        sent = ((),) * len(edges) + tuple((count,) if count else () for count in chips)
        zeros = (0,) * len(self.tails)
        self.start = ((0,) * vertices, (0,) * vertices, (None,) * vertices, zeros, sent, zeros, zeros, zeros)

    def is_over(self, state):
        """Whether no message is in transit, nothing is pending, and no vertex can fire."""
        chips, _, _, pending, sent, taken, _, _ = state
        idle = not any(pending) and all(len(sent[it]) == taken[it] for it in self.all)
        return idle and not any(self.can_fire(chips, at) for at in range(len(chips)))

    def is_closed(self, state):
        return all(len(state[4][it]) == state[7][it] for it in self.all if self.tails[it] is None)

    def can_fire(self, chips, at):
        return at != self.sink and chips[at] >= self.degrees[at]

    def after(self, state, rule, only_once):
        """The states after one step more."""
        chips, fired, parents, pending, sent, taken, acked, settled = state
        for it in self.all:
            head = self.heads[it]
            if len(sent[it]) > taken[it]:
                more, engaged = with_at(chips, head, chips[head] + sent[it][taken[it]]), parents
                if parents[head] is None:
                    engaged = with_at(parents, head, it)
                got = with_at(taken, it, taken[it] + 1)
                yield more, fired, engaged, pending, sent, got, acked, settled
            if pending[it] and len(sent[it]) == taken[it]:
                put = with_at(sent, it, (*sent[it], pending[it]))
                yield chips, fired, parents, with_at(pending, it, 0), put, taken, acked, settled
            if acked[it] > settled[it]:
                yield chips, fired, parents, pending, sent, taken, acked, with_at(settled, it, acked[it])
            count = self.may_acknowledge(state, it, rule)
            if count:
                seen = with_at(acked, it, acked[it] + count)
                is_free = parents[head] == it and seen[it] == taken[it]
                engaged = with_at(parents, head, None) if is_free else parents
                yield chips, fired, engaged, pending, sent, taken, seen, settled
        for at in range(len(chips)):
            outs = [it for it in self.all if self.tails[it] == at]
            if self.can_fire(chips, at) and not any(pending[it] for it in outs):
                for count in range(1, 2 if only_once else chips[at] // self.degrees[at] + 1):
                    less = with_at(chips, at, chips[at] - count * self.degrees[at])
                    due = tuple(count * self.mults[it] if it in outs else pending[it] for it in self.all)
                    yield (less, with_at(fired, at, fired[at] + count), parents, due, *state[4:])

    def may_acknowledge(self, state, it, rule):
        chips, _, parents, pending, sent, taken, acked, settled = state
        head, owed = self.heads[it], taken[it] - acked[it]
        if not owed or parents[head] != it:
            return owed
        outs = [edge for edge in self.all if self.tails[edge] == head]
        others = sum(taken[edge] - acked[edge] for edge in self.all if self.heads[edge] == head and edge != it)
        deficit = sum(len(sent[edge]) - settled[edge] for edge in outs)
        is_passive = not self.can_fire(chips, head) and not any(pending[edge] for edge in outs)
        return owed if rule(is_passive, deficit, others) else owed - 1


class Messages:
    """A game of another computation. A state is a tuple of seven: what each vertex knows, its parent, and of each edge,
    those of the root last, all that was to be sent, and how many are put, taken, acknowledged and settled.

    `react(known, load, outs)` returns what a vertex knows after a message and what it has to send. `work(known, outs)`
    returns the same for each way in which a vertex may go on of itself once all is put. The root has sent `starts`.
    """

    def __init__(self, edges, begins, starts, react, work):
        self.tails = [tail for tail, _ in edges] + [None] * len(begins)
        self.heads = [head for _, head in edges] + list(range(len(begins)))
        self.all, self.react, self.work = range(len(self.tails)), react, work
        self.outs = [tuple(it for it in self.all if self.tails[it] == at) for at in range(len(begins))]
        sent = ((),) * len(edges) + tuple((starts[at],) if at in starts else () for at in range(len(begins)))
        zeros = (0,) * len(self.tails)
        self.start = (begins, (None,) * len(begins), sent, tuple(map(len, sent)), zeros, zeros, zeros)

    def is_over(self, state):
        at_work = any(map(self.ways, state[0], self.outs))
        return not at_work and all(len(state[2][it]) == state[4][it] for it in self.all)

    def ways(self, known, outs):
        return list(self.work(known, outs))

    def is_closed(self, state):
        return all(len(state[2][it]) == state[6][it] for it in self.all if self.tails[it] is None)

    def has_unput(self, state, at):
        return any(len(state[2][it]) > state[3][it] for it in self.outs[at])

    def changed(self, state, at, known, sends):
        """The state after a vertex knows other things, and is to send."""
        sent = list(state[2])
        for it, load in sends:
            sent[it] += (load,)
        return (with_at(state[0], at, known), state[1], tuple(sent), *state[3:])

    def after(self, state, rule, _only_once):
        known, parents, sent, put, taken, acked, settled = state
        for it in self.all:
            head = self.heads[it]
            if put[it] < len(sent[it]):
                yield (*state[:3], with_at(put, it, put[it] + 1), *state[4:])
            if taken[it] < put[it]:
                engaged = with_at(parents, head, it) if parents[head] is None else parents
                got = (known, engaged, sent, put, with_at(taken, it, taken[it] + 1), acked, settled)
                yield self.changed(got, head, *self.react(known[head], sent[it][taken[it]], self.outs[head]))
            if settled[it] < acked[it]:
                yield (*state[:6], with_at(settled, it, acked[it]))
            count = self.may_acknowledge(state, it, rule)
            if count:
                seen = with_at(acked, it, acked[it] + count)
                is_free = parents[head] == it and seen[it] == taken[it]
                yield (known, with_at(parents, head, None) if is_free else parents, *state[2:5], seen, settled)
        for at, outs in enumerate(self.outs):
            if not self.has_unput(state, at):
                for way in self.ways(known[at], outs):
                    yield self.changed(state, at, *way)

    def may_acknowledge(self, state, it, rule):
        known, parents, sent, _, taken, acked, settled = state
        head, owed = self.heads[it], taken[it] - acked[it]
        if not owed or parents[head] != it:
            return owed
        deficit = sum(len(sent[edge]) - settled[edge] for edge in self.outs[head])
        others = sum(taken[edge] - acked[edge] for edge in self.all if self.heads[edge] == head and edge != it)
        is_passive = not self.ways(known[head], self.outs[head]) and not self.has_unput(state, head)
        return owed if rule(is_passive, deficit, others) else owed - 1


def flooding(edges, vertices, starts):
    """What is known is whether a vertex is marked."""
    def react(known, _, outs):
        return True, [] if known else [(out, 0) for out in outs]

    return Messages(edges, (False,) * vertices, dict.fromkeys(starts, 0), react, lambda known, outs: ())


def stealing(edges, vertices, depth):
    """What is known are the tasks of a vertex, the newest last, and how many are done."""
    def react(known, load, _=()):
        tasks, done = known
        return ((*tasks, load - 1, load - 1), done) if load else (tasks, done + 1), []

    def work(known, outs):
        tasks, done = known
        if tasks:
            yield react((tasks[:-1], done), tasks[-1])
        for out in outs if len(tasks) > 1 else ():
            yield (tasks[1:], done), [(out, tasks[0])]

    return Messages(edges, (((), 0),) * vertices, {0: depth}, react, work)


def with_at(values, at, value):
    return (*values[:at], value, *values[at + 1 :])


def moved(game, state, rule, only_once=False, feeds=()):
    """The states after one step more of (a state, whether the end is noted, how many feeds came)."""
    now, ended, fed = state
    for reached in game.after(now, rule, only_once):
        yield reached, ended, fed
    if ended:
        return
    chips, fired, parents, pending, sent, taken, acked, settled = now
    first = game.tails.index(None)
    yield (*now[:7], with_at(settled, first, acked[first])), True, fed
    if fed < len(feeds):
        at, count = feeds[fed]
        if len(sent[at]) == taken[at]:
            yield (*now[:4], with_at(sent, at, (*sent[at], count)), *now[5:]), False, fed + 1


def searched(game, rule, only_once=False, feeds=None):
    """How many states all schedules reach, and the least steps to one where the root is closed too early, or None.

    The search goes on after a state in which the root is closed too early. With feeds, in their order, the root is closed
    only after the end is noted, at any time.
    """
    start = (game.start, feeds is None, 0)
    least, waiting, early = {start: 0}, [start], []
    while waiting:
        state = waiting.pop()
        if state[1] and game.is_closed(state[0]) and not game.is_over(state[0]):
            early.append(state)
        for reached in moved(game, state, rule, only_once, feeds or ()):
            if least.get(reached, least[state] + 2) > least[state] + 1:
                least[reached] = least[state] + 1
                waiting.append(reached)
    return len(least), min((least[state] for state in early), default=None)


def lost(game, rule):
    """The least steps to a state from which none is reached where the root is closed, or None."""
    least, rows, before = {game.start: 0}, [game.start], {}
    for state in rows:
        for reached in game.after(state, rule, False):
            before.setdefault(reached, []).append(state)
            if reached not in least:
                least[reached] = least[state] + 1
                rows.append(reached)
    able = {state for state in rows if game.is_closed(state)}
    waiting = list(able)
    while waiting:
        more = set(before.get(waiting.pop(), ())) - able
        able |= more
        waiting += more
    return min((least[state] for state in rows if state not in able), default=None)
