"""The programs of examples/python that know when they are over, each broken in five ways, and who names what is broken.

Nothing here depends on how fast anything is. The crawler is coroutines, which go on in the order in which they wait. Of
the search by processes there is one process, which gets its own messages in their order.
"""
import asyncio
import collections
import multiprocessing
import os
import re
import tempfile
import types
import unittest

import chipfire
from chipfire.lab.books import read_books_log
from chipfire.lab.detector import Answer, Message
from test_examples import SCRIPTS

PAGES, SIDE, STEPS = 30, 4, 100_000
#: What the process of the search reports to the root, which listens only then, and whether that has claimed.
FORK = multiprocessing.get_context("fork")
OUTCOMES, CLAIMED = FORK.SimpleQueue(), FORK.Event()
NEVER = "it has no message left and is engaged"


def next_item(me, item):
    """Settles an acknowledgement; says whether the item is a message."""
    if isinstance(item, Answer):
        me._settle(item)
    return isinstance(item, Message)


async def late(me):
    """A loop that notes a message only after the work on it."""
    while (item := await me._inboxes[me.name].get()) is not None:
        if next_item(me, item):
            yield item.content
            me._get(item)
            me.done()


def late_shared(me):
    """The same in a process of the system."""
    while (item := me._inboxes[me.name].get()) is not None:
        if next_item(me, item):
            yield me._unpacked(item).content
            me._get(item)
            me.done()


async def done_first(me):
    """A loop in which the process is passive before its work ends."""
    while (message := await me.receive_async()) is not None:
        me.done()
        yield message.content


def done_first_shared(me):
    """The same in a process of the system."""
    while (message := me.receive()) is not None:
        me.done()
        yield message.content


def answer_by_hand(me, message, got):
    """Acknowledges a message without the books, which acknowledge it too when they may."""
    got[message.edge] += 1
    me._inboxes[message.tail].put_nowait(Answer(message.edge, got[message.edge]))


async def answered_twice(me):
    """A loop that acknowledges each message twice."""
    got = collections.Counter()
    while (message := await me.receive_async()) is not None:
        yield message.content
        me.done()
        answer_by_hand(me, message, got)


def answered_twice_shared(me):
    """The same in a process of the system: the root claims then, and the next that comes is that all is over."""
    got = collections.Counter()
    while (message := me.receive()) is not None:
        yield message.content
        me.done()
        answer_by_hand(me, message, got)
        OUTCOMES.put("it has acknowledged")
        CLAIMED.wait()
        return


def unnoted(me, to, content):
    """Sends a message that no books know."""
    me._inboxes[to].put_nowait(Message(me._edge_to(to), me.name, me._backend.pack(content)))


def lost(me, to, content):
    """Notes a message, and loses it."""
    me.books.sent(me._edge_to(to))


HELPERS = (late, late_shared, done_first, done_first_shared, answered_twice, answered_twice_shared, unnoted, lost)
ROUND, SENT = "    async for page in me:\n", "me.send(link % CRAWLERS, link)"
#: Each way to break the crawler: the edits; what came of it, in which "N pages" is how many were read when it was claimed to
#: be over, of 30, and what was refused first; the row of its log that would have come next, for the process that a refusal
#: names; and what the judge says. The root is process 0, and crawler N is process N + 1. Page 1 goes to crawler 1 on edge 0.
CRAWLERS = {
    "right": ([], "30 pages", None, "end claimed"),
    # It is refused when it sends, since nothing is noted that it got.
    "got after the work": (
        [(ROUND, "    async for page in late(me):\n")],
        "process 2: it sends on edge 1 while it is passive", 0, "end open: message 0 of channel 0 is on its way"),
    # The claim is early, and what the process sends then is refused. The log shows no more of it.
    "passive while it awaits": (
        [(ROUND, "    async for page in done_first(me):\n")],
        "1 pages, then process 2: it sends on edge 1 while it is passive", 3, "end claimed"),
    # The claim is early, and no books see it. The judge names the row that got the message.
    "sent and not noted": (
        [(SENT, "unnoted(me, link % CRAWLERS, link)")], "3 pages", None, "Stuck (1, 0)"),
    # The first time it is too early, and so is the claim; no books see it. The judge names the row of the root that hears it.
    "acknowledged twice": (
        [(ROUND, "    async for page in answered_twice(me):\n")], "3 pages", None, "Stuck (0, 3)"),
    # Nobody sees it while it runs: it is never over. The log names the message.
    "a lost message": (
        [(SENT, "(lost if link == 16 else type(me).send)(me, link % CRAWLERS, link)")],
        "never over", None, "end open: message 9 of channel 3 is on its way"),
}
ROUND, SENT = "    for board in me:\n", "me.send((me.name + column) % processes, (*board, column))"
#: The same of the search by one process, number 1 in logs, which finds 2 ways. Edge 0 leads to it from the root, and edge 1
#: back to it.
QUEENS = {
    "right": ([], "2 ways", None, "end claimed"),
    "got after the work": (
        [(ROUND, "    for board in late_shared(me):\n")],
        "process 1: it sends on edge 1 while it is passive", 0, "end open: message 0 of channel 0 is on its way"),
    "passive while it awaits": (
        [(ROUND, "    for board in done_first_shared(me):\n")],
        "0 ways, then process 1: it sends on edge 1 while it is passive", 3, "end claimed"),
    "sent and not noted": (
        [(SENT, "unnoted(me, (me.name + column) % processes, (*board, column))")],
        "0 ways, then process 1: 1 acknowledgements on edge 1 are more than its messages", 21, "Stuck (1, 3)"),
    "acknowledged twice": (
        [(ROUND, "    for board in answered_twice_shared(me):\n")], "0 ways", None, "Stuck (0, 3)"),
    "a lost message": (
        [(SENT, "(lost if len(board) == 3 else type(me).send)(me, (me.name + column) % processes, (*board, column))")],
        "never over", None, "end open: message 14 of channel 1 is on its way"),
}


def module(name, edits):
    """Returns a script of examples/python after edits: texts that stand once in it, and what stands there instead."""
    with open(f"{SCRIPTS}/{name}", encoding="utf-8") as file:
        text = file.read()
    for old, new in edits:
        assert text.count(old) == 1, f"{text.count(old)} times: {old}"
        text = text.replace(old, new)
    made = types.ModuleType(name.partition(".")[0])
    made.__dict__.update({it.__name__: it for it in HELPERS})
    exec(compile(text, name, "exec"), made.__dict__)
    return made


class Broken(unittest.TestCase):
    def setUp(self):
        room = tempfile.TemporaryDirectory(prefix="chipfire-broken-")
        self.addCleanup(room.cleanup)
        self.room = room.name

    def rows(self, log, process):
        """The rows that a process wrote."""
        file = f"{log}/{process}.rows"
        return read_books_log(file) if os.path.exists(file) else []

    def judged(self, log, processes):
        """The last line that the judge writes of the logs, or its fault."""
        try:
            return str(chipfire.judge_log([row for it in range(processes) for row in self.rows(log, it)])).splitlines()[-1]
        except chipfire.Fault as fault:
            return f"{fault.name} {fault.place}"

    def place(self, log, said):
        """The row of a refusal: after those that its process has written."""
        refused = re.search(r"process (\d+): ", said)
        return len(self.rows(log, refused[1])) if refused else None


def words_of(error):
    """What an error says."""
    return getattr(error, "words", None) or str(error)


class Crawler(Broken):
    async def crawled(self, edits, log):
        """What comes of a crawler, by steps of its coroutines."""
        example = module("crawler.py", [
            ("    await asyncio.sleep(page % 4 / 10_000)\n", "    await asyncio.sleep(0)\n"),
            ("    await detector\n", "    await detector\n    said.append(f'{len(set().union(*seen))} pages')\n"), *edits])
        said, refused, crawl = [], [], example.crawl

        async def caught(*words):
            try:
                await crawl(*words)
            except (chipfire.Fault, RuntimeError) as error:
                refused.append(words_of(error))

        example.__dict__.update(said=said, crawl=caught)
        task = asyncio.ensure_future(example.crawled(PAGES, log))
        for _ in range(STEPS):
            if task.done():
                break
            await asyncio.sleep(0)
        if not task.done():
            task.cancel()
            said.append("never over")
        elif task.exception():
            refused.append(words_of(task.exception()))
        return ", then ".join(said + refused[:1])

    def test_each_is_named_as_the_table_says(self):
        found = {}
        for name, (edits, *_) in CRAWLERS.items():
            log = f"{self.room}/{name}"
            said = asyncio.run(self.crawled(edits, log))
            found[name] = said, self.place(log, said), self.judged(log, 4)
        self.assertEqual(found, {name: (what, row, judged) for name, (_, what, row, judged) in CRAWLERS.items()})


class Own:
    """The inbox of the one process, which reports when nothing comes any more but from the root."""

    def __init__(self, me):
        self.me, self.inbox, self.left = me, me._inboxes[me.name], 1

    def put_nowait(self, item):
        self.left += 1
        self.inbox.put_nowait(item)

    def get(self, *words):
        if self.left == 0:
            OUTCOMES.put("it has no message left" if self.me.books.parent is None else NEVER)
        self.left -= 1
        return self.inbox.get(*words)


def wait(detector):
    """Waits, once the process has reported its state."""
    never = OUTCOMES.get() == NEVER
    try:
        detector.wait(0.01 if never else None)
    except TimeoutError:
        detector._tell_all()
        raise
    finally:
        CLAIMED.set()


class Queens(Broken):
    def searched(self, edits, log):
        """What comes of the search by one process."""
        CLAIMED.clear()
        example = module("queens.py", [
            ('"multiprocessing")', '"multiprocessing", log=log)'),
            ("    detector.wait()\n", "    wait(detector)\n    said.append(f'{ways.value} ways')\n"), *edits])
        said, refusals, search = [], FORK.SimpleQueue(), example.search

        def caught(me, *words):
            me._inboxes[me.name] = Own(me)
            try:
                search(me, *words)
            except chipfire.Fault as fault:
                refusals.put(words_of(fault))
                OUTCOMES.put("it was refused")

        example.__dict__.update(said=said, search=caught, log=log, wait=wait)
        try:
            example.counted(SIDE, 1)
        except chipfire.Fault as fault:
            said.append(words_of(fault))
        except TimeoutError:
            said.append("never over")
        for it in multiprocessing.active_children():
            it.join()
        while not refusals.empty():
            refused = refusals.get()
            said += [refused] * (refused not in said)
        return ", then ".join(said)

    def test_each_is_named_as_the_table_says(self):
        found = {}
        for name, (edits, *_) in QUEENS.items():
            log = f"{self.room}/{name}"
            said = self.searched(edits, log)
            found[name] = said, self.place(log, said), self.judged(log, 2)
        self.assertEqual(found, {name: (what, row, judged) for name, (_, what, row, judged) in QUEENS.items()})


if __name__ == "__main__":
    unittest.main()
