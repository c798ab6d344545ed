"""Books of processes, beside the rules of docs/DETECTOR.md kept by hand, and what their logs show."""
import collections
import os
import pickle
import random
import tempfile
import unittest
from unittest import mock

import chipfire
from chipfire.backend import library
from chipfire.lab.books import Books, read_books_log

#: A root, and three processes that send to one another: edges by tail and head.
EDGES = [(0, 1), (0, 2), (1, 2), (2, 1), (1, 3), (3, 1), (2, 2)]


def books_of(process, log):
    """The books of a process of EDGES."""
    ins = [edge for edge, ends in enumerate(EDGES) if ends[1] == process]
    outs = [edge for edge, ends in enumerate(EDGES) if ends[0] == process]
    return Books(ins, outs, root=process == 0, process=process, log=log)


class Run:
    """A computation of a few messages whose steps are drawn at random, with a count of what is open beside the books."""

    def __init__(self, seed, messages=12):
        self.draw = random.Random(seed)
        self.left = messages
        self.log = []
        self.books = [books_of(process, self.log) for process in range(4)]
        self.transit, self.acks = [], []
        self.at_work = {0}

    def send(self, process):
        edge = self.draw.choice([edge for edge, ends in enumerate(EDGES) if ends[0] == process])
        self.books[process].sent(edge)
        self.transit.append(edge)
        self.left -= 1

    def get(self):
        edge = self.transit.pop(self.draw.randrange(len(self.transit)))
        head = EDGES[edge][1]
        self.books[head].got(edge)
        self.at_work.add(head)

    def settle(self):
        edge, count = self.acks.pop(self.draw.randrange(len(self.acks)))
        self.books[EDGES[edge][0]].settled(edge, count)

    def step(self):
        """Makes one step, and says whether the root claims that it is over."""
        process = self.draw.randrange(4)
        kind = self.draw.choice(["send", "get", "settle", "rest", "acknowledge"])
        if kind == "send" and process in self.at_work and self.left:
            self.send(process)
        elif kind == "get" and self.transit:
            self.get()
        elif kind == "settle" and self.acks:
            self.settle()
        elif kind == "rest":
            self.at_work.discard(process)
        elif process:
            self.acks += self.books[process].acknowledge(process not in self.at_work)
        return self.books[0].is_over(0 not in self.at_work)


class Duties(unittest.TestCase):
    def test_runs_drawn_at_random_are_never_early_and_never_missed(self):
        for seed in range(20):
            run = Run(seed)
            for _ in range(20_000):
                is_over = run.step()
                is_quiet = not run.transit and not run.at_work
                self.assertTrue(is_quiet or not is_over, seed)
                if is_over:
                    break
            self.assertTrue(is_over, seed)
            judged = chipfire.judge_log(run.log)
            self.assertEqual((judged.is_right, judged.end), (True, "claimed"))
            counts = collections.Counter(kind for _, kind, _ in run.log)
            self.assertEqual([counts["receive"], counts["tell"], counts["hear"]], [counts["send"]] * 3)

    def test_the_sums_that_are_kept_are_those_of_the_tallies(self):
        for seed in range(5):
            run = Run(seed)
            for step in range(400):
                run.step()
                if step % 50 == 0:
                    run.books = [pickle.loads(pickle.dumps(books)) for books in run.books]
                    run.log = []
                for books in run.books:
                    self.assertEqual(library.books().chipfire_books_verify(books._books), 0, (seed, step))

    def test_edges_that_come_while_messages_are_open(self):
        books = Books([4], [4])
        books.got(4)
        books.sent(4)
        for edge in (1, 9, 5):
            books.add_in(edge)
            books.add_out(edge)
            books.got(edge)
            books.sent(edge)
        self.assertEqual((books.parent, books.deficit), (4, 4))
        self.assertEqual(books.acknowledge(True), [(1, 1), (5, 1), (9, 1)])
        for left, edge in zip((3, 2, 1, 0), (4, 1, 5, 9)):
            self.assertEqual((books.settled(edge, 1), books.deficit), (1, left))
        self.assertEqual(books.acknowledge(True), [(4, 1)])
        self.assertIsNone(books.parent)

    def test_the_message_that_engaged_waits_for_all_others(self):
        books = Books([2, 5], [7])
        books.got(5)
        books.got(2)
        books.got(2)
        books.sent(7)
        self.assertEqual((books.parent, books.deficit), (5, 1))
        self.assertEqual(books.acknowledge(False), [(2, 2)])
        self.assertEqual(books.acknowledge(True), [])
        self.assertEqual(books.settled(7, 1), 1)
        self.assertEqual(books.settled(7, 1), 0)
        self.assertEqual(books.acknowledge(True), [(5, 1)])
        self.assertIsNone(books.parent)
        self.assertIn("passive, deficit 0", repr(books))

    def test_edges_that_come_later_are_as_if_they_had_been_there(self):
        late, early = Books([9]), Books([0, 4, 9, 12])
        for edge in (12, 0, 4):
            late.add_in(edge)
        for books in (late, early):
            for edge in (4, 0, 9, 9, 12):
                books.got(edge)
            self.assertEqual(books.acknowledge(False), [(0, 1), (9, 2), (12, 1)])
        late.add_out(3)
        late.sent(3)
        self.assertTrue(late.has_in(12))
        self.assertFalse(late.has_in(3))
        self.assertEqual(late.acknowledge(True), [])

    def test_a_pickle_goes_on(self):
        with tempfile.TemporaryDirectory(prefix="chipfire-books-") as folder:
            file = os.path.join(folder, "1.rows")
            books = Books([0], [1], process=1, log=file)
            books.got(0)
            books.sent(1)
            copy = pickle.loads(pickle.dumps(books))
            self.assertEqual(copy.acknowledge(True), [])
            copy.settled(1, 1)
            self.assertEqual(copy.acknowledge(True), [(0, 1)])
            rows = [(1, "receive", 0), (1, "send", 1), (1, "passive", 0), (1, "hear", 1), (1, "tell", 0)]
            self.assertEqual(read_books_log(file), rows)


class Refused(unittest.TestCase):
    def is_refused(self, number, words, call, *arguments):
        with self.assertRaises(chipfire.Fault) as raised:
            call(*arguments)
        self.assertEqual((raised.exception.number, raised.exception.words), (number, words))

    def test_what_a_passive_process_may_not(self):
        log = []
        books = Books([0], [1], process=4, log=log)
        words = "process 4: it sends on edge 1 while it is passive"
        self.is_refused(32, words, books.sent, 1)
        books.got(0)
        books.acknowledge(True)
        self.is_refused(32, words, books.sent, 1)
        self.assertEqual(log, [(4, "receive", 0), (4, "passive", 0), (4, "tell", 0)])
        root = Books(outs=[0], root=True)
        root.is_over()
        self.is_refused(32, "process 0: it sends on edge 0 while it is passive", root.sent, 0)

    def test_edges_and_counts(self):
        books = Books([0], [1], process=4)
        self.is_refused(46, "process 4: no message can be got on edge 1", books.got, 1)
        books.got(0)
        self.is_refused(46, "process 4: no message can be sent on edge 0", books.sent, 0)
        books.sent(1)
        words = "process 4: 2 acknowledgements on edge 1 are more than its messages"
        self.is_refused(46, words, books.settled, 1, 2)
        self.assertEqual(books.settled(1, 1), 1)

    def test_what_is_no_network(self):
        for words, make in [
            ("no edge leads to the root", lambda: Books([1], root=True)),
            ("no edge leads to the root", lambda: Books(root=True).add_in(1)),
            ("an edge is named twice", lambda: Books([1, 1])),
            ("edge 1 is there", lambda: Books(outs=[1]).add_out(1)),
            ("below 0", lambda: Books([-1])),
            ("above", lambda: Books([2**64 - 1])),
            ("is not the root", lambda: Books([1]).is_over()),
        ]:
            with self.assertRaisesRegex(ValueError, words):
                make()

    def test_a_number_is_checked_before_it_is_noted(self):
        """ctypes takes the remainder of a number that is too large, and nothing of what only stands for one."""

        class Like:
            def __index__(self):
                return 1

        books = Books([0, 1], [2])
        for duty, words in ((books.got, [2**64]), (books.sent, [2**64 + 2]), (books.settled, [2, 2**64]), (books.got, [-1])):
            with self.assertRaisesRegex(ValueError, "is (above|below)"):
                duty(*words)
        for duty, words in ((books.got, ["0"]), (books.sent, [2.5]), (books.settled, [2, None])):
            with self.assertRaisesRegex(TypeError, "is no whole number"):
                duty(*words)
        self.assertEqual((books.parent, books.deficit, books.acknowledge(True)), (None, 0, []))
        books.got(Like())
        self.assertEqual((books.parent, books.acknowledge(True)), (1, [(1, 1)]))

    def test_without_a_library_it_says_what_to_do(self):
        with mock.patch.object(library, "_beside", return_value=(None, "there is none beside /x")):
            with self.assertRaises(chipfire.ProgramNotFound) as raised:
                Books([0])
        self.assertIn("there is none beside /x; `./chipfire` in a clone", str(raised.exception))


class Misuse(unittest.TestCase):
    """What the books of one process cannot see, and the rows of all can."""

    def played(self, note_sent=True, acknowledged=1, is_lost=False):
        """A root wakes 1, which sends to 2 on edge 1."""
        log = []
        root, one, two = (Books(*edges, root=not it, process=it, log=log) for it, edges in
                          enumerate([((), [0]), ([0], [1]), ([1], [])]))
        root.sent(0)
        one.got(0)
        if note_sent:
            one.sent(1)
        if not is_lost:
            two.got(1)
            one.acknowledge(False)
            for edge, _ in two.acknowledge(True):
                if note_sent:
                    one.settled(edge, acknowledged)
        for edge, count in one.acknowledge(True):
            root.settled(edge, count)
        root.is_over()
        return log

    def test_right_uses(self):
        self.assertTrue(chipfire.judge_log(self.played()).is_right)

    def test_sent_is_not_noted(self):
        """The root claims that it is over, and its books are sound."""
        log = self.played(note_sent=False)
        self.assertIn((0, "over", 0), log)
        with self.assertRaises(chipfire.Fault) as raised:
            chipfire.judge_log(log)
        self.assertEqual((raised.exception.number, raised.exception.place), (70, (2, 0)))

    def test_a_message_is_lost(self):
        """It is waited for without end, and the log says which one."""
        judged = chipfire.judge_log(self.played(is_lost=True))
        self.assertEqual((judged.claims, judged.end), ((), "open: message 0 of channel 1 is on its way"))


if __name__ == "__main__":
    unittest.main()
