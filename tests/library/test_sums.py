"""Books with sums: all small ones, each call beside the words of chipfire.h and beside the calls on arrays."""
import ctypes
import itertools
import random
import unittest

from library import LARGEST, LIBRARY, WORD
from test_books import are_sound, KEPT, made, NEUTRAL, opened, OTHERS, SIDES, wanted, WORDS

EDGES = 3, 5, 4
STEPS = "sent", "got", "acknowledge", "settled", "is_over"


class Books(ctypes.Structure):
    """struct chipfire_books."""

    _fields_ = [
        ("ins", ctypes.c_void_p),
        ("ins_len", ctypes.c_size_t),
        ("outs", ctypes.c_void_p),
        ("outs_len", ctypes.c_size_t),
        ("parent", WORD),
        ("owed", WORD),
        ("deficit", WORD),
    ]


class Kept:
    """Books with a guard after each array, which no call may write."""

    def __init__(self, ins, outs, parent, owed=KEPT, deficit=KEPT):
        self.sides = [(WORD * (3 * len(side) + 1))(*itertools.chain(*side), KEPT) for side in (ins, outs)]
        at = [ctypes.addressof(side) for side in self.sides]
        self.struct = Books(at[0], len(ins), at[1], len(outs), parent, owed, deficit)
        self.pointed = (at[0], len(ins), at[1], len(outs))

    def call(self, name, *words):
        return getattr(LIBRARY, f"chipfire_books_{name}")(ctypes.byref(self.struct), *words)

    def step(self, name, edge, word, passive):
        """Makes a step of a part, and returns the status and the numbers that are written."""
        one, other = WORD(KEPT), WORD(KEPT)
        first, second = ctypes.byref(one), ctypes.byref(other)
        words = {
            "sent": (edge,),
            "got": (edge,),
            "acknowledge": (edge, passive, first, second),
            "settled": (edge, word, first),
            "is_over": (passive, first),
        }[name]
        return self.call(name, *words), one.value, other.value

    def now(self):
        """Both sides, the parent, and the sums."""
        its = self.struct
        assert all(side[-1] == KEPT for side in self.sides), "written after its end"
        assert (its.ins, its.ins_len, its.outs, its.outs_len) == self.pointed, "points elsewhere"
        sides = [tuple(zip(side[0:-1:3], side[1::3], side[2::3])) for side in self.sides]
        return *sides, its.parent, its.owed, its.deficit


def opened_books(ins, outs, parent):
    """Sound books with their sums."""
    books = Kept(ins, outs, parent)
    assert books.call("open") == 0
    return books


def sums(ins, outs):
    return opened(ins), opened(outs)


def wanted_sums(name, ins, outs, parent, edge, word, passive):
    """What a step on sound books returns, both numbers that it writes, and the books after it."""
    if name != "acknowledge":
        status, value, *after = wanted(name, ins, outs, parent, edge, word, passive)
        return (status, value, KEPT), (*after, *sums(*after[:2]))
    status, count, *_ = wanted("may_ack", ins, outs, parent, edge, word, passive)
    if status:
        return (status, KEPT, KEPT), (ins, outs, parent, *sums(ins, outs))
    _, _, *after = wanted("acked", ins, outs, parent, edge, count, passive)
    so_far = next(answered for e, _, answered in after[0] if e == edge)
    return (0, count, so_far), (*after, *sums(*after[:2]))


def small():
    for one, other, parent in itertools.product(SIDES, OTHERS, (*EDGES[:2], NEUTRAL)):
        yield one, other, parent
        yield other, one, parent


class Small(unittest.TestCase):
    def test_open_and_verify(self):
        for its in small():
            books, is_sound = Kept(*its), are_sound(*its)
            self.assertEqual(books.call("verify"), 46, its)
            self.assertEqual(books.now(), (*its, KEPT, KEPT))
            self.assertEqual(books.call("open"), 0 if is_sound else 46, its)
            self.assertEqual(books.now(), (*its, *(sums(*its[:2]) if is_sound else (KEPT, KEPT))))
            self.assertEqual(books.call("verify"), 0 if is_sound else 46, its)

    def test_verify_sees_each_sum(self):
        ins, outs = ((3, 5, 1), (5, 2, 2)), ((3, LARGEST, 0), (5, LARGEST, 1))
        for owed, deficit in itertools.product((3, 4, 5), (2 * LARGEST - 1, 2 * LARGEST, 0)):
            is_right = (owed, deficit) == (4, 2 * LARGEST - 1)
            self.assertEqual(Kept(ins, outs, 3, owed, deficit).call("verify"), 0 if is_right else 46)

    def test_each_step_on_sound_ones(self):
        for its in filter(lambda it: are_sound(*it), small()):
            for name in STEPS:
                edges, words = EDGES if name != "is_over" else (0,), WORDS if name == "settled" else (0,)
                for how in itertools.product(edges, words, (0, 1)):
                    books = opened_books(*its)
                    found = books.step(name, *how)
                    self.assertEqual((found, books.now()), wanted_sums(name, *its, *how), (name, its, how))
                    self.assertEqual(books.call("verify"), 0, (name, its, how))

    def test_other_sums_are_kept_where_a_step_is_refused(self):
        for its in itertools.islice(small(), None, None, 11):
            for name, number, word in itertools.product(STEPS[:4], (0, 1, NEUTRAL), (0, 1)):
                books = Kept(*its, number, number)
                status, *value = books.step(name, EDGES[0], word, word)
                self.assertIn(status, (0, 46))
                if status:
                    self.assertEqual((value, books.now()), ([KEPT, KEPT], (*its, number, number)), (name, its, number))

    def test_no_sum_passes_an_end(self):
        """A side of another sum: nothing is counted below 0, or above the greatest word."""
        ins, outs = ((3, 2, 0), (5, 1, 0)), ((3, 1, 0), (5, 0, 0))
        for name, how, owed, deficit in [
            ("sent", (5, 0, 0), 3, NEUTRAL),
            ("got", (5, 0, 0), NEUTRAL, 1),
            ("acknowledge", (5, 0, 0), 0, 1),
            ("settled", (3, 1, 0), 3, 0),
        ]:
            books = Kept(ins, outs, 3, owed, deficit)
            self.assertEqual(books.step(name, *how), (46, KEPT, KEPT), name)
            self.assertEqual(books.now(), (ins, outs, 3, owed, deficit))


class Beside(unittest.TestCase):
    def test_random_steps_beside_the_calls_on_arrays(self):
        for seed in range(300):
            draw = random.Random(seed)
            ins, outs = (tuple((e, 0, 0) for e in sorted(draw.sample(range(9), draw.randint(0, 5)))) for _ in "io")
            books, beside = opened_books(ins, outs, NEUTRAL), (ins, outs, NEUTRAL)
            for _ in range(60):
                beside = self.step(draw, books, beside)
            self.assertEqual(books.call("verify"), 0)

    def step(self, draw, books, beside):
        """Makes a step on both, and returns the other books after it."""
        name = draw.choice(STEPS)
        edge, word, passive = draw.randrange(9), draw.randrange(6), draw.randrange(2)
        status, value, so_far = books.step(name, edge, word, passive)
        if name == "acknowledge":
            other, count, *_ = made("may_ack", *beside, edge, 0, passive)
            self.assertEqual((status, value), (other, count))
            _, _, *beside = made("acked", *beside, edge, value, passive) if not other else (0, 0, *beside)
            self.assertEqual(so_far, KEPT if other else next(it[2] for it in beside[0] if it[0] == edge))
        else:
            other, count, *beside = made(name, *beside, edge, word, passive)
            self.assertEqual((status, value, so_far), (other, count, KEPT))
        deficit = made("deficit", *beside, 0, 0, 0)[1]
        self.assertEqual(books.now(), (*beside, opened(beside[0]), deficit))
        return tuple(beside)


if __name__ == "__main__":
    unittest.main()
