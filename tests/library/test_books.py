"""The books of a part: all small ones, sound or not, beside the words of chipfire.h."""
import ctypes
import itertools
import unittest

from library import LARGEST, LIBRARY, WORD

NEUTRAL, KEPT = 2**64 - 1, 77
COUNTS, EDGES, WORDS = (0, 1, LARGEST, LARGEST + 1), (3, 5), (0, 1, 2, LARGEST, NEUTRAL)
#: A tally is (edge, messages, answered), and a side has two of them at most.
TALLIES = [*itertools.product(EDGES, COUNTS, COUNTS)]
SIDES = [side for length in range(3) for side in itertools.product(TALLIES, repeat=length)]
#: What stands on the other side: nothing, something open, all acknowledged, and what is not sound.
OTHERS = [(), ((3, 1, 0),), ((3, 1, 1), (5, LARGEST, LARGEST)), ((5, 0, 1),)]


def opened(side):
    return sum(messages - answered for _, messages, answered in side)


def are_possible(side):
    return all(answered <= messages <= LARGEST for _, messages, answered in side)


def are_tallies(side):
    edges = [it[0] for it in side]
    return edges == sorted(set(edges)) and are_possible(side)


def are_sound(ins, outs, parent):
    owed = opened(ins) if parent == NEUTRAL else opened(it for it in ins if it[0] == parent)
    return are_tallies(ins) and are_tallies(outs) and (owed > 0) == (parent != NEUTRAL)


def changed(side, edge, messages, answered):
    """The side with this number of messages and acknowledgements more on the edge."""
    return tuple((e, m + messages * (e == edge), a + answered * (e == edge)) for e, m, a in side)


def wanted(call, ins, outs, parent, edge, word, passive):
    """What a call on sound books returns, and the books after it; the number is KEPT if it writes none."""
    refused = 46, KEPT, ins, outs, parent
    side = ins if call in ("got", "may_ack", "acked") else outs
    here = next((it for it in side if it[0] == edge), None)
    if call in ("deficit", "is_over"):
        return 0, opened(outs) if call == "deficit" else int(passive and not opened(outs)), ins, outs, parent
    if here is None or call in ("sent", "got") and here[1] == LARGEST:
        return refused
    if call == "sent":
        return 0, KEPT, ins, changed(outs, edge, 1, 0), parent
    if call == "got":
        return 0, KEPT, changed(ins, edge, 1, 0), outs, edge if parent == NEUTRAL else parent
    if call == "settled":
        more = max(0, word - here[2])
        return refused if word > here[1] else (0, more, ins, changed(outs, edge, 0, more), parent)
    owed = here[1] - here[2]
    is_done = passive and opened(ins) == owed and not opened(outs)
    may = owed - (edge == parent and not is_done)
    if call == "may_ack":
        return 0, may, ins, outs, parent
    if word > may:
        return (46 if word > owed else 47, *refused[1:])
    return 0, KEPT, changed(ins, edge, 0, word), outs, NEUTRAL if edge == parent and word == owed else parent


def made(call, ins, outs, parent, edge, word, passive):
    """The same, as the library returns it."""
    sides = [(WORD * (3 * len(side) + 1))(*itertools.chain(*side), KEPT) for side in (ins, outs)]
    (its, lengths), now, written = zip(*((side, len(side) // 3) for side in sides)), WORD(parent), WORD(KEPT)
    of_ins, of_outs = zip(map(ctypes.addressof, its), lengths)
    by, to = ctypes.byref(now), ctypes.byref(written)
    words = {
        "sent": (*of_outs, edge), "got": (*of_ins, by, edge), "may_ack": (*of_ins, *of_outs, parent, edge, passive, to),
        "acked": (*of_ins, *of_outs, by, edge, passive, word), "settled": (*of_outs, edge, word, to),
        "deficit": (*of_outs, to), "is_over": (*of_outs, passive, to),
    }[call]
    status = getattr(LIBRARY, f"chipfire_{call}")(*words)
    after = [tuple(zip(side[0:-1:3], side[1::3], side[2::3])) for side in its]
    assert all(side[-1] == KEPT for side in its), "written after its end"
    return status, written.value, *after, now.value


def check(ins, outs, parent):
    words = [((WORD * (3 * len(side) + 1))(*itertools.chain(*side)), len(side)) for side in (ins, outs)]
    return LIBRARY.chipfire_books_check(*itertools.chain(*words), parent)


CALLS = {**dict.fromkeys(("sent", "got", "may_ack", "acked", "settled"), EDGES), "deficit": (0,), "is_over": (0,)}


class Small(unittest.TestCase):
    def books(self):
        for one, other, parent in itertools.product(SIDES, OTHERS, (*EDGES, NEUTRAL)):
            yield one, other, parent
            yield other, one, parent

    def test_which_are_sound(self):
        for books in self.books():
            self.assertEqual(check(*books), 0 if are_sound(*books) else 46, books)

    def test_no_edge_has_the_number_of_none(self):
        for last, status in (NEUTRAL - 1, 0), (NEUTRAL, 46):
            self.assertEqual(check(((3, 1, 0), (last, 1, 0)), (), 3), status)
            self.assertEqual(check((), ((3, 1, 0), (last, 0, 0)), NEUTRAL), status)

    def test_each_call_on_sound_ones(self):
        for books in filter(lambda it: are_sound(*it), self.books()):
            for call, edges in CALLS.items():
                for how in itertools.product((*edges, 4), WORDS if call in ("acked", "settled") else (0,), (0, 1)):
                    found = made(call, *books, *how)
                    self.assertEqual(found, wanted(call, *books, *how), (call, books, how))
                    self.assertEqual(check(*found[2:]), 0, (call, books, how))

    def test_calls_that_add_up_refuse_impossible_ones(self):
        for ins, outs, parent in self.books():
            calls = []
            if not are_possible(outs):
                calls += [("deficit", 0), ("is_over", 0)]
            if parent != NEUTRAL and not are_possible(ins + outs):
                calls += [("may_ack", parent), ("acked", parent)]
            for (call, edge), passive in itertools.product(calls, (0, 1)):
                found = made(call, ins, outs, parent, edge, 0, passive)
                self.assertEqual(found, (46, KEPT, ins, outs, parent), (call, passive))

    def test_others_are_kept_where_a_call_refuses_them(self):
        others = itertools.filterfalse(lambda it: are_sound(*it), self.books())
        for books in itertools.islice(others, None, None, 7):
            for call, edges in CALLS.items():
                for word in (0, 1):
                    status, value, *now = made(call, *books, edges[0], word, word)
                    self.assertIn(status, (0, 46, 47))
                    self.assertTrue(status == 0 or (value, *now) == (KEPT, *books), (call, books, word))


if __name__ == "__main__":
    unittest.main()
