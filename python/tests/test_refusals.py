"""Each number of a refusal, provoked; its place or offset; what it says."""
import pickle
import unittest

from support import SMALL, put_word, word_place
from taskgraph import Entry, Graph, Outcome, Refusal, Sizes, message, read_sheet, room_of_sheet, write_sheet
from taskgraph import _library, day_list, refusal, totals_by_minutes


def small(*entries):
    graph = Graph(SMALL)
    for entry in entries:
        graph.add(0, entry)
    return graph


def with_other_sizes():
    memory = bytearray(Graph.room(SMALL))
    Graph(SMALL, memory).lay_out()
    Graph(Sizes(4, 4, 2, 1), memory).get(0)


def while_half_done():
    graph = small()
    graph.post_add(0, Entry(1))
    graph.get(0)


def sheet_while_half_done():
    graph = small()
    graph.post_add(0, Entry(1))
    graph.add_sheet(0, [Entry(1)] * 65)


def with_damaged_words():
    memory = bytearray(Graph.room(SMALL))
    graph = Graph(SMALL, memory)
    graph.lay_out()
    put_word(memory, word_place(SMALL, "workers", 0), 99)  # the first worker's phase
    graph.step(0)


def while_holding():
    graph = small(Entry(1), Entry(2))
    graph.get(0)
    graph.get(0)


def of_another_job():
    graph = small(Entry(1))
    graph.get(0)
    graph.finish(0, 2, Outcome.GOOD)


def spoiled():
    """A graph whose worker 0 holds job 2, which needs job 1, which failed; and its memory."""
    memory = bytearray(Graph.room(SMALL))
    graph = Graph(SMALL, memory)
    graph.lay_out()
    graph.add_sheet(0, [Entry(1), Entry(2, (1,))])
    graph.get(0)
    graph.finish(0, 1, Outcome.FAILED)
    graph.get(0)
    return graph, memory


def good_for_a_spoiled_job(name, post):
    graph, memory = spoiled()
    before = bytes(memory)
    try:
        graph.post_finish(0, name, Outcome.GOOD) if post else graph.finish(0, name, Outcome.GOOD)
    finally:
        assert bytes(memory) == before


def with_a_damaged_mark(call):
    graph, memory = spoiled()
    put_word(memory, word_place(SMALL, "jobs", 5 + 16 + 10 + 9), 2)  # the mark of job 1, whose name is 2
    call(graph)


def with_a_damaged_note():
    graph, memory = spoiled()
    put_word(memory, word_place(SMALL, "workers", 10), 2)
    graph.finish(0, 3, Outcome.GOOD)


def with_a_damaged_outcome():
    graph, memory = spoiled()
    put_word(memory, word_place(SMALL, "jobs", 5 + 16 + 8), 2)  # the outcome of job 0, whose name is 1
    graph.add(1, Entry(3, (1,)))


def with_damaged_minutes(minutes):
    memory = bytearray(Graph.room(SMALL))
    graph = Graph(SMALL, memory)
    graph.lay_out()
    put_word(memory, word_place(SMALL, "jobs", 5), 2)  # the minutes of class 0 are those of class 1
    graph.minutes() if minutes else graph.totals()


def room(*entries):
    return room_of_sheet(write_sheet(entries))


def with_too_many_made():
    memory = bytearray(Graph.room(SMALL))
    graph = Graph(SMALL, memory)
    graph.lay_out()
    put_word(memory, word_place(SMALL, "jobs", 4), 5)
    graph.load_minutes(range(1, 17))


# number, place, offset, entry, and what provokes it
CASES = [
    (1, None, None, None, lambda: Graph(Sizes(0, 4, 2, 2))),
    (1, None, None, None, lambda: Graph.words(Sizes(4097, 4, 2, 2))),
    (1, None, None, None, lambda: Graph(SMALL, bytearray(Graph.room(SMALL))).get(0)),  # not laid out
    (1, None, None, None, lambda: Graph(SMALL, bytearray(Graph.room(SMALL))).totals()),
    (1, None, None, None, with_other_sizes),
    (1, None, None, None, lambda: day_list(b"", workers=17)),
    (2, None, None, None, lambda: small().get(2)),
    (3, None, None, None, while_half_done),
    (4, None, None, None, lambda: small().step(1)),
    (5, None, None, None, lambda: small().post_add(0, Entry(1, (1,)))),
    (5, None, None, None, lambda: small().add(0, Entry(1, class_=16))),
    (5, None, None, None, lambda: small().add(0, Entry(1, grower=65536))),
    (5, None, None, None, lambda: small().add(0, Entry(99, tuple(range(33))))),
    (6, 1, None, None, lambda: small(Entry(1)).add(0, Entry(2, (1, 3)))),
    (7, None, None, None, lambda: small(Entry(1)).add(1, Entry(1))),
    (8, None, None, None, lambda: small(*map(Entry, range(4))).add(0, Entry(4))),
    (9, None, None, None, with_damaged_words),
    (10, None, None, None, while_holding),
    (11, None, None, None, of_another_job),
    (12, None, 1, None, lambda: read_sheet(b"\x01")),
    (13, None, 5, None, lambda: read_sheet(b"\x01\x01\x00\x00\x00\x02")),
    (14, None, 5, None, lambda: read_sheet(b"\x05\x01\x00\x00\x00\x00")),
    (14, None, 10, 1, lambda: write_sheet([Entry(1), Entry(2, (1,), 16)])),
    (14, None, 5, 0, lambda: write_sheet([Entry(99, tuple(range(33)))], most=0)),
    (15, None, None, None, lambda: write_sheet([Entry(1), Entry(2)], most=9)),
    (16, None, None, None, lambda: small().add_sheet(0, [Entry(1)] * 65)),
    (17, None, None, None, lambda: small().load_minutes(range(16))),
    (17, None, None, None, lambda: small().load_minutes(range(1, 16))),
    (17, None, None, None, lambda: small().load_minutes([])),
    (17, None, None, None, lambda: small().load_minutes([*range(1, 16), 1441])),
    (17, None, None, None, lambda: small(Entry(1)).load_minutes([1] * 16)),
    (17, None, None, None, lambda: totals_by_minutes([(3, 0)], [1] * 16)),
    (18, None, None, None, lambda: small(Entry(1)).load_minutes(range(1, 17))),
    (1, None, None, None, lambda: Graph(SMALL, bytearray(Graph.room(SMALL))).load_minutes([])),
    (1, None, None, None, lambda: Graph(SMALL, bytearray(Graph.room(SMALL))).minutes()),
    (1, None, None, None, lambda: totals_by_minutes([(3, 0)] * 4097, [])),
    (9, None, None, None, lambda: totals_by_minutes([(0, 0), (3, 0)], range(1, 17))),
    (9, None, None, None, lambda: totals_by_minutes([(0, 16)], range(1, 17))),
    (9, None, None, None, lambda: with_damaged_minutes(True)),
    (9, None, None, None, lambda: with_damaged_minutes(False)),
    (9, None, None, None, with_too_many_made),
    (3, None, None, None, sheet_while_half_done),
    (19, None, None, None, lambda: good_for_a_spoiled_job(2, post=False)),
    (19, None, None, None, lambda: good_for_a_spoiled_job(2, post=True)),
    (11, None, None, None, lambda: good_for_a_spoiled_job(1, post=False)),
    (9, None, None, None, lambda: with_a_damaged_mark(lambda graph: graph.finish(0, 2, Outcome.GOOD))),
    (9, None, None, None, lambda: with_a_damaged_mark(lambda graph: graph.post_finish(0, 2, Outcome.FAILED))),
    (9, None, None, None, lambda: with_a_damaged_mark(lambda graph: graph.held(0))),
    (9, None, None, None, with_a_damaged_note),
    (9, None, None, None, with_a_damaged_outcome),
    (5, None, None, 0, lambda: room(Entry(1, (1,)))),
    (5, None, None, 1, lambda: room(Entry(1), Entry(2, (1, 1)))),
    (6, 1, None, 1, lambda: room(Entry(1), Entry(2, (1, 3)), Entry(3))),
    (6, 0, None, 0, lambda: room(Entry(2, (1,)), Entry(1))),
    (7, None, None, 2, lambda: room(Entry(1), Entry(2), Entry(1))),
    (8, None, None, 4096, lambda: room(*map(Entry, range(4097)))),
    (12, None, 6, None, lambda: room_of_sheet(b"\x01\x01\x00\x00\x00\x01")),
    (13, None, 0, None, lambda: room_of_sheet(b"\x02")),
    (14, None, 5, None, lambda: room_of_sheet(b"\x05\x01\x00\x00\x00\x00")),
]


class Refusals(unittest.TestCase):
    def test_each_number(self):
        for number, place, offset, entry, provoke in CASES:
            with self.subTest(number=number), self.assertRaises(Refusal) as caught:
                provoke()
            found = caught.exception
            self.assertEqual((found.number, found.place, found.offset, found.entry), (number, place, offset, entry))
            self.assertEqual(found.message, message(number))
            self.assertTrue(str(found).startswith(f"refused by {number}: {found.message}"), str(found))

    def test_none_is_left_out(self):
        self.assertEqual({number for number, *_ in CASES}, set(range(1, 20)))

    def test_text(self):
        self.assertEqual(str(Refusal(6, place=2)), f"refused by 6: {message(6)} (place 2)")
        self.assertEqual(str(Refusal(14, offset=5, entry=1)), f"refused by 14: {message(14)} (entry 1, offset 5)")
        self.assertEqual(str(Refusal(8)), f"refused by 8: {message(8)}")

    def test_goes_between_processes(self):
        sent = pickle.loads(pickle.dumps(Refusal(14, offset=5, entry=1)))
        self.assertEqual(sent.args, (14, None, 5, 1, False))
        self.assertTrue(pickle.loads(pickle.dumps(Refusal(9, stopped=True))).stopped)
        self.assertEqual((sent.number, sent.offset, sent.entry, sent.message), (14, 5, 1, message(14)))


class Messages(unittest.TestCase):
    def test_one_for_each_number(self):
        self.assertEqual(sorted(refusal.MESSAGES), list(range(1, 20)))
        self.assertEqual(len(set(refusal.MESSAGES.values())), 19)

    def test_are_those_of_the_library(self):
        library = _library.library()
        for number, text in refusal.MESSAGES.items():
            with self.subTest(number=number):
                self.assertEqual(message(number), text)
                if hasattr(library, "tg_message"):
                    self.assertEqual(library.tg_message(number).decode(), text)

    def test_another_number(self):
        self.assertEqual(message(20), "unknown number")
