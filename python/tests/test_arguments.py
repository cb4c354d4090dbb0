"""Arguments that cannot be passed on: a clear text, and the graph as it was."""
import unittest

from support import FOUR, SMALL
from taskgraph import (
    Entry, Graph, Outcome, Sizes, bucket, day_list, message, minutes, read_sheet, room_of_sheet, totals_by_minutes,
    write_sheet,
)

# calls with one number left open
NUMBERS = {
    "the name of an entry": lambda n: Entry(n),
    "a prerequisite": lambda n: Entry(1, (2, n)),
    "the class": lambda n: Entry(1, class_=n),
    "the grower": lambda n: Entry(1, grower=n),
    "jobs": lambda n: Sizes(n, 4, 2, 2),
    "arcs": lambda n: Sizes(4, n, 2, 2),
    "bits": lambda n: Sizes(4, 4, n, 2),
    "workers": lambda n: Sizes(4, 4, 2, n),
    "bucket's name": lambda n: bucket(n, 2),
    "bucket's bits": lambda n: bucket(1, n),
    "minutes": lambda n: minutes(n),
    "message": lambda n: message(n),
    "day_list": lambda n: day_list(FOUR, n),
    "write_sheet": lambda n: write_sheet([Entry(1)], most=n if n is not None else "none"),
    "post_add": lambda n: GRAPH.post_add(n, Entry(1)),
    "post_finish": lambda n: GRAPH.post_finish(n, 1, Outcome.GOOD),
    "post_finish's name": lambda n: GRAPH.post_finish(0, n, Outcome.GOOD),
    "post_finish's outcome": lambda n: GRAPH.post_finish(0, 1, n),
    "step": lambda n: GRAPH.step(n),
    "get": lambda n: GRAPH.get(n),
    "add": lambda n: GRAPH.add(n, Entry(1)),
    "finish": lambda n: GRAPH.finish(n, 1, Outcome.GOOD),
    "finish's outcome": lambda n: GRAPH.finish(0, 1, n),
    "held": lambda n: GRAPH.held(n),
    "load_minutes": lambda n: GRAPH.load_minutes([*range(1, 16), n]),
    "a label": lambda n: totals_by_minutes([(n, 0)], range(1, 17)),
    "a class": lambda n: totals_by_minutes([(0, n)], range(1, 17)),
    "totals_by_minutes": lambda n: totals_by_minutes([], [*range(1, 16), n]),
}
# calls with something else left open
THINGS = {
    "read_sheet": (read_sheet, "must be bytes"),
    "room_of_sheet": (room_of_sheet, "must be bytes"),
    "day_list": (day_list, "must be bytes"),
    "write_sheet": (lambda thing: write_sheet([thing]), "must be an Entry"),
    "post_add": (lambda thing: GRAPH.post_add(0, thing), "must be an Entry"),
    "add": (lambda thing: GRAPH.add(0, thing), "must be an Entry"),
    "words": (Graph.words, "must be Sizes"),
    "room": (Graph.room, "must be Sizes"),
    "graph": (Graph, "must be Sizes"),
    "load_minutes": (lambda thing: GRAPH.load_minutes(thing), "must be one of a list|must be a whole number"),
    "prerequisites": (lambda thing: Entry(1, thing), "must be a tuple of names|must be a whole number"),
}
MEMORY = bytearray(Graph.room(SMALL))
GRAPH = Graph(SMALL, MEMORY)
GRAPH.lay_out()


class Arguments(unittest.TestCase):
    def setUp(self):
        self.before = bytes(MEMORY)

    def tearDown(self):
        self.assertEqual(bytes(MEMORY), self.before)

    def test_off_32_bits(self):
        for name, call in NUMBERS.items():
            for number in (-1, 2**32, -(2**64), 2**64):
                with self.subTest(name, number=number):
                    self.assertRaisesRegex(ValueError, f"must be 0 to 4294967295, not {number}", call, number)

    def test_no_whole_number(self):
        for name, call in NUMBERS.items():
            for number in (1.0, "1", None, True, b"1", (1,)):
                with self.subTest(name, number=number):
                    self.assertRaisesRegex(TypeError, "must be a whole number, not ", call, number)

    def test_wrong_things(self):
        for name, (call, text) in THINGS.items():
            for thing in (5, "text", None, [1.5], object()):
                with self.subTest(name, thing=thing):
                    self.assertRaisesRegex(TypeError, text, call, thing)

    def test_entries_are_no_list(self):
        self.assertRaises(TypeError, write_sheet, 5)
        self.assertRaisesRegex(TypeError, "must be an Entry, not int", write_sheet, b"\x01")

    def test_prerequisites_of_any_kind_become_a_tuple(self):
        for names in ((1, 2), [1, 2], range(1, 3), iter([1, 2])):
            self.assertEqual(Entry(3, names), Entry(3, (1, 2)))

    def test_an_entry_stays_as_it_is(self):
        with self.assertRaises(AttributeError):
            Entry(1).name = 2
        self.assertEqual(len({Entry(1), Entry(1)}), 1)
