"""Sheets, the day list, buckets and minutes."""
import unittest

from support import DAY, FOUR, random_entry, seeded, spelled
from taskgraph import (
    Entry, Graph, Outcome, Refusal, Room, Sizes, bucket, day_list, minutes, read_sheet, room_of_sheet, write_sheet,
)


class Sheets(unittest.TestCase):
    def test_the_example(self):
        entries = [Entry(1), Entry(2), Entry(3), Entry(4, (1, 2))]
        self.assertEqual(read_sheet(FOUR), entries)
        self.assertEqual(write_sheet(entries), FOUR)

    def test_every_kind_of_bytes(self):
        for kind in (bytes, bytearray, memoryview):
            self.assertEqual(len(read_sheet(kind(FOUR))), 4)

    def test_the_empty_sheet(self):
        self.assertEqual(read_sheet(b""), [])
        self.assertEqual(write_sheet([]), b"")
        self.assertEqual(write_sheet([], most=0), b"")

    def test_greatest_values(self):
        entry = Entry(2**32 - 1, tuple(range(32)), 15, 65535)
        self.assertEqual(write_sheet([entry]), spelled(entry))
        self.assertEqual(len(spelled(entry)), 137)
        self.assertEqual(read_sheet(spelled(entry)), [entry])

    def test_round_trips(self):
        source = seeded("round trips")
        for _ in range(500):
            entries = [random_entry(source, 20) for _ in range(source.randrange(20))]
            sheet = b"".join(map(spelled, entries))
            self.assertEqual(write_sheet(entries, most=len(sheet)), sheet)
            self.assertEqual(read_sheet(sheet), entries)

    def test_damaged_sheets(self):
        source = seeded("damaged sheets")
        numbers = set()
        for _ in range(2000):
            sheet = bytearray(b"".join(spelled(random_entry(source, 20)) for _ in range(1 + source.randrange(4))))
            sheet[source.randrange(len(sheet))] = source.randrange(256)
            sheet = bytes(sheet[: source.randrange(len(sheet) + 1)])
            try:
                self.assertEqual(write_sheet(read_sheet(sheet)), sheet)
            except Refusal as refusal:
                numbers.add(refusal.number)
                self.assertLessEqual(refusal.offset, len(sheet))
                self.assertEqual(day_list(sheet), f"broken {refusal.offset} {refusal.number}\n")
        self.assertEqual(numbers, {12, 13, 14})


class Rooms(unittest.TestCase):
    def test_the_example(self):
        for kind in (bytes, bytearray, memoryview):
            self.assertEqual(room_of_sheet(kind(FOUR)), Room(jobs=4, arcs=2, steps=22))

    def test_the_empty_sheet(self):
        self.assertEqual(room_of_sheet(b""), Room(0, 0, 0))

    def test_fits(self):
        room = room_of_sheet(FOUR)
        for jobs, arcs, fits in ((4, 2, True), (5, 9, True), (4096, 32768, True), (3, 2, False), (4, 1, False)):
            self.assertIs(room.fits(Sizes(jobs, arcs, 1, 1)), fits)

    def test_an_unreadable_byte_comes_first(self):
        refused = write_sheet([Entry(7), Entry(7)])
        for bytes_, number, offset in ((b"\x01", 12, 11), (b"\x02", 13, 10), (b"\x05\x07\0\0\0\0", 14, 15)):
            with self.assertRaises(Refusal) as caught:
                room_of_sheet(refused + bytes_)
            self.assertEqual((caught.exception.number, caught.exception.offset), (number, offset))
            self.assertIsNone(caught.exception.entry)

    def test_the_greatest(self):
        entries = [Entry(name) for name in range(4097)]
        self.assertEqual(room_of_sheet(write_sheet(entries[1:])), Room(4096, 0, 16384))
        with self.assertRaises(Refusal) as caught:
            room_of_sheet(write_sheet(entries))
        self.assertEqual((caught.exception.number, caught.exception.entry), (8, 4096))

    def test_is_what_the_graph_does(self):
        """A graph of greatest size accepts the sheet, or refuses that entry first; one of the room accepts it too."""
        source = seeded("rooms")
        numbers = set()
        for _ in range(500):
            entries = []
            for name in range(source.randrange(1, 30)):
                earlier = source.sample(range(name), min(name, source.choice([0, 1, 2, 5])))
                entries.append(Entry(name, earlier, source.randrange(16)))
            if source.random() < 0.5:
                entries.insert(source.randrange(len(entries) + 1), random_entry(source, 40))
            sheet = write_sheet(entries)
            answers = Graph(Sizes(4096, 32768, 8, 1)).add_all(0, entries)
            refused = [(place, refusal) for place, refusal in enumerate(answers) if refusal is not None]
            try:
                room = room_of_sheet(sheet)
            except Refusal as found:
                numbers.add(found.number)
                place, refusal = refused[0]
                self.assertEqual((found.entry, found.number, found.place), (place, refusal.number, refusal.place))
                continue
            numbers.add(0)
            self.assertEqual(refused, [])
            self.assertEqual(room[:2], (len(entries), sum(len(entry.prerequisites) for entry in entries)))
            graph = Graph(Sizes(room.jobs, room.arcs, 1, 1))
            self.assertEqual(steps_of_a_full_run(graph, entries), room.steps)
        self.assertEqual(numbers, {0, 5, 6, 7})


def steps_of_a_full_run(graph, entries):
    """All adds, then gets and finishes, step by step."""
    steps = 0

    def to_the_end():
        nonlocal steps
        steps += 1
        while graph.step(0):
            steps += 1

    for entry in entries:
        graph.post_add(0, entry)
        to_the_end()
    while job := graph.get(0):
        steps += 1
        graph.post_finish(0, job.name, Outcome.GOOD)
        to_the_end()
    return steps


class DayList(unittest.TestCase):
    def test_the_example(self):
        self.assertEqual(day_list(FOUR), DAY)
        self.assertEqual(day_list(b""), "jobs 0 workers 2\nleft 0\n")

    def test_refused_broken_and_too_long(self):
        self.assertEqual(day_list(write_sheet([Entry(1, (2,))])), "refused 0 6\njobs 0 workers 2\nleft 0\n")
        self.assertEqual(day_list(b"\x02"), "broken 0 13\n")
        self.assertEqual(day_list(bytes(32769)), "broken 32768 12\n")

    def test_the_longest(self):
        entries = [Entry(2**32 - 1 - place) for place in range(256)]
        sheet = write_sheet(entries + [Entry(place) for place in range(6553 - 256)])
        refused = "".join(f"refused {place} 8\n" for place in range(256, 6553))
        hands = "".join(f"{place} {entry.name} {place % 16}\n" for place, entry in enumerate(entries))
        self.assertEqual(day_list(sheet, workers=16), f"{refused}jobs 256 workers 16\n{hands}left 0\n")

    def test_is_what_the_graph_does(self):
        source = seeded("days")
        for _ in range(200):
            sheet = write_sheet([random_entry(source, 30) for _ in range(source.randrange(60))])
            workers = 1 + source.randrange(16)
            self.assertEqual(day_list(sheet, workers), day_by_calls(sheet, workers))


def day_by_calls(sheet, workers):
    """The day list by the graph's calls."""
    graph = Graph(Sizes(256, 1024, 4, workers))
    refused, handed, entered = [], [], 0
    for place, entry in enumerate(read_sheet(sheet)):
        try:
            graph.add(0, entry)
            entered += 1
        except Refusal as refusal:
            refused.append(f"refused {place} {refusal.number}\n")
    while held := [(job, worker) for worker in range(workers) if (job := graph.get(worker))]:
        for job, worker in held:
            handed.append(f"{len(handed)} {job.name} {worker}\n")
            graph.finish(worker, job.name, Outcome.GOOD)
    left = entered - graph.totals().jobs.finished
    return "".join([*refused, f"jobs {entered} workers {workers}\n", *handed, f"left {left}\n"])


class Measures(unittest.TestCase):
    def test_buckets(self):
        self.assertEqual([bucket(name, 2) for name in range(1, 6)], [2, 0, 3, 1, 0])
        self.assertEqual((bucket(1, 0), bucket(1, 32), bucket(1, 99)), (0, 2654435769, 2654435769))

    def test_minutes(self):
        fixed = [1, 2, 3, 5, 8, 10, 15, 20, 30, 45, 60, 90, 120, 180, 240, 480]
        self.assertEqual([minutes(class_) for class_ in range(16)], fixed)
        self.assertEqual(minutes(16), 0)
