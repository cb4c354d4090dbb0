"""The graph: single and whole calls, its memory, its lock."""
import gc
import mmap
import pickle
import unittest
from multiprocessing.shared_memory import SharedMemory

from support import SMALL, put_word, random_entry, seeded, word_place
from taskgraph import Call, Entry, Graph, Holding, Job, Outcome, Refusal, Sizes, Words, minutes, totals_by_minutes

# The first job stands behind five words and the minutes of each class.
JOBS_AT = 5 + 16
DISTRICT = (5, 10, 15, 20, 25, 30, 40, 50, 60, 75, 90, 120, 180, 240, 480, 1440)

class Counter:
    """A lock that counts how often it was taken, and that is never taken twice."""

    def __init__(self):
        self.taken = 0
        self.held = False

    def __enter__(self):
        assert not self.held
        self.held = True
        self.taken += 1

    def __exit__(self, *_):
        self.held = False


def steps(graph, worker):
    """Steps the worker's call to its end, and counts."""
    count = 1
    while graph.step(worker):
        count += 1
    return count


class Calls(unittest.TestCase):
    def test_an_add_takes_twice_its_list_and_two_steps(self):
        graph = Graph(SMALL)
        for name, prerequisites in enumerate([(), (0,), (0, 1)]):
            graph.post_add(0, Entry(name, prerequisites))
            self.assertEqual(steps(graph, 0), 2 * len(prerequisites) + 2)

    def test_a_finish_takes_one_step_more_than_it_has_arcs(self):
        graph = Graph(SMALL)
        for entry in (Entry(5), Entry(6, (5,)), Entry(7, (5,))):
            graph.add(0, entry)
        self.assertEqual(graph.get(1), Job(0, 5))
        graph.post_finish(1, 5, Outcome.GOOD)
        self.assertEqual(steps(graph, 1), 3)

    def test_a_job_waits_for_its_prerequisites(self):
        graph = Graph(SMALL)
        graph.add(0, Entry(0))
        graph.add(0, Entry(4294967295, (0,)))
        self.assertEqual(graph.get(0), Job(0, 0))
        self.assertIsNone(graph.get(1))
        graph.finish(0, 0, Outcome.GOOD)
        self.assertEqual(graph.get(1), Job(1, 4294967295))

    def test_two_workers_that_need_each_other(self):
        graph = Graph(SMALL)
        graph.post_add(0, Entry(7, (8,)))
        graph.post_add(1, Entry(8, (7,)))
        for worker in (0, 1):
            with self.assertRaises(Refusal) as caught:
                graph.step(worker)
            self.assertEqual((caught.exception.number, caught.exception.place), (6, 0))

    def test_totals(self):
        graph = Graph(SMALL)
        for name, class_ in enumerate([15, 1, 3, 0]):
            graph.add(0, Entry(name, class_=class_))
        self.assertEqual((graph.get(0), graph.get(1)), (Job(0, 0), Job(2, 2)))
        graph.finish(0, 0, Outcome.GOOD)
        self.assertEqual(graph.totals(), ((2, 1, 1), (3, 5, 480)))
        self.assertEqual(graph.totals().minutes.finished, 480)

    def test_long_jobs_first(self):
        source = seeded("order")
        graph = Graph(Sizes(jobs=200, arcs=0, bits=8, workers=1))
        waiting = []
        for name in range(200):
            class_ = source.randrange(16)
            graph.add(0, Entry(name, class_=class_))
            waiting.append((-class_, name))  # by minutes, which rise with the class, then by entry
            if source.random() < 0.4:
                self.assertEqual(graph.get(0).name, min(waiting)[1])
                graph.finish(0, min(waiting)[1], Outcome.GOOD)
                waiting.remove(min(waiting))
        for _, name in sorted(waiting):
            self.assertEqual(graph.get(0).name, name)
            graph.finish(0, name, Outcome.GOOD)
        self.assertIsNone(graph.get(0))

    def test_held_and_drained(self):
        graph = Graph(SMALL)
        self.assertTrue(graph.drained())
        self.assertEqual(graph.held(0), Holding(None, Call.NONE, None))
        graph.post_add(0, Entry(7))
        self.assertEqual(graph.held(0), Holding(None, Call.ADD, 7))
        self.assertFalse(graph.drained())
        steps(graph, 0)
        self.assertFalse(graph.drained())
        graph.get(1)
        self.assertEqual(graph.held(1), Holding(Job(0, 7), Call.NONE, None))
        self.assertFalse(graph.drained())
        graph.post_finish(1, 7, Outcome.GOOD)
        self.assertEqual(graph.held(1), Holding(Job(0, 7), Call.FINISH, None))
        steps(graph, 1)
        self.assertEqual(graph.held(1), Holding(None, Call.NONE, None))
        self.assertTrue(graph.drained())
        with self.assertRaises(Refusal) as caught:
            graph.held(2)
        self.assertEqual(caught.exception.number, 2)


def numbers(answers):
    """Of each entry's answer the number and the place."""
    return [(refusal.number, refusal.place) if refusal else None for refusal in answers]


class WholeSheets(unittest.TestCase):
    def test_a_refused_entry_does_not_stop_the_next(self):
        graph = Graph(SMALL)
        sheet = [
            Entry(1), Entry(2, class_=16), Entry(2, (1, 9)), Entry(1), Entry(2, (1,)), Entry(3, (1, 2)),
            Entry(4, (1, 2)), Entry(4), Entry(5),
        ]
        answers = [None, (5, None), (6, 1), (7, None), None, None, (8, None), None, (8, None)]
        self.assertEqual(numbers(graph.add_sheet(0, iter(sheet))), answers)
        self.assertEqual(graph.get(0), Job(0, 1))
        self.assertEqual(graph.add_sheet(0, []), [])
        self.assertEqual(numbers(Graph(SMALL).add_all(0, sheet)), answers)

    def test_the_words_are_those_of_single_adds(self):
        source = seeded("sheets")
        sizes = Sizes(jobs=50, arcs=60, bits=3, workers=2)
        whole, single = bytearray(Graph.room(sizes)), bytearray(Graph.room(sizes))
        graph, other = Graph(sizes, whole), Graph(sizes, single)
        for count in [0, 1, 64, 20]:
            graph.lay_out()
            other.lay_out()
            entries = [random_entry(source, 40) for _ in range(count)]
            answers = []
            for entry in entries:
                try:
                    other.post_add(1, entry)
                    steps(other, 1)
                    answers.append(None)
                except Refusal as refusal:
                    answers.append((refusal.number, refusal.place))
            self.assertEqual(numbers(graph.add_sheet(1, entries)), answers)
            self.assertEqual(whole, single)

    def test_more_than_one_call_takes(self):
        graph = Graph(Sizes(jobs=150, arcs=0, bits=8, workers=1))
        with self.assertRaises(Refusal) as caught:
            graph.add_sheet(0, map(Entry, range(65)))
        self.assertEqual(caught.exception.number, 16)
        self.assertEqual(sum(graph.totals().jobs), 0)
        answers = graph.add_all(0, map(Entry, range(151)))
        self.assertEqual(numbers(answers), [None] * 150 + [(8, None)])

    def test_damage_in_the_middle(self):
        sizes = Sizes(jobs=150, arcs=1, bits=8, workers=1)
        memory = bytearray(Graph.room(sizes))
        graph = Graph(sizes, memory)
        graph.lay_out()
        graph.add(0, Entry(1000))
        put_word(memory, word_place(sizes, "jobs", JOBS_AT + 1), 3)  # the label of job 0
        entries = [Entry(0), Entry(1, (1000,)), *map(Entry, range(2, 100))]
        answers = graph.add_all(0, entries)
        self.assertEqual(numbers(answers), [None, (9, None), *[(3, None)] * 98])
        self.assertEqual([answer.stopped for answer in answers[1:3]], [True, False])
        self.assertEqual(str(answers[1]), "refused by 9: damaged words (the call is half done)")
        put_word(memory, word_place(sizes, "jobs", JOBS_AT + 1), 0)
        self.assertEqual(graph.held(0), Holding(None, Call.ADD, 1))
        self.assertEqual(steps(graph, 0), 2)
        self.assertEqual(numbers(graph.add_all(0, entries[2:])), [None] * 98)

    def test_a_finish_whose_arcs_run_in_a_circle(self):
        memory = bytearray(Graph.room(SMALL))
        graph = Graph(SMALL, memory)
        graph.lay_out()
        graph.add_sheet(0, [Entry(1), Entry(2, (1,))])
        graph.get(0)
        put_word(memory, word_place(SMALL, "arcs", 2), 0)  # the next arc of arc 0
        put_word(memory, word_place(SMALL, "jobs", JOBS_AT + 10 + 2), 32)  # the remaining count of job 1
        with self.assertRaises(Refusal) as caught:
            graph.finish(0, 1, Outcome.GOOD)
        self.assertEqual((caught.exception.number, caught.exception.stopped), (9, True))
        self.assertEqual(graph.held(0), Holding(None, Call.FINISH, None))

    def test_damage_before_and_in_the_middle_of_an_add(self):
        memory = bytearray(Graph.room(SMALL))
        graph = Graph(SMALL, memory)
        graph.lay_out()
        graph.add(0, Entry(1))
        place = word_place(SMALL, "arcs", 0)
        put_word(memory, place, SMALL.arcs + 1)  # more arcs reserved than there are
        before = bytes(memory)
        for answer in graph.add_sheet(0, [Entry(2), Entry(3)]):
            self.assertEqual((answer.number, answer.stopped), (9, False))
        with self.assertRaises(Refusal) as caught:
            graph.add(0, Entry(2))
        self.assertEqual((caught.exception.number, caught.exception.stopped), (9, False))
        self.assertEqual(bytes(memory), before)
        put_word(memory, place, 0)
        put_word(memory, word_place(SMALL, "jobs", JOBS_AT + 1), 3)  # the label of job 0
        with self.assertRaises(Refusal) as caught:
            graph.add(0, Entry(2, (1,)))
        self.assertEqual((caught.exception.number, caught.exception.stopped), (9, True))
        self.assertNotEqual(bytes(memory), before)


class Outcomes(unittest.TestCase):
    def test_a_failed_job_spoils_those_that_need_it(self):
        graph = Graph(SMALL)
        graph.add_sheet(0, [Entry(1), Entry(2), Entry(3, (1,)), Entry(4, (3, 2))])
        self.assertEqual(graph.get(0), Job(0, 1))
        graph.finish(0, 1, Outcome.FAILED)
        self.assertEqual(graph.get(0), Job(1, 2, spoiled=False))
        graph.finish(0, 2, Outcome.GOOD)
        self.assertEqual(graph.get(1), Job(2, 3, spoiled=True))
        self.assertEqual(graph.held(1), Holding(Job(2, 3, spoiled=True), Call.NONE, None))
        for call in (graph.finish, graph.post_finish):
            with self.assertRaises(Refusal) as caught:
                call(1, 3, Outcome.GOOD)
            self.assertEqual(caught.exception.number, 19)
        graph.post_finish(1, 3, Outcome.FAILED)
        steps(graph, 1)
        self.assertEqual(graph.get(0), Job(3, 4, spoiled=True))
        graph.finish(0, 4, 2)  # any number but 0
        self.assertEqual(graph.totals().jobs, (0, 0, 4))

    def test_random_chains(self):
        source = seeded("outcomes")
        sizes = Sizes(jobs=60, arcs=240, bits=4, workers=1)
        for _ in range(100):
            graph = Graph(sizes)
            lists, failed, spoiled, done = {}, set(), set(), set()
            while len(done) < sizes.jobs:
                if len(lists) < sizes.jobs and source.random() < 0.6:
                    name = len(lists)
                    lists[name] = source.sample(range(name), min(name, source.randrange(5)))
                    graph.add(0, Entry(name, lists[name], class_=source.randrange(16)))
                    continue
                job = graph.get(0)
                if job is None:
                    continue
                self.assertEqual(job.spoiled, any(name in failed for name in lists[job.name]))
                fails = job.spoiled or source.random() < 0.05
                graph.finish(0, job.name, Outcome.FAILED if fails else Outcome.GOOD)
                done.add(job.name)
                failed |= {job.name} if fails else set()
                spoiled |= {job.name} if job.spoiled else set()
            # a job is spoiled exactly if a chain leads to one that failed without being spoiled
            led = set()
            for name in lists:
                led |= {name} if any(other in led or other in failed - spoiled for other in lists[name]) else set()
            self.assertEqual(spoiled, led)


class Minutes(unittest.TestCase):
    def test_a_district_has_its_own(self):
        graph = Graph(SMALL)
        self.assertEqual(graph.minutes(), tuple(map(minutes, range(16))))
        graph.post_add(1, Entry(9, class_=15))
        graph.load_minutes(range(1, 17))  # the add has not entered
        graph.load_minutes(DISTRICT)
        self.assertEqual(graph.minutes(), DISTRICT)
        steps(graph, 1)
        graph.add_sheet(0, [Entry(1), Entry(2, class_=3)])
        self.assertEqual(graph.get(0), Job(0, 9))
        graph.finish(0, 9, Outcome.GOOD)
        self.assertEqual(graph.get(1), Job(2, 2))
        self.assertEqual(graph.totals(), ((1, 1, 1), (5, 20, 1440)))
        self.assertEqual(totals_by_minutes([(2, 15), (0, 0), (1, 3)], DISTRICT), graph.totals())
        graph.lay_out()
        self.assertEqual(graph.minutes(), tuple(map(minutes, range(16))))

    def test_a_refused_load_changes_nothing(self):
        memory = bytearray(Graph.room(SMALL))
        graph = Graph(SMALL, memory)
        graph.lay_out()
        for entries in ([], [Entry(1)]):
            graph.add_all(0, entries)
            before = bytes(memory)
            for wrong in ((), DISTRICT[1:], (*DISTRICT, 1441), (0, *DISTRICT[1:]), (10, *DISTRICT[1:])):
                with self.subTest(wrong), self.assertRaises(Refusal) as caught:
                    graph.load_minutes(wrong)
                self.assertEqual((caught.exception.number, bytes(memory)), (17, before))
        with self.assertRaises(Refusal) as caught:
            graph.load_minutes(DISTRICT)
        self.assertEqual((caught.exception.number, bytes(memory)), (18, before))

    def test_random_minutes(self):
        source = seeded("minutes")
        for _ in range(300):
            district = sorted(source.sample(range(1, 1441), 16))
            records = [(source.randrange(3), source.randrange(16)) for _ in range(source.randrange(40))]
            totals = totals_by_minutes(records, district)
            for label in range(3):
                found = [district[class_] for of_job, class_ in records if of_job == label]
                self.assertEqual((totals.jobs[label], totals.minutes[label]), (len(found), sum(found)))
            place = source.randrange(15)
            district[place] = district[place + 1]
            with self.assertRaises(Refusal) as caught:
                totals_by_minutes(records, district)
            self.assertEqual(caught.exception.number, 17)


class Memory(unittest.TestCase):
    def test_room(self):
        self.assertEqual(Graph.words(SMALL), Words(JOBS_AT + 10 * 4, 1 + 2 * 4, 4, 2 + 3 * 4, 43 * 2))
        self.assertEqual(Graph.room(SMALL), 4 * sum(Graph.words(SMALL)))

    def each(self):
        """Memory of each kind, longer than needed and filled, with what closes it."""
        room = Graph.room(SMALL) + 5
        shared = SharedMemory(create=True, size=room)
        self.addCleanup(shared.unlink)
        mapping = mmap.mmap(-1, room)
        yield bytearray(room), lambda: None
        yield mapping, mapping.close
        yield shared.buf, shared.close

    def test_every_kind(self):
        room = Graph.room(SMALL)
        for memory, close in self.each():
            with self.subTest(type(memory).__name__):
                memory[:] = b"\xaa" * len(memory)
                with Graph(SMALL, memory) as graph, Graph(SMALL, memory) as other:
                    graph.lay_out()
                    graph.add(0, Entry(5))
                    self.assertEqual(other.get(1), Job(0, 5))
                self.assertEqual(bytes(memory[room:]), b"\xaa" * (len(memory) - room))
                close()  # a BufferError where the graph had not let go

    def test_laying_out_starts_anew(self):
        graph = Graph(SMALL)
        graph.add(0, Entry(5))
        graph.lay_out()
        self.assertIsNone(graph.get(0))
        self.assertEqual(sum(graph.totals().jobs), 0)

    def test_wrong_memory(self):
        room = Graph.room(SMALL)
        for memory, kind, text in [
            (bytearray(room - 1), ValueError, f"must have {room} bytes, not {room - 1}"),
            (bytes(room), ValueError, "writable"),
            (memoryview(bytearray(2 * room))[::2], ValueError, "in one piece"),
            (memoryview(bytearray(room + 1))[1:], ValueError, "4 divides"),
            ("memory", TypeError, "must be a bytearray"),
            (5, TypeError, "must be a bytearray"),
        ]:
            with self.subTest(text), self.assertRaisesRegex(kind, text):
                Graph(SMALL, memory)

    def test_refused_memory_is_let_go(self):
        memory = bytearray(3)
        self.assertRaises(ValueError, Graph, SMALL, memory)
        gc.collect()
        memory += b"x"  # a BufferError where it is still lent

    def test_closed(self):
        graph = Graph(SMALL)
        graph.close()
        graph.close()
        for call in (graph.lay_out, graph.totals, lambda: graph.get(0), lambda: graph.add(0, Entry(1))):
            self.assertRaisesRegex(ValueError, "closed", call)

    def test_is_not_pickled(self):
        self.assertRaisesRegex(TypeError, "not sent to a process", pickle.dumps, Graph(SMALL))


class Locking(unittest.TestCase):
    def test_held_during_each_single_call(self):
        lock = Counter()
        graph = Graph(SMALL, lock=lock)
        self.assertEqual(lock.taken, 1)
        graph.post_add(0, Entry(1))
        steps(graph, 0)  # 2 steps
        self.assertEqual(lock.taken, 4)
        graph.add(0, Entry(2, (1,)))
        graph.get(1)
        graph.totals()
        graph.finish(1, 1, Outcome.GOOD)
        self.assertEqual(lock.taken, 8)
        graph.add_sheet(0, [Entry(3), Entry(4)])
        self.assertEqual(lock.taken, 9)
        graph.add_all(0, [Entry(3)] * 65)
        self.assertEqual(lock.taken, 11)
        self.assertRaises(Refusal, graph.load_minutes, DISTRICT)
        graph.minutes()
        self.assertEqual((lock.taken, lock.held), (13, False))

    def test_free_after_a_refusal(self):
        lock = Counter()
        graph = Graph(SMALL, lock=lock)
        self.assertRaises(Refusal, graph.step, 0)
        self.assertEqual((lock.taken, lock.held), (2, False))

    def test_no_lock(self):
        with self.assertRaisesRegex(TypeError, "usable by `with`"):
            Graph(SMALL, lock=5)


class GreatestSizes(unittest.TestCase):
    def test_a_full_graph(self):
        graph = Graph(Sizes(4096, 32768, 8, 16))
        for name in range(4096):
            graph.add(name % 16, Entry(name, (name - 1,) if name else ()))
        with self.assertRaises(Refusal) as caught:
            graph.add(0, Entry(4096))
        self.assertEqual(caught.exception.number, 8)
        for name in range(4096):
            self.assertEqual(graph.get(15), Job(name, name))
            graph.finish(15, name, Outcome.GOOD)
        self.assertEqual(graph.totals().jobs, (0, 0, 4096))
