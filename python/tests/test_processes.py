"""Worker processes over one graph: two in shared memory under one lock, and one that is killed."""
import fcntl
import mmap
import multiprocessing
import os
import signal
import subprocess
import sys
import tempfile
import unittest
from concurrent.futures import ProcessPoolExecutor
from multiprocessing.shared_memory import SharedMemory

from support import SMALL, TOP, seeded
from taskgraph import Entry, Graph, Job, Outcome, Refusal, Sizes

SIZES = Sizes(jobs=500, arcs=1500, bits=4, workers=2)
BASE, COMMON, FAILING = range(50), range(5000, 5050), (7, 1020, 2100, 5001)


def set_up(*given):
    """What a process has from its parent: these do not go through a task's arguments."""
    global NAME, LOCK, START, COUNTER
    NAME, LOCK, START, COUNTER = given


def moment():
    """A number greater than all those given before, in any process."""
    with COUNTER.get_lock():
        COUNTER.value += 1
        return COUNTER.value


def added(graph, worker, entry):
    try:
        graph.add(worker, entry)
        return True
    except Refusal as refusal:
        if refusal.number != 7:
            raise
        return False


def work(worker, entries):
    """Adds entries, then takes jobs until all that entered are finished. A job of FAILING fails, and so does a spoiled one.

    Answers the entries that entered, and of each job its name, a moment after it was handed out, one before its finish,
    and whether it was told to be spoiled.
    """
    memory = SharedMemory(NAME)
    try:
        with Graph(SIZES, memory.buf, LOCK) as graph:
            START.wait()
            entered = [entry for entry in entries if added(graph, worker, entry)]
            done = []
            while sum(graph.totals().jobs[:2]):
                job = graph.get(worker)
                if job is not None:
                    done.append((job.name, moment(), moment(), job.spoiled))
                    fails = job.spoiled or job.name in FAILING
                    graph.finish(worker, job.name, Outcome.FAILED if fails else Outcome.GOOD)
            return entered, done
    finally:
        memory.close()


def sheet(source, worker):
    """Names of the worker's own, which need those before them, and names that both workers add."""
    own = range(1000 * (worker + 1), 1000 * (worker + 1) + 150)
    known = list(BASE)
    entries = []
    for name in own:
        entries.append(Entry(name, tuple(source.sample(known, source.randrange(4)))))
        known.append(name)
    entries += [Entry(name, tuple(source.sample(BASE, 2))) for name in COMMON]
    return own, entries


class TwoProcesses(unittest.TestCase):
    def run_both(self, sheets):
        """The reports of two processes that work on the sheets, and the totals afterwards."""
        context = multiprocessing.get_context("spawn")
        lock, start, counter = context.Lock(), context.Barrier(2), context.Value("Q")
        memory = SharedMemory(create=True, size=Graph.room(SIZES))
        self.addCleanup(memory.unlink)
        self.addCleanup(memory.close)
        with Graph(SIZES, memory.buf, lock) as graph:
            graph.lay_out()
            for name in BASE:
                graph.add(0, Entry(name))
            with ProcessPoolExecutor(2, context, set_up, (memory.name, lock, start, counter)) as pool:
                tasks = [pool.submit(work, worker, entries) for worker, entries in enumerate(sheets)]
                return [task.result() for task in tasks], graph.totals()

    def test_each_job_is_worked_once_and_after_its_prerequisites(self):
        source = seeded("two processes")
        names, sheets = zip(*(sheet(source, worker) for worker in range(2)))
        reports, totals = self.run_both(sheets)
        entered = [entry for entries, _ in reports for entry in entries]
        done = [row for _, rows in reports for row in rows]
        expected = sorted([*names[0], *names[1], *COMMON])
        self.assertEqual(sorted(entry.name for entry in entered), expected)
        self.assertEqual(sorted(name for name, *_ in done), sorted([*BASE, *expected]))
        self.assertEqual(totals.jobs, (0, 0, len(done)))
        handed = {name: after for name, after, *_ in done}
        finish = {name: before for name, _, before, _ in done}
        spoiled = {name for name, *_, told in done if told}
        for entry in entered:
            for name in entry.prerequisites:
                self.assertLess(finish[name], handed[entry.name])
            failed = any(name in FAILING or name in spoiled for name in entry.prerequisites)
            self.assertEqual(entry.name in spoiled, failed)
        self.assertTrue(spoiled and len(spoiled) < len(done))


class FileLock:
    """A lock that the system frees when its owner dies."""

    def __init__(self, file):
        self.file = file

    def __enter__(self):
        fcntl.flock(self.file, fcntl.LOCK_EX)

    def __exit__(self, *_):
        fcntl.flock(self.file, fcntl.LOCK_UN)


def mapped(file):
    """The graph in a file."""
    return Graph(SMALL, mmap.mmap(file.fileno(), 0), FileLock(file))


def die_in_a_finish(path):
    """Takes a job as worker 1, marks it finished, and is killed before its dependents are told."""
    graph = mapped(open(path, "r+b"))
    graph.post_finish(1, graph.get(1).name, Outcome.FAILED)
    graph.step(1)
    os.kill(os.getpid(), signal.SIGKILL)


class KilledProcess(unittest.TestCase):
    def test_its_call_is_stepped_to_the_end(self):
        file = tempfile.NamedTemporaryFile()
        self.addCleanup(file.close)
        file.truncate(Graph.room(SMALL))
        graph = mapped(file)
        graph.lay_out()
        graph.add(0, Entry(5))
        graph.add(0, Entry(6, (5,)))
        program = "import sys, test_processes; test_processes.die_in_a_finish(sys.argv[1])"
        environment = {**os.environ, "PYTHONPATH": str(TOP / "python/tests")}
        killed = subprocess.run([sys.executable, "-c", program, file.name], env=environment)
        self.assertEqual(killed.returncode, -signal.SIGKILL)
        self.assertIsNone(graph.get(0))
        self.assertFalse(graph.step(1))
        self.assertEqual(graph.get(0), Job(1, 6, spoiled=True))
        self.assertEqual(graph.totals().jobs, (0, 1, 1))
