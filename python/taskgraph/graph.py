"""The task graph: five tables in memory of one's own, or in memory that processes share."""
from __future__ import annotations

import ctypes
import enum
import mmap
from collections.abc import Callable, Iterable
from contextlib import AbstractContextManager, nullcontext
from dataclasses import astuple, dataclass
from typing import Any, NamedTuple, NoReturn

from ._arguments import word
from ._interface import GOING_ON, HANDED_OUT, MAX_ENTRIES, REFUSED, STOPPED, tg_sizes
from ._library import library
from .board import Totals, told, values
from .refusal import Refusal
from .sheets import Entry, row, rows


@dataclass(frozen=True)
class Sizes:
    """How much a graph holds. The library refuses by 1 what is off these limits."""

    jobs: int  # 1 to 4,096
    arcs: int  # 0 to 32,768
    bits: int  # bucket bits, 1 to 8
    workers: int  # 1 to 16

    def __post_init__(self) -> None:
        for name, value in vars(self).items():
            word(value, f"the size {name}")


class Words(NamedTuple):
    """The 32-bit words that each table needs."""

    jobs: int
    arcs: int
    buckets: int
    queue: int
    workers: int


class Job(NamedTuple):
    """A job that was handed out: its number in the order of entry, its name, and whether a prerequisite of it failed.

    A spoiled job may only end as failed.
    """

    number: int
    name: int
    spoiled: bool = False


class Outcome(enum.IntEnum):
    """How a job ends, which its finish brings."""

    GOOD = 0
    FAILED = 1


class Call(enum.IntEnum):
    """The call that a worker has half done."""

    NONE = 0
    ADD = 1
    FINISH = 2


class Holding(NamedTuple):
    """The job that a worker holds, or None; the call that it has half done; of an add half done the name, or None."""

    job: Job | None
    call: Call
    adds: int | None


class Graph:
    """A task graph over lent memory, whose first `Graph.room(sizes)` bytes hold the tables.

    memory  a bytearray, an mmap or the buffer of a SharedMemory; one process calls `lay_out` before the others
            use it. Without it the graph has memory of its own, and is laid out.
    lock    held during each call (a post, a step, a get, an add or a finish run whole, a sheet, ..), and free between
            two calls. Graphs that several processes or threads use need one, the same for all of them.

    Each call may raise a Refusal. A worker number belongs to one process at a time.
    """

    def __init__(
        self,
        sizes: Sizes,
        memory: bytearray | memoryview | mmap.mmap | None = None,
        lock: AbstractContextManager[Any] | None = None,
    ) -> None:
        if lock is not None and not (hasattr(lock, "__enter__") and hasattr(lock, "__exit__")):
            raise TypeError(f"a lock must be usable by `with`, unlike {type(lock).__name__}")
        needed = self.words(sizes)
        self.sizes = sizes
        self._library = library()
        self._sizes = tg_sizes(*astuple(sizes))
        self._lock: AbstractContextManager[Any] = nullcontext() if lock is None else lock
        self._tables: list[Any] | None = _tables(needed, bytearray(4 * sum(needed)) if memory is None else memory)
        if memory is None:
            self.lay_out()

    @staticmethod
    def words(sizes: Sizes) -> Words:
        """The words that each table needs. Refused by 1 where a size is out of range."""
        if not isinstance(sizes, Sizes):
            raise TypeError(f"sizes must be Sizes, not {type(sizes).__name__}")
        need = library().tg_words_needed(tg_sizes(*astuple(sizes)))
        if need.number:
            raise Refusal(need.number)
        return Words(need.jobs, need.arcs, need.buckets, need.queue, need.workers)

    @staticmethod
    def room(sizes: Sizes) -> int:
        """The bytes that the memory of a graph must have."""
        return 4 * sum(Graph.words(sizes))

    # ---- single calls

    def lay_out(self) -> None:
        """Starts a new graph in the memory, with the fixed minutes; an old one is forgotten."""
        self._answer("tg_lay_out")

    def load_minutes(self, minutes: Iterable[int]) -> None:
        """Loads a district's minutes in place of the fixed ones, before the first job enters.

        There is one for each class, 0 to 15; they rise strictly, each from 1 to 1,440. Hand-outs and totals follow them
        until the graph is laid out anew. Refused by 1, 17 for minutes that are not so, 9, or 18 where a job has entered.
        """
        self._answer("tg_load_minutes", *values(minutes))

    def minutes(self) -> tuple[int, ...]:
        """The minutes of each class that stand in the graph. Refused by 1 or 9."""
        answer = self._called("tg_minutes_of_graph", tables=2)
        if answer.number:
            raise Refusal(answer.number)
        return tuple(answer.minutes)

    def post_add(self, worker: int, entry: Entry) -> None:
        """Posts an add, which `step` then carries out. Refused by 1, 2, 9, 3 or 5."""
        self._answer("tg_post_add", _worker(worker), row(entry))

    def post_finish(self, worker: int, name: int, outcome: Outcome) -> None:
        """Posts the finish of the held job, which `step` then carries out. Refused as `finish`."""
        self._answer("tg_post_finish", _worker(worker), word(name, "the name"), word(outcome, "the outcome"))

    def step(self, worker: int) -> bool:
        """One step of the worker's call: whether it goes on. Refused by 1, 2, 9, 4, 6, 7 or 8."""
        return bool(self._answer("tg_step", _worker(worker)).kind == GOING_ON)

    def get(self, worker: int) -> Job | None:
        """Takes the waiting job with the most minutes, of equal minutes the one that has waited longest, or None.

        A spoiled job is taken like the others, and told. Refused by 1, 2, 9, 3 or 10.
        """
        answer = self._answer("tg_get", _worker(worker))
        return Job(answer.job, answer.name, bool(answer.spoiled)) if answer.kind == HANDED_OUT else None

    def held(self, worker: int) -> Holding:
        """What a worker holds, for a process that takes its number over. Refused by 1, 2 or 9."""
        holding = self._read("tg_held", _worker(worker))
        job = Job(holding.job, holding.name, bool(holding.spoiled)) if holding.holds else None
        return Holding(job, Call(holding.call), holding.adds if holding.call == Call.ADD else None)

    def drained(self) -> bool:
        """Whether no job waits, none is held and no call is half done. Refused by 1 or 9."""
        return bool(self._read("tg_drained").drained)

    def totals(self) -> Totals:
        """The board of totals over the jobs made, by the minutes that stand in the graph. Refused by 1 or 9."""
        return told(self._called("tg_totals_of_graph", tables=2))

    # ---- whole calls

    def add(self, worker: int, entry: Entry) -> None:
        """An add from its post to its end, in one call. Refused by 1, 2, 9, 3, 5, 6, 7 or 8.

        A Refusal by 9 that is `stopped` left the call half done, as with `finish`.
        """
        self._answer("tg_add", _worker(worker), row(entry))

    def finish(self, worker: int, name: int, outcome: Outcome) -> None:
        """The finish of the held job from its post to its end, in one call.

        A job that ends as failed spoils those that need it. Refused by 1, 2, 9, 3, 11, or 19 for GOOD where the job is
        spoiled; any number but GOOD counts as FAILED.
        """
        answer = self._answer("tg_finish", _worker(worker), word(name, "the name"), word(outcome, "the outcome"))
        # only in damaged tables does a list of arcs run in a circle; the steps come to its end
        goes_on = answer.kind == GOING_ON
        while goes_on:
            try:
                goes_on = self.step(worker)
            except Refusal as refusal:
                # a 9 there is one in the middle of this call
                raise Refusal(refusal.number, stopped=refusal.number == 9) from None

    def add_sheet(self, worker: int, entries: Iterable[Entry]) -> list[Refusal | None]:
        """Adds at most 64 entries in one call, each as `add` does, in order; a refused one does not stop the next.

        Answers for each entry None, or the refusal of its add. After one that is `stopped` each has 3. Before any entry,
        refused by 1, 2, 9, 3 or 16.
        """
        return self._added(_worker(worker), list(entries))

    def add_all(self, worker: int, entries: Iterable[Entry]) -> list[Refusal | None]:
        """Adds any number of entries, 64 in one call, with the lock free between two calls. Refused as the first call.

        After damage in the middle of a call the next ones are turned away: each of their entries has that refusal.
        """
        number, listed = _worker(worker), list(entries)
        answers = self._added(number, listed[:MAX_ENTRIES])
        for start in range(MAX_ENTRIES, len(listed), MAX_ENTRIES):
            part = listed[start : start + MAX_ENTRIES]
            try:
                answers += self._added(number, part)
            except Refusal as refusal:
                answers += [refusal] * len(part)
        return answers

    # ---- the memory

    def close(self) -> None:
        """Lets the memory go, so that an mmap or a SharedMemory can be closed."""
        self._tables = None

    def __enter__(self) -> Graph:
        return self

    def __exit__(self, *_: object) -> None:
        self.close()

    def __reduce__(self) -> NoReturn:
        raise TypeError("a Graph is not sent to a process: send the sizes, the memory's name and the lock")

    # ---- calls of the library

    def _called(self, name: str, *more: object, tables: int | None = None) -> Any:
        """One call under the lock, over the tables or the first of their arguments."""
        if self._tables is None:
            raise ValueError("the graph is closed")
        function: Callable[..., Any] = getattr(self._library, name)
        with self._lock:
            return function(self._sizes, *self._tables[:tables], *more)

    def _answer(self, name: str, *more: object) -> Any:
        answer = self._called(name, *more)
        if answer.kind == STOPPED:
            raise Refusal(answer.number, stopped=True)
        if answer.kind == REFUSED:
            raise _refused(answer.number, answer.place)
        return answer

    def _added(self, worker: int, entries: list[Entry]) -> list[Refusal | None]:
        """One call of tg_add_sheet: for each entry its refusal, or None."""
        added = self._called("tg_add_sheet", worker, *rows(entries))
        if added.number:
            raise Refusal(added.number)
        answers = [_refusal(number, place) for number, place, _ in zip(added.numbers, added.places, entries)]
        if added.stopped:
            answers[added.stopped - 1] = Refusal(added.numbers[added.stopped - 1], stopped=True)
        return answers

    def _read(self, name: str, *more: object) -> Any:
        """One call of a function that changes no word."""
        answer = self._called(name, *more)
        if answer.number:
            raise Refusal(answer.number)
        return answer


def _refused(number: int, place: int) -> Refusal:
    return Refusal(number, place=place if number == 6 else None)


def _refusal(number: int, place: int) -> Refusal | None:
    """What an entry of a sheet is answered."""
    return _refused(number, place) if number else None


def _worker(number: object) -> int:
    return word(number, "the worker's number")


def _tables(needed: Words, memory: bytearray | memoryview | mmap.mmap) -> list[Any]:
    """The five tables in the memory, one after another, as C takes them: each a pointer and a count."""
    try:
        view = memoryview(memory)
    except TypeError:
        kind = type(memory).__name__
        raise TypeError(f"memory must be a bytearray, an mmap or a shared memory's buffer, not {kind}") from None
    with view:
        if view.readonly or not view.c_contiguous:
            raise ValueError("memory must be writable and in one piece")
        if view.nbytes < 4 * sum(needed):
            raise ValueError(f"memory must have {4 * sum(needed)} bytes, not {view.nbytes}")
    tables: list[Any] = []
    at = 0
    for words in needed:
        table = (ctypes.c_uint32 * words).from_buffer(memory, at)
        if ctypes.addressof(table) % 4:
            raise ValueError("memory must start at an address that 4 divides")
        tables += [table, words]
        at += 4 * words
    return tables
