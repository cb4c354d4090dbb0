"""The board of totals: jobs and minutes under each label."""
from __future__ import annotations

import ctypes
from collections.abc import Iterable
from typing import Any, NamedTuple

from ._arguments import word, words
from ._interface import tg_job_record
from ._library import library
from .refusal import Refusal


class Labels(NamedTuple):
    """A figure for each label."""

    unexecuted: int
    executing: int
    finished: int


class Totals(NamedTuple):
    """The number of jobs under each label, and the sums of their minutes."""

    jobs: Labels
    minutes: Labels


def told(totals: Any) -> Totals:
    """The totals as C answers them, or the refusal."""
    if totals.number:
        raise Refusal(totals.number)
    return Totals(Labels(*totals.jobs), Labels(*totals.minutes))


def values(minutes: Iterable[int]) -> tuple[Any, int]:
    """Minute values as C takes them, and how many they are."""
    listed = words(minutes, "a minute value")
    return (ctypes.c_uint32 * len(listed))(*listed), len(listed)


def totals_by_minutes(records: Iterable[tuple[int, int]], minutes: Iterable[int]) -> Totals:
    """The totals of records, each a label (0 unexecuted, 1 executing, 2 finished) and a class, by a district's minutes.

    The minutes are as `Graph.load_minutes` takes them. Refused by 1 for more than 4,096 records, by 17 for wrong
    minutes, or by 9 for a wrong label or class.
    """
    rows = [tg_job_record(word(label, "a label"), word(class_, "a class")) for label, class_ in records]
    array = (tg_job_record * len(rows))(*rows)
    return told(library().tg_totals_by_minutes(array, len(rows), *values(minutes)))
