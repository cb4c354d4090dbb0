"""The C interface as ctypes has it: structs and functions of include/taskgraph.h, under its names.

python/tests/test_interface.py holds both to the header.
"""
from __future__ import annotations

import ctypes as c
from typing import Any

MAX_NAMES = 32
MAX_ENTRIES = 64
CLASSES = 16
REFUSED, GOING_ON, HANDED_OUT, STOPPED = 0, 3, 6, 8


def _words(*names: str) -> list[tuple[str, Any]]:
    return [(name, c.c_uint32) for name in names]


def _lengths(*names: str) -> list[tuple[str, Any]]:
    return [(name, c.c_size_t) for name in names]


class tg_entry(c.Structure):
    _fields_ = _words("name", "count", "class_", "grower") + [("names", c.c_uint32 * MAX_NAMES)]


class tg_sheet(c.Structure):
    _fields_ = _words("number") + _lengths("entries", "at")


class tg_sheet_written(c.Structure):
    _fields_ = _words("number") + _lengths("entry", "at")


class tg_room(c.Structure):
    _fields_ = _words("number", "entry", "place", "jobs", "arcs", "steps") + _lengths("at")


class tg_job_record(c.Structure):
    _fields_ = _words("label", "class_")


class tg_totals(c.Structure):
    _fields_ = _words("number") + [("jobs", c.c_uint32 * 3), ("minutes", c.c_uint32 * 3)]


class tg_sizes(c.Structure):
    _fields_ = _words("jobs", "arcs", "bits", "workers")


class tg_answer(c.Structure):
    _fields_ = _words("kind", "number", "place", "job", "name", "spoiled")


class tg_graph_minutes(c.Structure):
    _fields_ = _words("number") + [("minutes", c.c_uint32 * CLASSES)]


class tg_sheet_added(c.Structure):
    _fields_ = [
        *_words("number"),
        ("numbers", c.c_uint32 * MAX_ENTRIES),
        ("places", c.c_uint32 * MAX_ENTRIES),
        *_words("stopped"),
    ]


class tg_need(c.Structure):
    _fields_ = _words("number") + _lengths("jobs", "arcs", "buckets", "queue", "workers")


class tg_holding(c.Structure):
    _fields_ = _words("number", "holds", "job", "name", "call", "adds", "spoiled")


class tg_drained_answer(c.Structure):
    _fields_ = _words("number", "drained")


class tg_day(c.Structure):
    _fields_ = _words("number") + _lengths("bytes")


# A slice is a pointer and a count. Rows of entries are passed as the entries that they are laid out as.
_BYTES = [c.c_char_p, c.c_size_t]
_WORDS = [c.POINTER(c.c_uint32), c.c_size_t]
_ROWS = [c.POINTER(tg_entry), c.c_size_t]
_RECORDS = [c.POINTER(tg_job_record), c.c_size_t]
_GRAPH = [tg_sizes, *_WORDS * 5]

# What each function answers and takes.
FUNCTIONS: dict[str, tuple[Any, list[Any]]] = {
    "tg_scan_sheet": (tg_sheet, [*_BYTES]),
    "tg_read_sheet": (tg_sheet, [*_BYTES, *_ROWS]),
    "tg_write_sheet": (tg_sheet_written, [*_ROWS, *_BYTES]),
    "tg_room_of_sheet": (tg_room, [*_BYTES]),
    "tg_bucket": (c.c_uint32, [c.c_uint32, c.c_uint32]),
    "tg_minutes": (c.c_uint32, [c.c_uint32]),
    "tg_totals_by_minutes": (tg_totals, [*_RECORDS, *_WORDS]),
    "tg_words_needed": (tg_need, [tg_sizes]),
    "tg_lay_out": (tg_answer, [*_GRAPH]),
    "tg_load_minutes": (tg_answer, [*_GRAPH, *_WORDS]),
    "tg_post_add": (tg_answer, [*_GRAPH, c.c_uint32, tg_entry]),
    "tg_post_finish": (tg_answer, [*_GRAPH, c.c_uint32, c.c_uint32, c.c_uint32]),
    "tg_step": (tg_answer, [*_GRAPH, c.c_uint32]),
    "tg_get": (tg_answer, [*_GRAPH, c.c_uint32]),
    "tg_add": (tg_answer, [*_GRAPH, c.c_uint32, tg_entry]),
    "tg_finish": (tg_answer, [*_GRAPH, c.c_uint32, c.c_uint32, c.c_uint32]),
    "tg_add_sheet": (tg_sheet_added, [*_GRAPH, c.c_uint32, *_ROWS]),
    "tg_held": (tg_holding, [*_GRAPH, c.c_uint32]),
    "tg_drained": (tg_drained_answer, [*_GRAPH]),
    "tg_totals_of_graph": (tg_totals, [tg_sizes, *_WORDS]),
    "tg_minutes_of_graph": (tg_graph_minutes, [tg_sizes, *_WORDS]),
    "tg_day_list": (tg_day, [*_BYTES, c.c_uint32, *_BYTES]),
}
# Functions that a library may lack.
OPTIONAL: dict[str, tuple[Any, list[Any]]] = {
    "tg_message": (c.c_char_p, [c.c_uint32]),
}


def bind(library: c.CDLL) -> str | None:
    """Gives the library's functions their types. Answers a function that it lacks, if there is one."""
    for name, (answer, arguments) in {**FUNCTIONS, **OPTIONAL}.items():
        try:
            function = getattr(library, name)
        except AttributeError:
            if name in OPTIONAL:
                continue
            return name
        function.restype, function.argtypes = answer, arguments
    return None
