"""Job sheets, the day list of a sheet, and the two fixed measures."""
from __future__ import annotations

import ctypes
from collections.abc import Iterable
from dataclasses import dataclass
from typing import TYPE_CHECKING, NamedTuple

from ._arguments import octets, word
from ._interface import MAX_NAMES, tg_entry
from ._library import library
from .refusal import Refusal

if TYPE_CHECKING:
    from .graph import Sizes

# The longest entry: map byte, name, count, 32 names, class, grower.
_ENTRY_BYTES = 1 + 4 + 1 + 4 * MAX_NAMES + 1 + 2
_ROW_WORDS = ctypes.sizeof(tg_entry) // 4
# A day list has at most 6,553 lines on refused entries, of 15 bytes, and 256 on jobs, of 18.
_DAY_BYTES = 2**17


@dataclass(frozen=True)
class Entry:
    """A job: its name, the names of its prerequisites, its class and its grower.

    All are 32-bit numbers. Closer limits (32 prerequisites, class 15, grower 65,535) are the library's: it
    refuses an add by 5 and a writing by 14.
    """

    name: int
    prerequisites: tuple[int, ...] = ()
    class_: int = 0
    grower: int = 0

    def __post_init__(self) -> None:
        word(self.name, "the name")
        word(self.class_, "the class")
        word(self.grower, "the grower")
        if isinstance(self.prerequisites, (str, bytes)) or not isinstance(self.prerequisites, Iterable):
            raise TypeError(f"prerequisites must be a tuple of names, not {type(self.prerequisites).__name__}")
        object.__setattr__(self, "prerequisites", tuple(self.prerequisites))
        for name in self.prerequisites:
            word(name, "a prerequisite's name")


def row(entry: object) -> tg_entry:
    """The entry as C has it. A list that is too long keeps its count, by which the library refuses it."""
    if not isinstance(entry, Entry):
        raise TypeError(f"an entry must be an Entry, not {type(entry).__name__}")
    names = (ctypes.c_uint32 * MAX_NAMES)(*entry.prerequisites[:MAX_NAMES])
    return tg_entry(entry.name, len(entry.prerequisites), entry.class_, entry.grower, names)


def rows(entries: Iterable[Entry]) -> tuple[ctypes.Array[tg_entry], int]:
    """The entries as C has them, one after another, and how many words they are."""
    listed = [row(entry) for entry in entries]
    return (tg_entry * len(listed))(*listed), len(listed) * _ROW_WORDS


def read_sheet(sheet: bytes | bytearray | memoryview) -> list[Entry]:
    """The entries of a whole sheet. Refused by 12, 13 or 14 with the offset."""
    data = octets(sheet, "a sheet")
    counted = library().tg_scan_sheet(data, len(data))
    if counted.number:
        raise Refusal(counted.number, offset=counted.at)
    read = (tg_entry * counted.entries)()
    library().tg_read_sheet(data, len(data), read, len(read) * _ROW_WORDS)
    return [Entry(row.name, tuple(row.names[: row.count]), row.class_, row.grower) for row in read]


def write_sheet(entries: Iterable[Entry], most: int | None = None) -> bytes:
    """The sheet of these entries. Refused by 14 with the entry and the offset in it.

    With `most`, a sheet that takes more bytes is refused by 15.
    """
    array, words = rows(entries)
    room = len(array) * _ENTRY_BYTES
    if most is not None:
        room = min(room, word(most, "the most bytes"))
    out = ctypes.create_string_buffer(max(room, 1))
    written = library().tg_write_sheet(array, words, out, room)
    if written.number == 14:
        raise Refusal(14, offset=written.at, entry=written.entry)
    if written.number:
        raise Refusal(written.number)
    return out.raw[: written.at]


class Room(NamedTuple):
    """The jobs and arcs that a sheet needs in a graph, and the steps of a full run.

    A full run has all adds before the first get, and every job handed out and finished. Gets that hand nothing out are
    not counted.
    """

    jobs: int
    arcs: int
    steps: int

    def fits(self, sizes: Sizes) -> bool:
        """Whether a fresh graph of these sizes has the room, and so accepts the whole sheet."""
        return self.jobs <= sizes.jobs and self.arcs <= sizes.arcs


def room_of_sheet(sheet: bytes | bytearray | memoryview) -> Room:
    """The room that a sheet needs, before anything is added: a host judges a sheet by it and then touches its graph.

    Refused by 12, 13 or 14 with the offset, whatever the earlier entries are; else by 5, 6, 7 or 8 with the first entry
    that a fresh graph of greatest size would refuse, for 6 with the place too. It takes some 33 KB of the thread's
    stack.
    """
    data = octets(sheet, "a sheet")
    room = library().tg_room_of_sheet(data, len(data))
    if room.number in (12, 13, 14):
        raise Refusal(room.number, offset=room.at)
    if room.number:
        raise Refusal(room.number, place=room.place if room.number == 6 else None, entry=room.entry)
    return Room(room.jobs, room.arcs, room.steps)


def day_list(sheet: bytes | bytearray | memoryview, workers: int = 2) -> str:
    """What the day list prints of a sheet. Refused by 1 where the workers are not 1 to 16.

    A sheet that cannot be read is no refusal: the list then is the line `broken O N`.
    """
    data = octets(sheet, "a sheet")
    out = ctypes.create_string_buffer(_DAY_BYTES)
    printed = library().tg_day_list(data, len(data), word(workers, "the number of workers"), out, _DAY_BYTES)
    if printed.number:
        raise Refusal(printed.number)
    return out.raw[: printed.bytes].decode("ascii")


def bucket(name: int, bits: int) -> int:
    """The bucket of a name, with so many bucket bits."""
    return int(library().tg_bucket(word(name, "the name"), word(bits, "the bits")))


def minutes(class_: int) -> int:
    """The fixed minutes of a class from 0 to 15; 0 for any other."""
    return int(library().tg_minutes(word(class_, "the class")))
