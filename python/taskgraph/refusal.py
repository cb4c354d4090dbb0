"""Calls that were turned away, and what each number says."""
from __future__ import annotations

from ._arguments import word
from ._library import loaded

# The library's own texts, for where it has no tg_message or was not loaded.
MESSAGES = {
    1: "a size out of range or not the one laid out, or a table too short",
    2: "no such worker",
    3: "the worker's call is half done",
    4: "the worker has no call to step",
    5: "wrong class, grower or list",
    6: "a listed name has no job",
    7: "the name has a job already",
    8: "no room for the job or its arcs",
    9: "damaged words",
    10: "the worker holds a job",
    11: "the worker holds no job of that name",
    12: "the sheet ends inside an entry",
    13: "wrong map byte",
    14: "a field's value is out of range",
    15: "the output lacks room",
    16: "more entries than one call takes",
    17: "minutes that do not rise or are out of range",
    18: "a job has entered",
    19: "a job that rests on a failed one cannot end as good",
}


def message(number: int) -> str:
    """What a refusal's number says: the library's text, where it has one."""
    word(number, "the number")
    library = loaded()
    if library is not None and hasattr(library, "tg_message"):
        text: bytes = library.tg_message(number)
        return text.decode()
    return MESSAGES.get(number, "unknown number")


class Refusal(Exception):
    """A call that the library turned away.

    number   1 to 19
    message  what the number says
    place    for 6, the place in the list of prerequisites, from 0
    offset   for 12, 13 and 14, the field's byte: from the sheet's start on reading, from the entry's on writing
    entry    for 14 on writing, and for 5 to 8 of `room_of_sheet`, which entry, from 0
    stopped  for 9, whether damaged words stopped a call run whole half done: the tables have changed. After any other
             9 they have not.
    """

    def __init__(
        self,
        number: int,
        place: int | None = None,
        offset: int | None = None,
        entry: int | None = None,
        stopped: bool = False,
    ) -> None:
        super().__init__(number, place, offset, entry, stopped)
        self.number = number
        self.place = place
        self.offset = offset
        self.entry = entry
        self.stopped = stopped
        self.message = message(number)

    def __str__(self) -> str:
        where = [("entry", self.entry), ("place", self.place), ("offset", self.offset)]
        known = ", ".join(f"{what} {value}" for what, value in where if value is not None)
        known = "the call is half done" if self.stopped else known
        return f"refused by {self.number}: {self.message}" + (f" ({known})" if known else "")
