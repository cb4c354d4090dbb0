"""What the tests share: the repository's package and library, a seeded source of random numbers, and sheets."""
from __future__ import annotations

import os
import pathlib
import random
import struct
import sys

TOP = pathlib.Path(__file__).resolve().parents[2]
# the package of this repository, not an installed one
sys.path.insert(0, str(TOP / "python"))
BUILT = TOP / "target/staticlib/libtaskgraph.so"
if BUILT.is_file():
    os.environ.setdefault("TASKGRAPH_LIBRARY", str(BUILT))

from taskgraph import Entry, Graph, Sizes  # noqa: E402

# the sheet of the day list's example: jobs 1, 2, 3, and 4 needing 1 and 2
FOUR = bytes.fromhex("0101000000" "0102000000" "0103000000" "0304000000020100000002000000")
DAY = "jobs 4 workers 2\n0 1 0\n1 2 1\n2 3 0\n3 4 1\nleft 0\n"
SMALL = Sizes(jobs=4, arcs=4, bits=2, workers=2)


def seeded(what: str) -> random.Random:
    """Random numbers by TASKGRAPH_SEED (a number), and the seed printed."""
    seed = int(os.environ.get("TASKGRAPH_SEED", "1993"), 0)
    print(f"{what}: TASKGRAPH_SEED={seed}", flush=True)
    return random.Random(f"{what} {seed}")


def random_entry(source: random.Random, names: int) -> Entry:
    """An entry within the limits of a sheet, whose names are mostly below a number."""
    name = lambda: source.randrange(names) if source.random() < 0.9 else source.randrange(2**32)
    count = source.choice([0, 0, 1, 2, 3, 32])
    return Entry(
        name(), tuple(name() for _ in range(count)),
        source.choice([0, source.randrange(16)]), source.choice([0, source.randrange(65536)]),
    )


def spelled(entry: Entry) -> bytes:
    """An entry's bytes, written from the sheet's rules and not by the library."""
    fields = [
        (bool(entry.prerequisites), bytes([len(entry.prerequisites)]) + struct.pack(
            f"<{len(entry.prerequisites)}I", *entry.prerequisites)),
        (entry.class_ > 0, bytes([entry.class_])),
        (entry.grower > 0, struct.pack("<H", entry.grower)),
    ]
    bits = 1 + sum(2 << place for place, (there, _) in enumerate(fields) if there)
    return struct.pack("<BI", bits, entry.name) + b"".join(data for there, data in fields if there)


def word_place(sizes: Sizes, table: str, word: int) -> int:
    """The byte in a graph's memory at which a word of a table begins."""
    words = Graph.words(sizes)
    return 4 * (sum(words[: words._fields.index(table)]) + word)


def put_word(memory: bytearray, place: int, value: int) -> None:
    struct.pack_into("=I", memory, place, value)
