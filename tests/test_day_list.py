"""The day-list program on sheets, to the letter as docs/RULES.md says, and where a read or a write fails.

test_day_script.py tests the script day-list.
"""
import os
import subprocess

from helper import DAYLIST, Cases, cut_off, run, with_descriptor


def entry(name, needs=(), class_=0, grower=0):
    """An entry of a sheet, as docs/RULES.md's "Job sheets" spells it."""
    word = lambda n: n.to_bytes(4, "little")
    text = word(name)
    bits = 1
    if needs:
        bits |= 2
        text += bytes([len(needs)]) + b"".join(word(n) for n in needs)
    if class_:
        bits |= 4
        text += bytes([class_])
    if grower:
        bits |= 8
        text += grower.to_bytes(2, "little")
    return bytes([bits]) + text


def lines(*text):
    return "".join(line + "\n" for line in text)


def free(count, refused=()):
    """What is printed for so many jobs 0, 1, 2, .. without prerequisites: two are handed out in each round."""
    return lines(*refused, f"jobs {count} workers 2", *hands(count), "left 0")


hands = lambda n: [f"{i} {i} {i % 2}" for i in range(n)]
FOUR = entry(1) + entry(2) + entry(3) + entry(4, [1, 2])
# 35 jobs, of which each has all those before it, at most 32, as prerequisites: 32 * 31 / 2 + 32 + 32 + 32 = 592 arcs
LADDER = b"".join(entry(i, range(max(0, i - 32), i)) for i in range(35))
CHAIN = lines("jobs 35 workers 2", *[f"{i} {i} 0" for i in range(35)], "left 0")
# 32 jobs, then 32 that need all of them: 1,024 arcs, and one more is refused by 8
FULL = b"".join(entry(i) for i in range(32)) + b"".join(entry(32 + i, range(32)) for i in range(32))
# the longest list: 256 jobs with names of 10 digits, then as many refused entries as fit a sheet, each of 5 bytes
NAMES = [4294967295 - i for i in range(256)]
AGAIN = [(NAMES[i % 256], 7) if i % 2 else (i, 8) for i in range(256, 6553)]
LONGEST = b"".join(entry(name) for name in NAMES) + b"".join(entry(name) for name, _ in AGAIN)
LONGEST_LIST = lines(*[f"refused {i} {number}" for i, (_, number) in enumerate(AGAIN, 256)], "jobs 256 workers 2",
                     *[f"{i} {name} {i % 2}" for i, name in enumerate(NAMES)], "left 0")
assert len(LONGEST) == 32765 and len(LONGEST_LIST) == 97979
SHEETS = [
    ("docs/RULES.md's sheet", FOUR, lines("jobs 4 workers 2", "0 1 0", "1 2 1", "2 3 0", "3 4 1", "left 0")),
    ("the empty sheet", b"", lines("jobs 0 workers 2", "left 0")),
    ("an unknown name (6)", entry(1, [2]), lines("refused 0 6", "jobs 0 workers 2", "left 0")),
    ("a name that is there (7)", entry(5) + entry(5), lines("refused 1 7", "jobs 1 workers 2", "0 5 0", "left 0")),
    ("its own name, a name twice (5)", entry(0) + entry(1, [1]) + entry(1, [0, 0]),
     lines("refused 1 5", "refused 2 5", "jobs 1 workers 2", "0 0 0", "left 0")),
    ("names 0 and 4294967295", entry(0) + entry(4294967295, [0], 15, 65535),
     lines("jobs 2 workers 2", "0 0 0", "1 4294967295 0", "left 0")),
    ("a wrong map byte (13)", FOUR + b"\x02", lines("broken 29 13")),
    ("a cut entry (12)", FOUR[:-1], lines("broken 20 12")),
    ("class byte 0 (14)", b"\x05\x01\x00\x00\x00\x00", lines("broken 5 14")),
    ("a broken sheet prints nothing else", entry(1, [2]) + b"\x01", lines("broken 11 12")),
    ("a sheet that is too long", bytes([1, 0, 0, 0, 0]) * 6554, lines("broken 32768 12")),
    ("256 jobs", b"".join(entry(i) for i in range(256)), free(256)),
    ("257 jobs (8)", b"".join(entry(i) for i in range(257)), free(256, ["refused 256 8"])),
    ("a ladder of 592 arcs", LADDER, CHAIN),
    ("long jobs first, equal minutes by entry",
     entry(1) + entry(2, class_=3) + entry(3, class_=15) + entry(4, class_=3),
     lines("jobs 4 workers 2", "0 3 0", "1 2 1", "2 4 0", "3 1 1", "left 0")),
    ("a long job overtakes chores", b"".join(map(entry, range(1, 6))) + entry(9, [1], 15),
     lines("jobs 6 workers 2", "0 1 0", "1 2 1", "2 9 0", "3 3 1", "4 4 0", "5 5 1", "left 0")),
    ("1,024 arcs", FULL, free(64)),
    ("1,024 arcs and one more (8)", FULL + entry(64, [0]), free(64, ["refused 64 8"])),
    ("the longest list", LONGEST, LONGEST_LIST),
]
READ = b"daylist: the sheet cannot be read\n"
WRITE = b"daylist: the list cannot be written\n"


class DayList(Cases):
    needs = (DAYLIST,)

    def test_sheets(self):
        for name, sheet, expected in SHEETS:
            ran = run(DAYLIST, input=sheet, text=False)
            self.same(f"{name}: {sheet[:64].hex()}, {len(sheet)} bytes", ran, (0, expected.encode(), b""))

    def test_failures(self):
        """Nothing of a list is printed, and standard error says so. The program has no exit status of its own."""
        folder = self.folder()
        (folder / "sheet").write_bytes(FOUR)
        good = lambda: self.enterContext(open(folder / "sheet", "rb"))
        full = self.enterContext(open("/dev/full", "wb"))
        none, pipe = subprocess.DEVNULL, subprocess.PIPE
        place = os.open(folder, os.O_RDONLY)
        self.addCleanup(os.close, place)
        # name, command, standard input, standard output, what is said
        for name, command, source, sink, said in [
            ("a folder as standard input", (DAYLIST,), place, pipe, READ),
            ("standard input closed", with_descriptor("<&-", DAYLIST), none, pipe, READ),
            ("a read that fails after a whole sheet", (DAYLIST,), self.enterContext(cut_off(FOUR)), pipe, READ),
            ("a read that fails in a broken sheet", (DAYLIST,), self.enterContext(cut_off(b"\x02")), pipe, READ),
            ("standard output closed", with_descriptor(">&-", DAYLIST), good(), pipe, WRITE),
            ("standard output full", (DAYLIST,), good(), full, WRITE),
        ]:
            ran = run(*command, stdin=source, stdout=sink, text=False)
            self.same(name, ran, (0, b"" if sink == pipe else None, said))
