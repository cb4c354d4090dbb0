"""The examples in C, Rust and Python print the day list of docs/RULES.md, and so does scripts/day-list. A sheet that
the hosts could not add whole they refuse, and say why, before they touch a graph.
"""
from helper import ANY, SHARED, TOP, Cases, Start, compiled, hosts, run

DAY = (TOP / "crates/daylist/stdout").read_text()
FOUR, LONG = (TOP / f"examples/{name}.sheet" for name in ("four-jobs", "long-job"))
LONG_LIST = (TOP / "examples/long-job.list").read_text()


def entry(name, *needs):
    """The bytes of an entry without class and grower."""
    words = b"".join(word.to_bytes(4, "little") for word in (name, *needs))
    return b"\1" + words if not needs else b"\3" + words[:4] + bytes([len(needs)]) + words[4:]


# Sheets for hosts with room for 256 jobs and 1,024 arcs, and what is said of each.
REFUSED = [
    (entry(1)[:4], "the sheet ends inside an entry (byte 1)"),
    (entry(7, 7) + b"\2", "wrong map byte (byte 10)"),
    (entry(1) + b"\5\2\0\0\0\0", "a field's value is out of range (byte 10)"),
    (entry(1) + entry(2, 2), "entry 1: wrong class, grower or list"),
    (entry(1) + entry(2, 1, 3) + entry(3), "entry 1: a listed name has no job (place 1 of the list)"),
    (entry(1) + entry(2) + entry(1), "entry 2: the name has a job already"),
    (b"".join(map(entry, range(4097))), "entry 4096: no room for the job or its arcs"),
    (b"".join(map(entry, range(257))), "it needs room for 257 jobs and 0 arcs; there is room for 256 and 1024"),
    (b"".join(map(entry, range(32))) + b"".join(entry(32 + name, *range(32)) for name in range(33)),
     "it needs room for 65 jobs and 1056 arcs; there is room for 256 and 1024"),
]
FULL = b"".join(map(entry, range(32))) + b"".join(entry(32 + name, *range(32)) for name in range(32))
FULL += b"".join(map(entry, range(64, 256)))


class Examples(Cases):
    needs = (SHARED,)

    def test_day(self):
        folder = self.folder()
        for language, command in hosts("day"):
            self.same(language, run(*command), (0, DAY, ""))
            self.same(f"{language}: a file", run(*command, FOUR), (0, DAY, ""))
            self.same(f"{language}: classes", run(*command, LONG), (0, LONG_LIST, ""))
            self.refusals(language, command, folder)
        nowhere = ("env", "TASKGRAPH_LIBRARY=/nowhere", "python3", "examples/day.py")
        self.same("the library as an argument", run(*nowhere, FOUR, SHARED), (0, DAY, ""))
        self.same("no library", run(*nowhere), (2, "", Start("The shared library of the task graph cannot be loaded")))

    def refusals(self, language, command, folder):
        sheet = folder / "sheet"
        for content, why in REFUSED:
            sheet.write_bytes(content)
            self.same(f"{language}: {why}", run(*command, sheet), (1, "", f"{sheet}: {why}\n"))
        sheet.write_bytes(FULL)
        ran = run(*command, sheet)
        self.same(f"{language}: as much as there is room for", ran, (0, Start("jobs 256 workers 2\n0 0 0\n"), ""))
        sheet.write_bytes(b"")
        self.same(f"{language}: an empty sheet", run(*command, sheet), (0, "jobs 0 workers 2\nleft 0\n", ""))
        for what, wrong in (("no such file", folder / "nowhere"), ("a folder", folder)):
            ran = run(*command, wrong)
            self.same(f"{language}: {what}", (*ran, ran.err.count("\n")), (2, "", Start(f"{wrong}: "), 1))
        ran = run(*command, sheet, sheet, sheet)
        self.same(f"{language}: too many words", ran, (2, "", Start("usage: day")))

    def test_lock(self):
        self.same("examples/lock.c", run(compiled("examples/lock.c", "-pthread")), (0, ANY, ""))

    def test_scripts(self):
        for name, wanted in (("four-jobs", DAY), ("long-job", LONG_LIST)):
            self.same(name, run("scripts/day-list", f"examples/{name}.sheet"), (0, wanted, ANY))
