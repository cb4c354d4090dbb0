"""The program jobsheet on every example of docs/SHEETS.md and on bad files; its pictures and JSON; its speed.

Its own tests, in jobsheet/, have its words to the letter.
"""
import functools
import json
import os
import re
import resource
import shutil
from xml.etree import ElementTree

from helper import ANY, JOBSHEET, TOP, Cases, Part, Start, run

VALLEY, MISTAKES, FOUR = (TOP / "examples" / name for name in ("valley.txt", "mistakes.txt", "four-jobs.sheet"))
PAGE = (TOP / "docs/SHEETS.md").read_text(encoding="utf8")
MEMORY = 384 << 20  # bytes of address space that any input must do with; the worst that was tried takes half of it
LIMIT = 1 << 20  # bytes of a sheet
INSTRUCTIONS = 700_000_000  # of packing and checking together; they take under a tenth of a second
PATIENCE = 120  # seconds until a test gives up; none is judged by time
jobsheet = functools.partial(run, JOBSHEET, text=False, timeout=PATIENCE)


def rows(heading):
    """The rows of the tables of a section, a list of cells each, without the lines above them."""
    section = PAGE.split(f"\n## {heading}\n")[1].split("\n## ")[0]
    lines = [line for line in section.splitlines() if line.startswith("|")][2:]
    return [[cell.strip(" `").replace("\\|", "|") for cell in re.split(r"(?<!\\)\|", line)[1:-1]] for line in lines]


def bounded():
    resource.setrlimit(resource.RLIMIT_AS, (MEMORY, MEMORY))


def bad_contents(length):
    """Bad sheets of about so many bytes."""
    short, line = range(length // 32), b"1" + b" -" * 30 + b"\n"
    return {
        "noise": bytes((i * i * 31 + i // 7) % 256 for i in range(4096)) * (length // 4096),
        "printed noise": bytes(32 + (i * i * 31 + i // 7) % 224 for i in range(4096)) * (length // 4096),
        "a NUL": b"1\n2\0\n3\n",
        "a long line": b"1\n2 needs " + b"1 " * (length // 2 - 20) + b"\n3\n",
        "a long word": b"9" * length,
        "one job a line": b"1\n" * (length // 2),
        "one word a line": b"x\n" * (length // 2),
        "one name that needs itself": b"name,needs\n" + b"1,1\n" * (length // 4 - 4),
        "a fault a word": b"1 x" * (length // 3),
        "faults on short lines": line * (length // len(line)),
        "quotes": b'name\n"' + b'"' * (length // 2) + b"\n" + b'"1\n' * (length // 8),
        "separators": b"name,needs\n" + b"," * (length // 2) + b"1\n" + b"1,,,,,,,2\n" * (length // 32),
        "a chain": b"".join(b"%d needs %d\n" % (i + 1, i) for i in short),
        "a circle": b"".join(b"%d needs %d\n" % (i, (i + 1) % len(short)) for i in short),
        "map bytes": b"\1" * length,
        "jobs of bytes": b"".join(b"\1" + i.to_bytes(4, "little") for i in range(length // 5)),
    }


def fullest():
    """A sheet that fills the largest graph, as text: 4,096 jobs with long names, each of a grower of its own."""
    names = [4_294_967_295 - 7_919 * place for place in range(4096)]
    for place, name in enumerate(names):
        needs = " ".join(map(str, names[max(0, place - 8):place]))
        yield f"{name}{' needs ' if needs else ''}{needs} class {1 + place % 15} grower {1 + 16 * place % 65535}\n"


class Jobsheet(Cases):
    needs = (JOBSHEET,)

    def is_json(self, name, text):
        with self.case(name):
            self.assertIsInstance(json.loads(text), dict)

    def test_examples(self):
        cases = [(line, bytes_, plain, []) for line, bytes_, plain in rows("As text")]
        cases += [(table.replace(" | ", "\n"), bytes_, plain, ["--csv"]) for table, bytes_, plain in rows("As a table")]
        self.same("docs/SHEETS.md has examples", len(cases), 10)
        for content, bytes_, plain, options in cases:
            packed = jobsheet("pack", input=content.encode()).out
            self.same(f"{content!r} packed", packed, bytes.fromhex(bytes_))
            shown = jobsheet("show", *options, input=packed).out.decode()
            self.same(f"{content!r} shown", shown.splitlines()[-1:], [plain])
        said = jobsheet("check", MISTAKES).out.decode().splitlines()
        faults = [line.strip() for line in PAGE.splitlines() if "(byte 150)" in line]
        self.same("the fault of docs/SHEETS.md", (len(faults), said), (1, Part(*faults)))

    def test_bad_files(self):
        """Every kind of bad input is answered by each command, in bounded memory and without a trace: by all commands
        where it is short, and by those that take most where it is as long as may be and has most faults."""
        every = (["check"], ["check", "--json"], ["pack"], ["show"], ["draw"], ["draw", "--dot"], ["run"])
        worst = ("one job a line", "one word a line", "one name that needs itself", "faults on short lines", "a circle")
        long = bad_contents(LIMIT)
        path = self.folder() / "bad"
        for contents, commands in (
            (bad_contents(LIMIT // 32), every), ({name: long[name] for name in worst}, (["check", "--json"], ["draw"])),
        ):
            for name, content in contents.items():
                path.write_bytes(content)
                for words in commands:
                    self.bad_file(f"{name}, {len(content)} bytes", words, path)

    def bad_file(self, name, words, path):
        ran = jobsheet(*words, path, preexec_fn=bounded)
        with self.case(f"{name}: {' '.join(words)}"):
            self.assertIn(ran.status, (0, 1), ran.err[-300:])
            self.assertTrue(ran.out or ran.err or words == ["show"], "it says nothing")
            self.assertNotRegex(ran.err, b"mistake of the program|panicked")
        if words == ["check", "--json"] and len(ran.out) < 1 << 24:
            self.is_json(f"{name}: JSON", ran.out)

    def test_long_files(self):
        folder = self.folder()
        giant, longest = folder / "giant", folder / "longest"
        with open(giant, "wb") as file:
            file.truncate(1 << 30)
        for command in ("check", "pack", "draw"):
            ran = jobsheet(command, giant, preexec_fn=bounded)
            self.same(f"a file of 1 GB: {command}", (ran.status, ran.err), (2, Part(b"1,048,576 bytes")))
        longest.write_bytes(b"#" * 65536 + b"\n" + b"#" * 65537 + b"\n")
        told = jobsheet("check", longest).out
        self.same("the longest line", (told, told), (Start(b"line 2 (byte 65537): "), Part(b"1 fault;")))
        longest.write_bytes(b"1" + b"\n" * (LIMIT - 1))
        self.same("the longest file", jobsheet("check", longest).status, 0)
        longest.write_bytes(b"1" + b"\n" * LIMIT)
        self.same("a byte more", jobsheet("check", longest).status, 2)

    def test_pictures(self):
        for words in (["draw"], ["run", "--svg"], ["run", "--svg", "--workers", "16"]):
            for sheet in (VALLEY, MISTAKES, FOUR, "/dev/null"):
                with self.case(f"{' '.join(words)} {sheet}"):
                    root = ElementTree.fromstring(jobsheet(*words, sheet).out)
                    self.assertEqual(root.tag, "{http://www.w3.org/2000/svg}svg")
        if not shutil.which("dot"):
            return print("left out: Graphviz, which is not installed")
        for sheet in (VALLEY, MISTAKES, FOUR, "/dev/null"):
            made = run("dot", "-Tsvg", input=jobsheet("draw", "--dot", sheet).out, text=False)
            self.same(f"Graphviz draws {sheet}", made, (0, Part(b"</svg>"), ANY))

    def test_json(self):
        for command in ("check", "show", "run"):
            self.is_json(f"{command} --json", jobsheet(command, "--json", VALLEY).out)
        jobs = json.loads(jobsheet("show", "--json", VALLEY).out)["jobs"]
        lines = [f"{job['name']} {len(job['needs'])} {job['class']} {job['grower']}" for job in jobs]
        self.same("show --json has the jobs", (len(lines), lines[4]), (20, "11 1 9 0"))
        checked = json.loads(jobsheet("check", "--json", MISTAKES).out)
        numbers = [fault["number"] for fault in checked["faults"]]
        self.same("check --json has the numbers", (numbers, bool(checked["packs"])), ([6, 6, 7, 5, 6, 6, 6], True))

    def test_speed(self):
        """Judged by counts of instructions, which a busy machine does not change."""
        folder, counted = self.folder(), 0
        sheet = folder / "fullest.txt"
        sheet.write_text("".join(fullest()))
        answer = json.loads(jobsheet("check", "--json", sheet).out)
        size = answer["good"], answer["jobs"], answer["arcs"], answer["faults"]
        self.same("the fullest sheet", size, (True, 4096, 32732, []))
        if not shutil.which("valgrind"):
            return print("left out: instructions, as valgrind is not installed")
        for words in (["pack", sheet, "-o", folder / "fullest.sheet"], ["check", sheet]):
            valgrind = ("valgrind", "--tool=callgrind", "--callgrind-out-file=/dev/null", JOBSHEET, *words)
            ran = run(*valgrind, env={"PATH": os.environ["PATH"]})
            self.same(f"instructions of {words[0]}", (ran.status, ran.err), (0, Part("Collected : ")))
            counted += int(re.search(r"Collected : (\d+)", ran.err)[1])
        with self.case("instructions"):
            self.assertLessEqual(counted, INSTRUCTIONS)
        print(f"packing and checking {answer['jobs']} jobs with {answer['arcs']} arcs: {counted} instructions")
