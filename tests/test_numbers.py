"""Every number and limit is the same wherever it stands, and code in docs/HOSTS.md is of a program that is compiled.

The places: include/taskgraph.h, docs/NUMBERS.md, docs/SHEETS.md, docs/RULES.md, docs/TABLES.md, lib/message.c, the
definitions in crates/*/specs, the constants in crates/*/src, and what the library answers. Each is held to the header.

The header's numbers stand in crates/def_numbers alone, once as a definition and once as a constant; a second one of the
same name in another crate is a difference too.

Passed over, so for a reader to see:
- constants of other crates whose name is not in stated.py, and those not written as `abbrev pub NAME : ℕ` or
  `const NAME: T = N;` with a numeral;
- rows of a table that have more or fewer columns than the others;
- of docs/RULES.md's table the words: its numbers alone are read; of docs/NUMBERS.md the sentences below its first
  table, and its column "left behind";
- figures in sentences that `test_sentences` and `test_repeated` do not list, and all figures of docs/SPEED.md, which
  stand there alone;
- code of docs/HOSTS.md in other languages than C;
- Rust and Python: test_interface.py holds the declarations, and the packages' own tests the texts.
"""
import re

from helper import TOP
from library import Sizes, load, longest_run, shortest_day_list, shortest_entry, words_needed
from stated import HEADER, HOSTS, NUMBERS, OUTCOMES, PLACES, RULES, SAID, SHEETS, TEXTS, VERSION
from stated import Stated, called, lines, number, rows

UNKNOWN = "other"  # the row of docs/NUMBERS.md for all other numbers
DEFINED, CODED = "crates/def_numbers/specs/Numbers.antt", "crates/def_numbers/src/lib.rt"


def header_values():
    """The header's enums and macros: name to value and place."""
    found = {}
    for place, line in lines(HEADER):
        match = re.match(r"\s*(?:#define )?(TG_\w+) (?:= )?(?:UINT32_C\()?(\d+)\)?,?(\s|$)", line)
        if match:
            found[match[1]] = int(match[2]), place
    return found


def upper(name):
    """wrong_size and WRONG_SIZE as WRONG_SIZE."""
    return name.upper()


def variants(crate, text):
    """Each variant of the enums of def_numbers that has a number, by the name that the header's has: LaidOut of Kind as
    KIND_LAID_OUT."""
    for enum in re.finditer(r"^pub enum (\w+) \{\n(.*?)^\}", text if crate == "def_numbers" else "", re.M | re.S):
        pattern = re.compile(r"^    (\w+) = (\d+),$", re.M)
        for match in pattern.finditer(text, enum.start(2), enum.end(2)):
            yield "_".join([enum[1], *re.findall("[A-Z][a-z]*", match[1])]), match


def constants():
    """Each constant of the definitions and of the code: crate, name, value and place. The value is a number, or the
    text that stands there."""
    for path in [path for part in ("specs/*.antt", "proofs/*.antt", "src/*.rt")
                 for path in sorted(TOP.glob(f"crates/*/{part}"))]:
        text, crate = path.read_text(), path.parts[-3]
        if path.suffix == ".antt":
            found = re.finditer(r"^abbrev (?:pub )?(\S+) : ℕ\n\1 = (.*)$", text, re.M)
        else:
            found = re.finditer(r"^(?:pub )?const ([A-Z_]+): \w+ = (.*);$", text, re.M)
        for name, match in [*((match[1], match) for match in found), *variants(crate, text)]:
            line = text.count("\n", 0, match.start(2)) + 1
            yield crate, upper(name), (number(match[2]), f"{path.relative_to(TOP)}:{line}")
        for match in re.finditer(r"^(\w+_shape) = record \{ head = (\d+); width = (\d+) \}", text, re.M):
            head, width = match[2] + " + " if match[2] != "0" else "", match[3] if match[3] != "1" else ""
            yield crate, upper(match[1]), ((head + width).strip(), str(path.relative_to(TOP)))
        for match in re.finditer(r"^fixed_minutes = (.*) ∷ \[\]$", text, re.M):
            yield crate, "FIXED_MINUTES", (match[1].replace(" ∷", ","), str(path.relative_to(TOP)))


def texts():
    """The texts of docs/NUMBERS.md by number, each with its place."""
    return {number(cells[0]): (cells[2], place) for place, cells in rows(NUMBERS, "Numbers", 4)}


class Numbers(Stated):
    def setUp(self):
        self.header, self.library = header_values(), load()

    def of_header(self, name):
        return self.header.get(name, ("missing", HEADER))

    def test_constants(self):
        """Of each number of the header one definition and one constant, both in crates/def_numbers, and none of the same
        name in another crate."""
        found = list(constants())
        ours = {called(name): name for name in set(self.header) - VERSION - PLACES - OUTCOMES}
        tables = {file: {name: value for _, name, value in found if value[1].startswith(file)}
                  for file in (DEFINED, CODED)}
        named = set(ours).union(*tables.values())
        for name in sorted(named):
            for file, table in tables.items():
                value = table.get(name, ("missing", file))
                if name in ours:
                    self.agree(f"{name} and {ours[name]}", value, self.of_header(ours[name]))
                else:
                    self.agree(name, ("there" if name in table else "missing", file), ("there", f"{DEFINED}, {CODED}"))
                    self.agree(name, ("there", value[1]), ("there" if name in SAID else "missing", "stated.py"))
        for crate, name, value in found:
            if not value[1].startswith((DEFINED, CODED)) and name in named:
                self.agree(name, ("defined again", value[1]), ("defined once", f"{DEFINED}, {CODED}"))

    def test_said(self):
        """The constants that the header has not against the docs, and "none" against the header; each must be met."""
        places, met = {called(name): name for name in PLACES}, set()
        for crate, name, value in constants():
            if name in places:
                met.add(name)
                self.agree(f"{name} of {crate} and {places[name]}", value, self.of_header(places[name]))
            for path, sentence in SAID.get(name, []):
                met.add(name)
                self.says(path, sentence.format(value[0]), value[1])
        for name in sorted({*places, *SAID} - met):
            self.agree(name, ("missing", "crates/*/specs and crates/*/src"), ("there", HEADER))

    def test_numbers_page(self):
        """docs/NUMBERS.md against the header: numbers, limits, kinds; what it has not stands in docs/HOSTS.md, with its
        value in brackets."""
        named = {"TG_NONE"}
        for heading, columns, value, called in ("Numbers", 4, 0, 1), ("Limits", 4, 2, -1), ("Answers", 3, 0, 1):
            for place, cells in rows(NUMBERS, heading, columns):
                name = cells[called].strip("`")
                if cells[value] != UNKNOWN and (name or heading == "Numbers"):
                    named.add(name)
                    self.agree(name, (number(cells[value]), place), self.of_header(name))
        for name in sorted(set(self.header) - named):
            if not name.startswith("TG_VERSION"):
                self.says(HOSTS, f"`{name}` ({self.header[name][0]})", self.header[name][1])

    def test_rules_table(self):
        """docs/RULES.md has one row for each number of docs/NUMBERS.md but 0."""
        listed = [number(cells[0]) for _, cells in rows(RULES, "Turned-away calls", 4)]
        self.agree("numbers", (listed, RULES), (sorted(key for key in texts() if key not in (0, UNKNOWN)), NUMBERS))

    def test_texts(self):
        """lib/message.c and what tg_message answers against docs/NUMBERS.md."""
        written, listed = {}, texts()
        unknown = listed.pop(UNKNOWN, ("missing", NUMBERS))
        for place, line in lines(TEXTS):
            match = re.match(r'\s*\[(TG_\w+)\] = "(.*)",$', line)
            if match:
                written[self.header.get(match[1], (match[1], HEADER))[0]] = match[2], place
        for key in sorted({*written, *listed}, key=str):
            self.agree(f"text of {key}", written.get(key, ("missing", TEXTS)), listed.get(key, ("missing", NUMBERS)))
        for key in [*range(len(listed) + 3), 2**31, 2**32 - 1]:
            answered = self.library.tg_message(key).decode(), f"tg_message({key})"
            self.agree(f"text of {key}", answered, listed.get(key, unknown))

    def test_version(self):
        text = re.search(r'^#define TG_VERSION "(.*)"$', (TOP / HEADER).read_text(), re.M)
        parts = [str(self.header[f"TG_VERSION_{part}"][0]) for part in ("MAJOR", "MINOR", "PATCH")]
        written = text[1] if text else "missing", f"TG_VERSION in {HEADER}"
        self.agree("version", written, (".".join(parts), f"TG_VERSION_MAJOR, _MINOR and _PATCH in {HEADER}"))
        self.agree("version", (self.library.tg_version().decode(), "tg_version()"), written)

    def test_sentences(self):
        """Figures that stand in sentences and tables of the docs and the header's comments."""
        header, library = self.header, self.library
        of = {name: f"{value:,}" for name, (value, _) in header.items()}
        greatest = words_needed(library, *(header[f"TG_MAX_{most}"][0] for most in ("JOBS", "ARCS", "BITS", "WORKERS")))
        minutes = [library.tg_minutes(class_) for class_ in range(header["TG_MAX_CLASS"][0] + 1)]
        sizes = (("jobs", 1, "JOBS"), ("arcs", 0, "ARCS"), ("bucket bits", 1, "BITS"), ("workers", 1, "WORKERS"))
        buckets = ", ".join(str(library.tg_bucket(name, 2)) for name in range(1, 6))
        sentences = [
            (HEADER, "; ".join(f"{name} {least} to {of['TG_MAX_' + most]}" for name, least, most in sizes)),
            (RULES, "; ".join(f"{letter} {name} {least} to {of['TG_MAX_' + most]}"
                              for letter, (name, least, most) in zip("RAbP", sizes))),
            (RULES, f"list of at most {of['TG_MAX_NAMES']} names"),
            (RULES, f"class 0 to {of['TG_MAX_CLASS']}; grower 0 to {of['TG_MAX_GROWER']}"),
            (RULES, f"more than {of['TG_MAX_RECORDS']} board records"),
            (RULES, f"class over {of['TG_MAX_CLASS']}, a grower over {of['TG_MAX_GROWER']}, or a list over "
                    + of["TG_MAX_NAMES"]),
            (RULES, f"place is {header['TG_NONE'][0]}."),
            (RULES, f"The fixed ones are {', '.join(map(str, minutes))}."),
            (RULES, f"fall in buckets {buckets}."),
            (RULES, f"at most {of['TG_MAX_DAY_SHEET']} bytes from standard input (R {of['TG_DAY_JOBS']}, "
                    f"A {of['TG_DAY_ARCS']}, b {of['TG_DAY_BITS']}, P 2)"),
            (RULES, f"`broken {header['TG_MAX_DAY_SHEET'][0]} {header['TG_CUT'][0]}`"),
            (RULES, f"list of two workers has {of['TG_MAX_DAY_LIST']} bytes"),
            (RULES, f"{of['TG_MAX_CLASS']} less the class of the job in the cell, times {of['TG_MAX_JOBS']}, plus the "
                    "cell's number"),
            (SHEETS, f"| count | 1 | 1 | {of['TG_MAX_NAMES']} |"),
            (SHEETS, f"| class | 1 | 1 | {of['TG_MAX_CLASS']} |"),
            (SHEETS, f"| grower | 2 | 1 | {of['TG_MAX_GROWER']} |"),
            (SHEETS, f"an entry has 5 to {of['TG_MAX_ENTRY_BYTES']} bytes"),
            (SHEETS, f"the day list takes {of['TG_MAX_DAY_SHEET']} bytes"),
            (RULES, f"each from 1 to {of['TG_MAX_MINUTES']}"),
            (HEADER, f"do not rise strictly or leave 1 to {of['TG_MAX_MINUTES']} */"),
            (NUMBERS, f"| minutes of a class, loaded | 1 | {of['TG_MAX_MINUTES']} |"),
            (NUMBERS, f"| fixed minutes of a class | {min(minutes)} | {max(minutes)} |"),
            (NUMBERS, f"| words of the five tables together | {words_needed(library, 1, 0, 1, 1):,} | {greatest:,} |"),
            (HOSTS, f"{greatest:,} words, {4 * greatest:,} bytes"),
            (NUMBERS, f"| steps of an accepted add | 2 | {2 * header['TG_MAX_NAMES'][0] + 2} |"),
            (NUMBERS, f"| steps of a full run of a sheet | 0 | {longest_run(library):,} |"),
            (NUMBERS, f"| entries of the day list's sheet | 0 | {header['TG_MAX_DAY_SHEET'][0] // 5:,} |"),
            (NUMBERS, f"| bytes of an entry | {shortest_entry(library)} |"),
            (NUMBERS, f"| bytes of a day list of two workers | {shortest_day_list(library)} |"),
            (NUMBERS, f'"None" as a place is {of["TG_NONE"]}'),
        ]
        for path, sentence in sentences:
            self.says(path, sentence, f"{HEADER} and the library")

    def test_repeated(self):
        """Figures that stand in two pages and not in the header: each is one of the sources, or one of a page."""
        levels, = {value[0] for _, name, value in constants() if name == "LEVELS"}
        bytes_, = re.findall(r"MOST_BYTES: usize = 1 << (\d+);", (TOP / "jobsheet/src/input.rs").read_text())
        line, = re.findall(r"MOST_LINE: usize = ([\d_]+);", (TOP / "jobsheet/src/text.rs").read_text())
        bars, = re.findall(r"NAMED: usize = (\d+);", (TOP / "jobsheet/src/picture/sheet.rs").read_text())
        rust, = set(re.findall(r'rust-version = "(.*)"', "".join(
            path.read_text() for path in sorted(TOP.glob("*/Cargo.toml")) + sorted(TOP.glob("host/*/Cargo.toml")))))
        limit, = re.findall(r"limit of the whole gate is (\d+) minutes", (TOP / "docs/DESIGN.md").read_text())
        line, bytes_ = f"{int(line):,}", f"{2 ** int(bytes_):,}"
        for path, sentence in [
            (RULES, f"compares at most {2 * levels} pairs of jobs"),
            (HOSTS, f"compares at most {2 * levels} pairs of jobs"),
            (HOSTS, f"one slot for each of {levels} levels"),
            (SHEETS, f"Files may have up to {bytes_} bytes, and lines up to {line}"),
            ("docs/DECISIONS.md", f"A file has at most {bytes_} bytes"),
            ("docs/DECISIONS.md", f"a line at most {line}"),
            (SHEETS, f"Above {bars} jobs the layers are bars"),
            ("docs/DECISIONS.md", f"In bars, above {bars} jobs"),
            ("host/README.md", f"Rust {rust} or newer"),
            ("rust/README.md", f"Rust {rust} or newer"),
            ("README.md", f"The gate takes under {limit} minutes"),
            ("CONTRIBUTING.md", f"Its limit is {limit} minutes on 2 cores"),
            ("docs/CLAIM.md", f"under {limit} min on 2 cores"),
        ]:
            self.says(path, sentence, "the sources, or docs/DESIGN.md")

    def test_quoted(self):
        """Code in docs/HOSTS.md stands in a program of examples/, which is compiled and run."""
        programs = "".join(path.read_text() for path in sorted(TOP.glob("examples/*.c")))
        for code in re.findall(r"^```c\n(.*?)^```", (TOP / HOSTS).read_text(), re.M | re.S):
            for part in code.split("\n\n"):
                found = "there" if part.strip() in programs else "missing"
                self.agree(part.splitlines()[0], (found, "examples/*.c"), ("there", HOSTS))

    def test_sizes(self):
        """The least and the most of each size of docs/NUMBERS.md are served, and the next beyond them refused."""
        limits = {cells[0]: (place, number(cells[1]), number(cells[2])) for place, cells in rows(NUMBERS, "Limits", 4)}
        for size, name in enumerate(("jobs, R", "arcs, A", "bucket bits, b", "workers, P")):
            place, least, most = limits.get(name, (NUMBERS, 0, 0))
            for value in sorted({least - 1, least, most, most + 1} - {-1}):
                sizes = [1, 1, 1, 1]
                sizes[size] = value
                answered = self.library.tg_words_needed(Sizes(*sizes)).number, "tg_words_needed"
                self.agree(f"{name} of {value}", answered, (int(not least <= value <= most), place))
