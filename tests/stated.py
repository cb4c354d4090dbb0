"""Where numbers and limits are stated, and by which names: in the header, the pages, the definitions and the code.

A number of the header has one definition and one constant, both in crates/def_numbers, and one stem: TG_HALF_DONE is
HALF_DONE in the code and half_done in the definitions, TG_MAX_JOBS is MOST_JOBS and most_jobs.
"""
from helper import SHARED, TOP, Cases

HEADER, TEXTS = "include/taskgraph.h", "lib/message.c"
NUMBERS, SHEETS, RULES, TABLES, HOSTS = (
    f"docs/{name}.md" for name in ("NUMBERS", "SHEETS", "RULES", "TABLES", "HOSTS"))


class Stated(Cases):
    needs = (SHARED,)

    def agree(self, what, one, other):
        """Compares two values, each with the place where it stands."""
        self.same(f"{what}: {one[1]}, held to {other[1]}", one[0], other[0])

    def says(self, path, sentence, place):
        """A page has a sentence, however its lines are broken."""
        text = " ".join((TOP / path).read_text().replace("\n *", "\n").split())
        found = " ".join(sentence.split()) in text
        self.agree(repr(sentence), ("said" if found else "not said", path), ("said", place))


def lines(path):
    for number, line in enumerate((TOP / path).read_text().splitlines(), 1):
        yield f"{path}:{number}", line


def number(cell):
    """A figure of a table, written with or without commas."""
    cell = cell.replace(",", "").strip("` ")
    return int(cell) if cell.isdigit() else cell


def rows(path, heading, columns):
    """The rows of the tables under a heading that have so many columns, without their first two lines."""
    under, table = False, 0
    for place, line in lines(path):
        if line.startswith("#"):
            under = line.lstrip("# ") == heading
        table = table + 1 if line.startswith("|") else 0
        cells = [cell.strip() for cell in line.strip().strip("|").split("|")]
        if under and table > 2 and len(cells) == columns:
            yield place, cells


# The word before a stem that alone would say too little, or says something else in the rules: TG_SIZE is WRONG_SIZE.
BEFORE = {
    "WRONG": "SIZE ARGUMENTS MAP VALUE MINUTES",
    "NO_SUCH": "WORKER",
    "WORKER": "IDLE",
    "TABLES": "FULL",
    "ALREADY": "HOLDING",
    "TOO_MANY": "ENTRIES",
    "JOBS": "ENTERED",
    "KIND": "REFUSED LAID_OUT POSTED GOING_ON ENDED NONE_READY HANDED_OUT LOADED STOPPED",
}
# What the header has and crates/def_numbers has not: the version; "none", which stands with the tables' layout in `words`
# and `graph_words`; the outcomes, which are `false` and `true` in definitions and code.
VERSION = {"TG_VERSION_MAJOR", "TG_VERSION_MINOR", "TG_VERSION_PATCH"}
PLACES = {"TG_NONE"}
OUTCOMES = {"TG_GOOD", "TG_FAILED"}
# What definitions and code have and the header has not, by the sentences of the docs that give it.
SAID = {
    "MULTIPLIER": [(RULES, "its product with {}, kept"), (HEADER, "its product with {}, kept")],
    "NAME_BYTES": [(SHEETS, "| name, and each listed name | {} |")],
    "COUNT_BYTES": [(SHEETS, "| count | {} |")],
    "CLASS_BYTES": [(SHEETS, "| class | {} |")],
    "GROWER_BYTES": [(SHEETS, "| grower | {} |")],
    "FIXED_MINUTES": [(RULES, "The fixed ones are {}.")],
    "JOB_SHAPE": [(TABLES, "Jobs: {} R words")],
    "ARC_SHAPE": [(TABLES, "Arcs: {} A words")],
    "QUEUE_SHAPE": [(TABLES, "Queue: {} R words")],
    "LEVELS": [(RULES, "an entry looks at no more than {} slots")],
    "WORKER_SHAPE": [(TABLES, "Workers: {} P words")],
}


def called(name):
    """What definitions and code call a name of the header."""
    stem = name.removeprefix("TG_")
    if stem.startswith("MAX_"):
        return "MOST_" + stem.removeprefix("MAX_")
    before = [word for word, stems in BEFORE.items() if stem in stems.split()]
    return "_".join(before + [stem])
