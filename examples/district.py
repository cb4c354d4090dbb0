"""A host in Python that loads a district's minutes: the same as district.c, over the package of the folder python/.

usage: district.py FILE [LIBRARY]      (without LIBRARY, the package looks for one as python/README.md says)

A line of FILE that cannot be used is told with the file and its number; exit status 1.
"""
import pathlib
import re
import sys

# where the package is not installed, the repository's is used
sys.path.append(str(pathlib.Path(__file__).resolve().parent.parent / "python"))
from taskgraph import Entry, Graph, LibraryError, Outcome, Refusal, Sizes, load

CLASSES, MAX_MINUTES = 16, 1440
LINE = re.compile(r"[ \t]*([0-9]+)[ \t]+([0-9]+)[ \t]*")
ENTRIES = [Entry(1), Entry(2, class_=15), Entry(3, class_=7), Entry(4, class_=3), Entry(5, (2,), class_=7)]


class WrongFile(Exception):
    """A file that has not the minutes of a district."""


def take_line(district, line, text):
    """Takes a line, which says the minutes of a class or nothing. Answers what is wrong with it, or None."""
    said = text.split("#")[0]
    if not said.strip(" \t\n"):
        return None
    numbers = LINE.fullmatch(said.rstrip("\n"))
    class_, minutes = map(int, numbers.groups()) if numbers else (2**32, 0)
    if max(class_, minutes) >= 2**32:
        return "not a class and its minutes"
    if class_ >= CLASSES:
        return f"class {class_} is above {CLASSES - 1}"
    if class_ in district:
        return f"class {class_} stands twice"
    if not 1 <= minutes <= MAX_MINUTES:
        return f"{minutes} minutes are not 1 to {MAX_MINUTES}"
    district[class_] = minutes, line
    return None


def read_district(file):
    """The minutes of each class."""
    district, minutes = {}, []
    with open(file, encoding="utf8", errors="surrogateescape") as lines:
        for line, text in enumerate(lines, 1):
            reason = take_line(district, line, text)
            if reason:
                raise WrongFile(f"{file}:{line}: {reason}")
    for class_ in range(CLASSES):
        if class_ not in district:
            raise WrongFile(f"{file}: class {class_} is missing")
        value, line = district[class_]
        if minutes and value <= minutes[-1]:
            raise WrongFile(f"{file}:{line}: class {class_} has no more minutes than the class below")
        minutes.append(value)
    return minutes


def print_board(graph):
    totals = graph.totals()
    print(*(f"{label} {jobs} {minutes}" for label, jobs, minutes in zip(totals.jobs._fields, *totals)))


def work(graph, minutes):
    """Adds the jobs, and lets worker 0 take and finish them."""
    for entry in ENTRIES:
        graph.add(0, entry)
    print_board(graph)
    handed = 0
    while job := graph.get(0):
        print(handed, job.name, minutes[ENTRIES[job.number].class_])
        graph.finish(0, job.name, Outcome.GOOD)
        handed += 1
    print_board(graph)


def main(arguments):
    if not 1 <= len(arguments) <= 2:
        print(__doc__.strip(), file=sys.stderr)
        sys.exit(2)
    try:
        minutes = read_district(arguments[0])
        load(*arguments[1:])
        graph = Graph(Sizes(jobs=16, arcs=16, bits=2, workers=1))
        graph.load_minutes(minutes)
        work(graph, minutes)
    except OSError as error:
        sys.exit(str(error) if isinstance(error, LibraryError) else f"{arguments[0]}: {error.strerror}")
    except (WrongFile, Refusal) as error:
        sys.exit(str(error))


if __name__ == "__main__":
    main(sys.argv[1:])
