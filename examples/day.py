"""A host in Python: the same as day.c, over the package of the folder python/. It prints what the day list prints.

usage: day.py [SHEET [LIBRARY]]      (without SHEET, the sheet of docs/RULES.md; without LIBRARY, the package looks for
                                     one as python/README.md says)

A sheet is judged before the graph is touched: one that cannot be read, has an entry that no fresh graph accepts, or
needs more room than there is, is refused as a whole. Exit status: 0 the day was run, 1 the sheet is refused, 2 a file
cannot be read or the usage is wrong.
"""
import pathlib
import sys

# where the package is not installed, the repository's is used
sys.path.append(str(pathlib.Path(__file__).resolve().parent.parent / "python"))
from taskgraph import Graph, LibraryError, Outcome, Refusal, Sizes, load, read_sheet, room_of_sheet

FOUR_JOBS = bytes.fromhex("0101000000" "0102000000" "0103000000" "0304000000020100000002000000")
SIZES = Sizes(jobs=256, arcs=1024, bits=4, workers=2)


def why_refused(sheet):
    """Why a fresh graph of these sizes would not accept the sheet whole; None where it would."""
    try:
        room = room_of_sheet(sheet)
    except Refusal as refusal:
        if refusal.entry is None:
            return f"{refusal.message} (byte {refusal.offset})"
        place = f" (place {refusal.place} of the list)" if refusal.place is not None else ""
        return f"entry {refusal.entry}: {refusal.message}{place}"
    if not room.fits(SIZES):
        there = f"there is room for {SIZES.jobs} and {SIZES.arcs}"
        return f"it needs room for {room.jobs} jobs and {room.arcs} arcs; {there}"
    return None


def add_all(graph, sheet):
    """Worker 0 adds every entry, up to 64 in one call. Answers how many entered, and prints those that were refused."""
    answers = graph.add_all(0, read_sheet(sheet))
    for place, refusal in enumerate(answers):
        if refusal is not None:
            print("refused", place, refusal.number)
    return answers.count(None)


def work(graph):
    """Rounds: each worker gets a job, then each holder finishes. Answers how many were finished."""
    handed = 0
    while True:
        got = [(worker, graph.get(worker)) for worker in range(graph.sizes.workers)]
        held = [(worker, job) for worker, job in got if job is not None]
        if not held:
            return handed
        for worker, job in held:
            print(handed, job.name, worker)
            handed += 1
        for worker, job in held:
            graph.finish(worker, job.name, Outcome.GOOD)


def stop(text, status):
    print(text, file=sys.stderr)
    sys.exit(status)


def main(arguments):
    if len(arguments) > 2:
        stop("usage: day.py [SHEET [LIBRARY]]", 2)
    try:
        load(*arguments[1:])
        sheet = pathlib.Path(arguments[0]).read_bytes() if arguments else FOUR_JOBS
    except LibraryError as error:
        stop(error, 2)
    except OSError as error:
        stop(f"{arguments[0]}: {error.strerror}", 2)
    why = why_refused(sheet)
    if why is not None:
        stop(f"{arguments[0] if arguments else 'the sheet'}: {why}", 1)
    graph = Graph(SIZES)
    added = add_all(graph, sheet)
    print("jobs", added, "workers", graph.sizes.workers)
    print("left", added - work(graph))


if __name__ == "__main__":
    main(sys.argv[1:])
