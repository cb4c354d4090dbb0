"""A host in Python whose gauges may give nothing: the same as gauge.c, over the package of the folder python/.

usage: gauge.py [GAUGE..]      the gauges that gave nothing today, of 1 to 4; python/README.md says where the package
                               looks for the library
"""
import pathlib
import sys

# where the package is not installed, the repository's is used
sys.path.append(str(pathlib.Path(__file__).resolve().parent.parent / "python"))
from taskgraph import Entry, Graph, LibraryError, Outcome, Refusal, Sizes

GAUGES = [1, 2, 3, 4]
SHARES = {11: (1,), 12: (2, 3), 13: (4,), 14: (12, 13), 15: (11, 13)}  # each with what it rests on


def told(name):
    return f"gauge {name}" if name in GAUGES else f"share {name}"


def work_on(graph, job, silent, failed):
    """Works on a job, and answers how it ends."""
    if job.name in GAUGES:
        print(f"Gauge {job.name}", "gave nothing today." if job.name in silent else "was read.")
        return Outcome.FAILED if job.name in silent else Outcome.GOOD
    if not job.spoiled:
        print(f"Share {job.name} is good.")
        return Outcome.GOOD
    # on what it rests the host knows by its own records of what failed
    causes = " and ".join(told(name) for name in SHARES[job.name] if name in failed)
    print(f"Share {job.name} rests on {causes} and is not to be relied on.")
    try:
        graph.finish(0, job.name, Outcome.GOOD)
    except Refusal as refusal:
        print(f"Share {job.name} as good? No: {refusal.message}.")
    return Outcome.FAILED


def run(silent):
    graph = Graph(Sizes(jobs=9, arcs=16, bits=2, workers=1))
    for name in [*GAUGES, *SHARES]:
        graph.add(0, Entry(name, SHARES.get(name, ())))
    failed = set()
    while job := graph.get(0):
        outcome = work_on(graph, job, silent, failed)
        graph.finish(0, job.name, outcome)
        if outcome == Outcome.FAILED:
            failed.add(job.name)
    print("Good shares:", *(name for name in SHARES if name not in failed))
    print("Not to be relied on:", *(name for name in SHARES if name in failed))


def main(arguments):
    for word in arguments:
        if word not in map(str, GAUGES):
            sys.exit(f"There is no gauge {word}.")
    try:
        run({int(word) for word in arguments})
    except (LibraryError, Refusal) as error:
        sys.exit(str(error))


if __name__ == "__main__":
    main(sys.argv[1:])
