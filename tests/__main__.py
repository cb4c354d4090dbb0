"""Runs tests. A failed case tells what was expected and what came; the last line is `N passed, M failed`.

usage: python3 tests            those that need nothing built
       python3 tests NAME..     those of tests/test_NAME.py; a NAME may be a pattern, as 'jobsheet*'
"""
import fnmatch
import pathlib
import sys

sys.dont_write_bytecode = True
from helper import run_tests

QUICK = ["pages", "crates", "edits", "citations"]


def main(patterns):
    there = sorted(path.stem.removeprefix("test_") for path in pathlib.Path(__file__).parent.glob("test_*.py"))
    names = []
    for pattern in patterns or QUICK:
        found = fnmatch.filter(there, pattern)
        if not found:
            print(f"{__doc__}\nThere is no test {pattern}. There are: {', '.join(there)}", file=sys.stderr)
            return 2
        names += found
    return run_tests(names)


sys.exit(main(sys.argv[1:]))
