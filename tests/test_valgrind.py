"""Histories over damaged tables under valgrind, which sees any word that the library reads or writes outside the tables
lent to it. CONFORMANCE_HISTORIES sets how many: 300 if it is not said.
"""
import os
import re

from helper import ANY, ARCHIVE, CARGO, TOP, Cases, Part, run

# Only reads and writes outside allocated memory count: optimised Rust copies padding, which valgrind would take for a
# use of it.
VALGRIND = "valgrind --quiet --undef-value-errors=no --error-exitcode=99 --exit-on-first-error=yes"
TESTS = re.findall(r"#\[test\]\s+fn (\w+)", (TOP / "host/compare_graph/tests/damaged.rs").read_text())


class Valgrind(Cases):
    needs = (ARCHIVE,)

    def test_damaged(self):
        # cargo starts each test program through the runner of the machine's target
        target = re.search(r"^host: (.*)$", run("rustc", "-vV").out, re.M)[1].upper().replace("-", "_")
        env = {"CONFORMANCE_HISTORIES": "300", **os.environ, f"CARGO_TARGET_{target}_RUNNER": VALGRIND}
        for name in TESTS:
            ran = run("cargo", "test", *CARGO, "-p", "compare_graph", "--test", "damaged", "--", "--nocapture",
                      "--exact", name, env=env, timeout=None)
            self.same(name, ran, (0, Part("test result: ok. 1 passed"), ANY))
