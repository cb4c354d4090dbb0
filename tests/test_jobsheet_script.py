"""scripts/jobsheet builds the program where it is missing or its sources have changed, and only there: in a small
repository with a cargo and a scripts/library that count their calls.
"""
import os
import shutil

from helper import ANY, JOBSHEET, Cases, run, small_repository

CARGO = """#!/bin/sh
echo "$@" >>calls
[ ! -e refuse ] || exit 1
mkdir -p host/target/release && cp program host/target/release/jobsheet
"""
LIBRARY = """cd "$(dirname "$0")/.." && echo library >>calls && mkdir -p target/staticlib &&
    : >target/staticlib/libtaskgraph.a && bash scripts/sources >target/staticlib/libtaskgraph.a.sources
"""
SOURCES = ("crates.txt", "crates/one/src/lib.rt", "include/taskgraph.h", "lib/message.c", "Cargo.toml", "Cargo.lock",
           "rust/lib.rs", "jobsheet/src/main.rs")


class Script(Cases):
    needs = (JOBSHEET,)

    def test_building(self):
        files = {**dict.fromkeys(SOURCES, "one:\n"), "scripts/library": LIBRARY, "bin/cargo": CARGO, "calls": ""}
        folder = small_repository(self.folder(), ("jobsheet", "sources"), files)
        source = folder / "jobsheet/src/main.rs"
        shutil.copy(JOBSHEET, folder / "program")
        env = {**os.environ, "PATH": f"{folder}/bin:{os.environ['PATH']}"}

        def builds(name, status, libraries, programs, *words):
            ran = run("bash", folder / "scripts/jobsheet", *words, env=env, cwd="/")
            calls = (folder / "calls").read_text()
            called = calls.count("library"), calls.count("build")
            self.same(name, (*ran, *called), (status, ANY, ANY, libraries, programs))

        builds("nothing is built", 0, 1, 1, "--version")
        builds("all is built", 0, 1, 1, "--version")
        builds("all is built, and no command", 2, 1, 1)
        source.write_text("two\n")
        builds("a source has changed", 0, 1, 2, "--build")
        (folder / "crates/one/src/lib.rt").write_text("two\n")
        builds("the library has changed", 0, 2, 3, "--version")
        source.write_text("three\n")
        (folder / "refuse").touch()
        builds("it cannot be built", 2, 2, 4, "--version")
        (folder / "refuse").unlink()
        builds("it can again", 0, 2, 5, "--version")
