"""What the tests share: what is built, running a command, cases that are counted, and the examples as hosts."""
import os
import pathlib
import socket
import subprocess
import sys
import tempfile
import typing
import unittest
from unittest.mock import ANY  # equals everything; for the tests

TOP = pathlib.Path(__file__).resolve().parent.parent
ARCHIVE, SHARED = (TOP / f"target/staticlib/libtaskgraph.{end}" for end in ("a", "so"))
DAYLIST, JOBSHEET = TOP / "crates/daylist/out/daylist", TOP / "target/bin/jobsheet"
MADE_BY = {
    ARCHIVE: "scripts/library", SHARED: "scripts/library", DAYLIST: "scripts/day-list",
    JOBSHEET: "scripts/jobsheet --build",
}
WARNINGS = ("-Wall", "-Wextra", "-Werror")
CARGO = ("--release", "--offline", "--locked", "--quiet")
__unittest = True  # a failed case shows no lines of this file


# ---- commands

class Answer(typing.NamedTuple):
    """How a command ended, what it printed and what it said on standard error."""

    status: int
    out: typing.Any
    err: typing.Any


def run(*command, **how):
    """Runs a command at the top of the repository. One that is not there answers as a shell says it."""
    streams = {"stdin": subprocess.DEVNULL, "stdout": subprocess.PIPE, "stderr": subprocess.PIPE}
    how = {"cwd": TOP, "text": True, "timeout": 900, **streams, **how}
    if "input" in how:
        del how["stdin"]
    command = [os.fsdecode(word) if isinstance(word, bytes) else str(word) for word in command]
    try:
        ran = subprocess.run(command, **how)
    except FileNotFoundError as missing:
        return Answer(127, "", str(missing))
    return Answer(ran.returncode, ran.stdout, ran.stderr)


def with_descriptor(redirection, *command):
    """The command with a descriptor redirected, as `<&-` closes standard input."""
    return ("bash", "-c", f'exec "$@" {redirection}', "bash", *command)


def no_reader():
    """The writing end of a pipe that nobody reads."""
    reading, writing = os.pipe()
    os.close(reading)
    return writing


def cut_off(sheet):
    """A descriptor that gives the sheet's bytes and then fails: the other end is closed with a byte unread."""
    ours, theirs = socket.socketpair()
    theirs.sendall(sheet)
    ours.sendall(b"x")
    theirs.close()
    return ours


# ---- cases

class Part:
    """Equals each text that has these parts."""

    def __init__(self, *parts):
        self.parts = parts

    def __eq__(self, text):
        return all(part in text for part in self.parts)

    def __repr__(self):
        return f"<a text with {' and '.join(map(repr, self.parts))}>"


class Start:
    """Equals each text that starts so."""

    def __init__(self, start):
        self.start = start

    def __eq__(self, text):
        return text.startswith(self.start)

    def __repr__(self):
        return f"<a text that starts {self.start!r}>"


class Without(Part):
    """Equals each text that has none of these parts."""

    def __eq__(self, text):
        return not any(part in text for part in self.parts)

    def __repr__(self):
        return f"<a text without {' or '.join(map(repr, self.parts))}>"


def shown(value):
    """A value as a failed case tells it: a line for each part of a tuple, and of a long text both ends."""
    if isinstance(value, tuple):
        return "".join(f"\n    {shown(part)}" for part in value)
    text = repr(value)
    return text if len(text) <= 3000 else f"{text[:1500]} .. {text[-1500:]}"


class Cases(unittest.TestCase):
    """A test that counts its cases. One without any has failed."""

    needs = ()  # what must have been built
    counted = 0

    @classmethod
    def setUpClass(cls):
        for path in cls.needs:
            if not path.is_file():
                raise FileNotFoundError(f"{path.relative_to(TOP)} is missing: run `{MADE_BY[path]}` first")

    def tearDown(self):
        self.assertTrue(self.counted, "no case ran")

    def case(self, name):
        self.counted += 1
        return self.subTest(name)

    def same(self, name, came, expected):
        with self.case(name):
            if came != expected:
                self.fail(f"\nexpected: {shown(expected)}\ncame: {shown(came)}")

    def folder(self):
        return pathlib.Path(self.enterContext(tempfile.TemporaryDirectory()))


class Counted(unittest.TextTestResult):
    """Counts cases, and what went wrong outside of them as failed ones."""

    passed = failed = 0

    def addSubTest(self, test, subtest, err):
        super().addSubTest(test, subtest, err)
        if err is None:
            self.passed += 1
        else:
            self.failed += 1

    def addError(self, test, err):
        super().addError(test, err)
        self.failed += 1

    def addFailure(self, test, err):
        super().addFailure(test, err)
        self.failed += 1


def run_tests(names):
    """Runs tests/test_NAME.py of each name. The last line counts the cases."""
    tests = unittest.defaultTestLoader.loadTestsFromNames(f"test_{name}" for name in names)
    result = unittest.TextTestRunner(stream=sys.stdout, resultclass=Counted).run(tests)
    print(f"{result.passed} passed, {result.failed} failed")
    return 1 if result.failed or not result.passed else 0


# ---- the examples

def compiled(source, *options):
    """A program in C over the archive."""
    program = TOP / "target/host" / pathlib.Path(source).stem
    program.parent.mkdir(parents=True, exist_ok=True)
    built = run("gcc", "-std=c11", *WARNINGS, *options, "-Iinclude", source, ARCHIVE, "-o", program)
    if built != (0, "", ""):
        raise RuntimeError(f"gcc {source}: {built}")
    return program


def hosts(example):
    """An example as a host in C, Rust and Python: the language, and the command without its arguments."""
    yield "C", (compiled(f"examples/{example}.c"),)
    yield "Rust", ("cargo", "run", *CARGO, "-p", "taskgraph", "--example", example, "--")
    yield "Python", ("env", f"TASKGRAPH_LIBRARY={SHARED}", "python3", TOP / f"examples/{example}.py")


# ---- building

def small_repository(folder, scripts, files):
    """A repository with copies of some scripts, and files with these texts; those in bin/ can be run."""
    copies = {f"scripts/{name}": (TOP / "scripts" / name).read_text() for name in scripts}
    for path, text in {**copies, **files}.items():
        (folder / path).parent.mkdir(parents=True, exist_ok=True)
        (folder / path).write_text(text)
        (folder / path).chmod(0o755 if path.startswith("bin/") else 0o644)
    return folder
