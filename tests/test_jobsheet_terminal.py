"""The program jobsheet at a terminal: colours, bytes, progress, and a sheet that is typed."""
import os
import pty
import re
import select
import subprocess
import time

from helper import JOBSHEET, Cases, Part, Without
from test_jobsheet import MISTAKES, PATIENCE, VALLEY, jobsheet

WITHOUT = {key: value for key, value in os.environ.items() if key != "NO_COLOR"}
PROGRESS = re.compile(rb"(\r\x1b\[Kjobsheet: \d+ bytes read)+")


def at_terminal(*words, typed=b"", env=(), fed=None, stdout=True):
    """Runs at a terminal, with what is typed there; or with standard input from a pipe that is fed only once something
    is shown. Answers the status and all that was shown, and what came out of the other pipe."""
    master, slave = pty.openpty()
    env = {"TERM": "xterm", "PATH": os.environ["PATH"], **dict(env)}
    child = subprocess.Popen([str(JOBSHEET), *map(str, words)], stdin=slave if fed is None else subprocess.PIPE,
                             stdout=slave if stdout else subprocess.PIPE, stderr=slave, env=env)
    os.close(slave)
    os.write(master, typed)
    shown, end = b"", time.monotonic() + PATIENCE
    while select.select([master], [], [], max(0, end - time.monotonic()))[0]:
        try:
            shown += os.read(master, 65536)
        except OSError:  # the other end is closed
            break
        if fed:
            child.stdin.write(fed)
            child.stdin.close()
            fed = None
    else:
        child.kill()
    piped = b"" if stdout else child.stdout.read()
    if child.stdout:
        child.stdout.close()
    os.close(master)
    return child.wait(timeout=PATIENCE), shown, piped


class Terminal(Cases):
    needs = (JOBSHEET,)

    def test_colours(self):
        piped = jobsheet("check", MISTAKES, env=WITHOUT).out
        self.same("no colours in a pipe", piped, Without(b"\x1b"))
        status, shown, _ = at_terminal("check", MISTAKES)
        plain = re.sub(rb"\x1b\[\d*m", b"", shown).replace(b"\r\n", b"\n")
        self.same("colours at a terminal", (status, shown, plain), (1, Part(b"\x1b[31mline 5"), piped))
        self.same("green where all is well", at_terminal("check", VALLEY), (0, Part(b"\x1b[32m"), b""))
        for name, env in (("NO_COLOR", {"NO_COLOR": "1"}), ("a dumb terminal", {"TERM": "dumb"})):
            self.same(f"no colours: {name}", at_terminal("check", MISTAKES, env=env), (1, Without(b"\x1b"), b""))

    def test_bytes(self):
        packed = jobsheet("pack", VALLEY).out
        self.same("no bytes for a terminal", at_terminal("pack", VALLEY), (2, Part(b"not for a terminal"), b""))
        self.same("bytes for a pipe", at_terminal("pack", VALLEY, stdout=False), (0, b"", packed))

    def test_typed(self):
        status, shown, _ = at_terminal("show", typed=b"7 needs 1\n\x04")
        told = b"reading the sheet from the terminal; Ctrl-D ends it\r\n"
        self.same("a sheet that is typed", (status, shown, shown[-11:]), (0, Part(told), b"7 needs 1\r\n"))

    def test_progress(self):
        # The sheet comes only once the line of progress was seen, however long that takes.
        status, shown, _ = at_terminal("show", fed=b"7\n8\n")
        self.same("progress", (status, PROGRESS.sub(b"PROGRESS", shown)), (0, b"PROGRESS\r\x1b[K7\r\n8\r\n"))
        reading, writing = os.pipe()
        child = subprocess.Popen([str(JOBSHEET), "show"], stdin=reading, stdout=subprocess.PIPE, stderr=subprocess.PIPE)
        os.close(reading)
        try:  # longer than the second after which progress would be said
            child.wait(timeout=1.5)
        except subprocess.TimeoutExpired:
            pass
        os.write(writing, b"7\n")
        os.close(writing)
        self.same("no progress but at a terminal", child.communicate(timeout=PATIENCE), (b"7\n", b""))
