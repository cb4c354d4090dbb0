"""An answer of the program jobsheet is whole, or told to be missing, and what was there is not lost."""
import os
import resource
import signal
import stat
import subprocess

from helper import ANY, JOBSHEET, Cases, Part, Without, no_reader, run, with_descriptor
from test_jobsheet import MISTAKES, PATIENCE, VALLEY, jobsheet


def little_room():
    """A file may have 16 bytes, and a longer write fails."""
    resource.setrlimit(resource.RLIMIT_FSIZE, (16, 16))
    signal.signal(signal.SIGXFSZ, signal.SIG_IGN)


class Answers(Cases):
    needs = (JOBSHEET,)

    def setUp(self):
        self.room, self.plain = self.folder(), jobsheet("show", VALLEY).out
        self.out, self.link, self.other = (self.room / name for name in ("out", "link", "other"))
        self.out.write_text("before")
        self.other.write_text("before")
        self.link.symlink_to(self.out)
        self.full = self.enterContext(open("/dev/full", "wb"))

    def tearDown(self):
        super().tearDown()
        left = {path.name for path in self.room.iterdir()} - {"fresh", "fifo", "lost"}
        self.same("nothing half done is left", left, {"link", "other", "out"})

    def script(self, text):
        return run("bash", "-c", text, JOBSHEET, VALLEY, cwd=self.room, text=False, timeout=PATIENCE)

    def test_files(self):
        self.out.chmod(0o640)
        ran = jobsheet("show", VALLEY, "-o", self.link)
        self.same("an answer to a file behind a link", ran, (0, b"", ANY))
        kept = self.out.read_bytes(), self.link.is_symlink(), stat.S_IMODE(self.out.stat().st_mode)
        self.same("the link and its file's mode are kept", kept, (self.plain, True, 0o640))
        ran = jobsheet("show", MISTAKES, "--from", "bytes", "-o", self.out)
        self.same("a fault leaves the file as it was", (ran.status, self.out.read_bytes()), (1, self.plain))
        ran = jobsheet("pack", self.out, "-o", self.link)
        self.same("no answer in the sheet's place", (ran.status, self.out.read_bytes()), (2, self.plain))
        for name, path in (("standard output", "/dev/stdout"), ("its descriptor", "/dev/fd/1")):
            self.other.write_text("before\n")
            with open(self.other, "ab") as more:
                jobsheet("show", VALLEY, "-o", path, stdout=more)
            self.same(f"an answer behind what {name} has", self.other.read_bytes(), b"before\n" + self.plain)
        lost = self.room / "lost"
        lost.symlink_to(self.room / "none")
        ran = jobsheet("show", VALLEY, "-o", lost)
        left = ran.status, lost.is_symlink(), (self.room / "none").exists()
        self.same("a link that leads nowhere", left, (2, True, False))
        if os.geteuid():
            self.out.chmod(0o444)
            ran = jobsheet("show", VALLEY, "-o", self.out)
            self.same("a file that may not be written", ran, (2, ANY, Part(b"cannot be written")))
        ran = jobsheet("show", VALLEY, "-o", self.room)
        self.same("a folder for an answer", ran, (2, ANY, Part(b"cannot be written")))

    def test_taken_name(self):
        """A name that somebody has is not taken for the file that is written first: a shell becomes the program, so its
        number is known."""
        ran = self.script('ln -s other ".jobsheet.$$.0"; exec "$0" show "$1" -o fresh')
        fresh = self.room / "fresh"
        kept = ran.status, self.other.read_bytes(), fresh.read_bytes(), fresh.is_symlink()
        self.same("a name that somebody has", kept, (0, b"before", self.plain, False))
        for path in self.room.glob(".jobsheet.*"):
            path.unlink()

    def test_no_room(self):
        ran = jobsheet("show", VALLEY, "-o", self.other, preexec_fn=little_room)
        self.same("no room for an answer", (ran.status, self.other.read_bytes()), (2, b"before"))

    def test_failing_streams(self):
        for name, stream in (("a full device", self.full), ("a pipe without a reader", no_reader())):
            ran = jobsheet("check", VALLEY, stdout=stream)
            self.same(name, ran, (2, None, Part(b"standard output cannot be written")))
        self.same("standard error without a reader", jobsheet("check", VALLEY, stderr=no_reader()).status, 0)
        ran = jobsheet("check", self.room / "none", stderr=self.full)
        self.same("a message that cannot be written", ran.status, 2)
        ran = jobsheet("show", b"\xff\x1b[31m", cwd=self.room)
        self.same("a file's name that is no text", ran, (2, ANY, Without(b"\x1b")))
        fifo = self.room / "fifo"
        os.mkfifo(fifo)
        with subprocess.Popen(["timeout", str(PATIENCE), "cp", VALLEY, fifo]):
            self.same("a fifo", jobsheet("show", fifo).out, self.plain)

    def test_descriptors(self):
        """Streams that are closed, or open the wrong way, lose no answer; those that are named are gone on with."""
        for words, how in (
            (["show", VALLEY], ">&-"), (["show", VALLEY], "1</dev/null"),
            (["show", VALLEY, "-o", "/dev/stdout"], ">&-"),
            (["show", VALLEY, "-o", "/dev/fd/1"], ">&-"), (["show", VALLEY, "-o", "/dev/fd/7"], "7</dev/null"),
            (["--version"], "1</dev/null"), (["check"], "<&-"), (["check"], "0>/dev/null"),
            (["check", "/dev/stdin"], "<&-"),
        ):
            ran = run(*with_descriptor(how, JOBSHEET, *words), text=False, timeout=PATIENCE)
            self.same(f"{words} {how}", ran, (2, ANY, Part(b"open for")))
        ran = self.script('{ "$0" show "$1" -o /dev/fd/3; echo END >&3; } 3>three; cat three; rm three')
        self.same("a descriptor keeps its place", ran.out, self.plain + b"END\n")
        ran = self.script('"$0" show "$1" -o /dev/fd/3 3>&1 | cat')
        self.same("a descriptor of a pipe", (ran.out, ran.err), (self.plain, b""))
        ran = self.script('cp "$1" own; "$0" show --csv -o own <own; cmp own "$1"; ln own hard; "$0" show own -o hard; '
                          "rm own hard")
        told = ran.out, ran.err.count(b"overwrite a sheet"), ran.err
        self.same("a sheet's place, from standard input", told, (b"", 2, ANY))
