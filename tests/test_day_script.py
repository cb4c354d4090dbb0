"""scripts/day-list on sheets, where reading or writing fails, and where the program must be built.

For the building, copies of the scripts stand in a small repository with an `rt` that proves nothing and counts its
calls. test_day_list.py tests the program itself.
"""
import os
import shutil
import socket
import subprocess

from helper import DAYLIST, TOP, Cases, Part, Start, cut_off, no_reader, run, small_repository, with_descriptor

SCRIPT = ("bash", TOP / "scripts/day-list")
FOUR = (TOP / "examples/four-jobs.sheet").read_bytes()
DAY = (TOP / "crates/daylist/stdout").read_bytes()
JOB = b"\x01\x05\x00\x00\x00"
AGAIN = b"refused 1 7\nrefused 2 7\njobs 1 workers 2\n0 5 0\nleft 0\n"
RT = """#!/bin/sh
echo "$PWD: $@" >>../../calls
[ ! -e ../../refuse ] || { echo "day-list: from the log"; exit 1; }
case $1 in
all) printf '%s\\n' "== words" "== daylist" "logic=proved functions=3" "== summary" "words: ok" "daylist: ok" ;;
run) mkdir -p out && cp ../../program out/daylist && exec out/daylist ;;
esac
"""


class Said(Part):
    """Equals what the script says on standard error: each line is its own, and all parts are there; nothing where there
    is no part."""

    def __eq__(self, text):
        ours = all(line.startswith(b"day-list: ") for line in text.splitlines())
        return ours and super().__eq__(text) and bool(text) == bool(self.parts)


class DayScript(Cases):
    needs = (DAYLIST,)

    @classmethod
    def setUpClass(cls):
        super().setUpClass()
        if run(*SCRIPT, "/dev/null").status:  # from here on there is nothing to build
            raise RuntimeError("scripts/day-list cannot list an empty sheet")

    def lists(self, name, command, printed=DAY, status=0, said=(), **how):
        self.same(name, run(*command, text=False, **how), (status, printed, Said(*said)))

    def refuses(self, name, command, said, printed=b"", **how):
        self.lists(name, command, printed, 2, [said], **how)

    def file(self, *where):
        return self.enterContext(open(*where))

    def test_help(self):
        text = run(*SCRIPT, "--help", text=False).out
        self.same("--help", text, Start(b"usage: day-list [SHEET|-]\n"))
        self.lists("-h", [*SCRIPT, "-h"], text)
        full = self.file("/dev/full", "wb")
        self.refuses("help on a full device", [*SCRIPT, "-h"], b"cannot be written", None, stdout=full)

    def test_sheets(self):
        """Files, streams and standard input, read and listed."""
        folder = self.folder()
        sheet, again, broken, fifo = (folder / name for name in ("a sheet", "again", "broken", "fifo"))
        sheet.write_bytes(FOUR)
        again.write_bytes(JOB * 3)
        broken.write_bytes(FOUR + b"\x02")
        (folder / "-h").write_bytes(FOUR)
        os.mkfifo(fifo)
        self.lists("a sheet", [*SCRIPT, sheet])
        self.lists("a sheet, standard input closed", with_descriptor("<&-", *SCRIPT, sheet))
        self.lists("a sheet, standard error closed", with_descriptor("2>&-", *SCRIPT, sheet))
        self.lists("a sheet named as an option", [*SCRIPT, "./-h"], cwd=folder)
        self.lists("standard input", SCRIPT, stdin=self.file(sheet, "rb"))
        self.lists("standard input as -", [*SCRIPT, "-"], stdin=self.file(sheet, "rb"))
        with subprocess.Popen(["timeout", "600", "cp", sheet, fifo]):
            self.lists("a fifo", [*SCRIPT, fifo])
        self.lists("a device", [*SCRIPT, "/dev/null"], b"jobs 0 workers 2\nleft 0\n")
        self.lists("refused entries", [*SCRIPT, again], AGAIN, 1, [b"entries refused: 2;"])
        self.lists("a broken sheet", [*SCRIPT, broken], b"broken 29 13\n", 1, [b"the sheet is broken"])

    def test_refusals(self):
        """No list, and a message."""
        folder = self.folder()
        sheet, plug, locked = (folder / name for name in ("a sheet", "plug", "locked"))
        sheet.write_bytes(FOUR)
        self.enterContext(socket.socket(socket.AF_UNIX)).bind(str(plug))
        locked.write_bytes(FOUR)
        locked.chmod(0)
        place = os.open(folder, os.O_RDONLY)
        self.addCleanup(os.close, place)
        cut, full = self.enterContext(cut_off(FOUR)), self.file("/dev/full", "wb")
        self.refuses("no such file", [*SCRIPT, folder / "none"], b"there is no sheet")
        self.refuses("a folder", [*SCRIPT, folder], b"is a folder")
        self.refuses("a socket", [*SCRIPT, plug], b"neither a file nor a stream")
        if os.geteuid() == 0:
            print("left out: a file that may not be read, since root may read every file")
        else:
            self.refuses("a file that may not be read", [*SCRIPT, locked], b"may not be read")
        self.refuses("two sheets", [*SCRIPT, sheet, sheet], b"one sheet at a time")
        self.refuses("an unknown option", [*SCRIPT, "-x"], b"no option -x")
        self.refuses("a folder as standard input", SCRIPT, b"the sheet cannot be read", stdin=place)
        self.refuses("standard input closed", with_descriptor("<&-", *SCRIPT), b"standard input is closed")
        self.refuses("- with standard input closed", with_descriptor("<&-", *SCRIPT, "-"), b"standard input is closed")
        self.refuses("a read that fails after a whole sheet", SCRIPT, b"cannot be read", stdin=cut)
        self.refuses("standard output closed", with_descriptor(">&-", *SCRIPT, sheet), b"standard output is closed")
        self.refuses("a full device", [*SCRIPT, sheet], b"cannot be written", None, stdout=full)
        self.refuses("a pipe without a reader", [*SCRIPT, sheet], b"cannot be written", None, stdout=no_reader())

    def test_building(self):
        """The program is built where it is missing or its sources have changed, and only there."""
        files = {"crates.txt": "daylist:\n", "crates/daylist/src/main.rt": "one\n", "include/none": "", "bin/rt": RT,
                 "calls": "", "empty/none": ""}
        folder = small_repository(self.folder(), ("day-list", "sources"), files)
        source = folder / "crates/daylist/src/main.rt"
        shutil.copy(DAYLIST, folder / "program")
        with_rt = {**os.environ, "PATH": f"{folder}/bin:{os.environ['PATH']}"}

        def lists(name, status, said, builds, printed=DAY, env=with_rt):
            four = self.file(TOP / "examples/four-jobs.sheet", "rb")
            ran = run("bash", folder / "scripts/day-list", cwd=folder / "empty", env=env, stdin=four, text=False)
            calls = (folder / "calls").read_text().count("crates/daylist: all check ")
            self.same(name, (*ran, calls), (status, printed, Said(*said), builds))

        proved = [b"day-list: daylist proved\n"]
        lists("the program is missing", 0, proved, 1)
        lists("nothing has changed", 0, [], 1)
        os.utime(source, (2**31, 2**31))
        lists("a time has changed", 0, [], 1)
        source.write_text("two\n")
        lists("a source has changed", 0, proved, 2)
        (source.parent / "more.rt").write_text("")
        lists("a source has come", 0, proved, 3)
        (source.parent / "more.rt").unlink()
        (folder / "refuse").touch()
        lists("a proof is refused", 2, [b"from the log\nday-list: the program cannot be built"], 4, b"")
        lists("it is refused again", 2, [b"the program cannot be built"], 5, b"")
        (folder / "refuse").unlink()
        lists("it is put right", 0, proved, 6)
        (folder / "crates/daylist/out/daylist").unlink()
        lists("the program was removed", 0, proved, 7)
        source.write_text("three\n")
        tools = folder / "tools"  # all that the script needs but rt
        tools.mkdir()
        for name in ("bash", "cat", "cut", "dirname", "find", "readlink", "sha256sum", "sort"):
            (tools / name).symlink_to(shutil.which(name))
        lists("rt is missing", 2, [b"the command rt is missing"], 7, b"", env={"PATH": str(tools)})
