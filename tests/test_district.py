"""The hosts that load a district's minutes, in C, Rust and Python, on examples/district.minutes and on files with
something wrong in them.

Each prints examples/district.list of the first. Of the others it says the file, the line and the reason, with exit
status 1.
"""
from helper import ANY, SHARED, TOP, Cases, Part, Start, hosts, run

MINUTES = TOP / "examples/district.minutes"
LIST = (TOP / "examples/district.list").read_text()
GOOD = [f"{class_} {3 * class_ + 4}" for class_ in range(16)]

# What stands on the third line in place of class 2, and what is said of the file, with the line's number if it has one.
LINES = [
    ("2", 3, "not a class and its minutes"),
    ("2 10 3", 3, "not a class and its minutes"),
    ("two 10", 3, "not a class and its minutes"),
    ("2 ten", 3, "not a class and its minutes"),
    ("2,10", 3, "not a class and its minutes"),
    ("-2 10", 3, "not a class and its minutes"),
    ("+2 10", 3, "not a class and its minutes"),
    ("2 10.5", 3, "not a class and its minutes"),
    ("2 0x10", 3, "not a class and its minutes"),
    ("2 4294967296", 3, "not a class and its minutes"),
    ("2 99999999999999999999999", 3, "not a class and its minutes"),
    ("2 # 10", 3, "not a class and its minutes"),
    ("2 10\0 11", 3, "not a class and its minutes"),
    ("\0", 3, "not a class and its minutes"),
    ("16 10", 3, "class 16 is above 15"),
    ("4294967295 10", 3, "class 4294967295 is above 15"),
    ("1 10", 3, "class 1 stands twice"),
    ("2 0", 3, "0 minutes are not 1 to 1440"),
    ("2 1441", 3, "1441 minutes are not 1 to 1440"),
    ("2 4294967295", 3, "4294967295 minutes are not 1 to 1440"),
    ("2 7", 3, "class 2 has no more minutes than the class below"),
    ("2 6", 3, "class 2 has no more minutes than the class below"),
    ("2 13", 4, "class 3 has no more minutes than the class below"),
    ("2 1440", 4, "class 3 has no more minutes than the class below"),
    ("", None, "class 2 is missing"),
    ("# 2 10", None, "class 2 is missing"),
]


class District(Cases):
    needs = (SHARED,)

    def test_hosts(self):
        folder = self.folder()
        for language, command in hosts("district"):
            self.files(language, command, folder)
        nowhere = ("env", "TASKGRAPH_LIBRARY=/nowhere", "python3", "examples/district.py")
        self.same("the library as an argument", run(*nowhere, MINUTES, SHARED), (0, LIST, ""))

    def files(self, language, command, folder):
        file = folder / "minutes"
        self.same(f"{language}: the example", run(*command, MINUTES), (0, LIST, ""))
        # in any order, with comments, tabs and line ends of another system
        file.write_bytes("\r\n".join(f" \t{line}\t # comment" for line in reversed(GOOD)).encode())
        ran = run(*command, file)
        self.same(f"{language}: another order", (*ran, ran.out.count("\n")), (0, ANY, "", 7))
        for text, line, reason in LINES:
            file.write_text("\n".join([*GOOD[:2], text, *GOOD[3:], ""]))
            told = f"{file}: {reason}\n" if line is None else f"{file}:{line}: {reason}\n"
            self.same(f"{language}: {text!r}", run(*command, file), (1, "", told))
        file.write_text("")
        for what, wrong in (("an empty file", file), ("no such file", folder / "nowhere"), ("a folder", folder)):
            ran = run(*command, wrong)
            self.same(f"{language}: {what}", (*ran, ran.err.count("\n")), (1, "", Start(f"{wrong}: "), 1))
        self.same(f"{language}: no file", run(*command), (2, "", Part("usage: district")))
