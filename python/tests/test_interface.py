"""The structs and functions of the package beside those of include/taskgraph.h."""
import ctypes
import re
import unittest

from support import TOP
from taskgraph import Call, Outcome, _interface

KINDS = {"uint32_t": ctypes.c_uint32, "size_t": ctypes.c_size_t}
# Of these a host in Python has no need: whole sheets are read and written, and the board by the fixed minutes is the
# graph's.
UNUSED = {"tg_read_entry", "tg_write_entry", "tg_totals_of_words", "tg_totals_of_records", "tg_version"}


def header():
    text = (TOP / "include/taskgraph.h").read_text()
    text = re.sub(r"/\*.*?\*/", " ", text, flags=re.S)
    constants = dict(re.findall(r"\b(TG_\w+) = (\d+)", text))
    text = re.sub(r"^#(?:.*\\\n)*.*$", "", text, flags=re.M)
    return re.sub(r"\[(TG_\w+)\]", lambda length: f"[{constants[length[1]]}]", text), constants


def fields(body):
    """The fields of a C struct as ctypes has them."""
    found = []
    for kind, names in re.findall(r"(\w+) ([^;]+);", body):
        for name, _, length in re.findall(r"(\w+)(\[(\d+)\])?", names):
            base = KINDS[kind] if kind in KINDS else getattr(_interface, kind)
            found.append((name, base * int(length) if length else base))
    return found


def arguments(text):
    """How many arguments a declaration has; TG_TABLES and TG_TABLES_READ stand for ten."""
    return sum(10 if argument.strip().startswith("TG_TABLES") else 1 for argument in text.split(","))


class Interface(unittest.TestCase):
    def test_structs(self):
        text, _ = header()
        declared = dict((name, body) for body, name in re.findall(r"typedef struct \{([^}]*)\} (\w+);", text))
        ours = {name: kind for name, kind in vars(_interface).items() if name.startswith("tg_")}
        self.assertLessEqual(ours.keys(), declared.keys())
        for name in ours:
            with self.subTest(name):
                self.assertEqual(ours[name]._fields_, fields(declared[name]))

    def test_functions(self):
        text, _ = header()
        declared = {
            name: (answer, arguments(taken))
            for answer, name, taken in re.findall(r"^([\w ]+?\*?) ?\b(tg_\w+)\(([^)]*)\);", text, flags=re.M)
        }
        bound = {**_interface.FUNCTIONS, **_interface.OPTIONAL}
        self.assertLessEqual(_interface.FUNCTIONS.keys(), declared.keys())
        self.assertEqual(declared.keys() - bound.keys() - UNUSED, set())
        for name in declared.keys() & bound.keys():
            with self.subTest(name):
                answer, taken = bound[name]
                self.assertEqual(len(taken), declared[name][1])
                if declared[name][0] in KINDS:
                    self.assertIs(answer, KINDS[declared[name][0]])
                elif answer is not ctypes.c_char_p:
                    self.assertEqual(answer.__name__, declared[name][0])

    def test_constants(self):
        _, constants = header()
        self.assertEqual(int(constants["TG_MAX_NAMES"]), _interface.MAX_NAMES)
        self.assertEqual(int(constants["TG_MAX_ENTRIES"]), _interface.MAX_ENTRIES)
        self.assertEqual(int(constants["TG_CLASSES"]), _interface.CLASSES)
        self.assertEqual(int(constants["TG_ENTRY_WORDS"]) * 4, ctypes.sizeof(_interface.tg_entry))
        for name in ("REFUSED", "GOING_ON", "HANDED_OUT"):
            self.assertEqual(int(constants[f"TG_{name}"]), getattr(_interface, name))
        calls = {name: int(value) for name, value in constants.items() if name.startswith("TG_CALL_")}
        if calls:
            self.assertEqual(calls, {f"TG_CALL_{call.name}": call.value for call in Call})
        for outcome in Outcome:
            self.assertEqual(int(constants[f"TG_{outcome.name}"]), outcome.value)
