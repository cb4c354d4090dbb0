"""The lists of the C interface's functions agree.

The header, include/taskgraph.h, is what the others are held to. What target/staticlib/libtaskgraph.a exports and what
host/c/check.c calls are the functions that it declares, by name. What is proved in crates/, and what rust/src/ffi.rs
declares for Rust, has the same structs, field by field, and the same functions, parameter by parameter; the constants of
ffi.rs and of rust/src/raw.rs have the header's values. Only names with the prefix tg_ count.
"""
import re

from helper import ARCHIVE, TOP, Cases, run

HEADER, RUST = "include/taskgraph.h", "rust/src/ffi.rs"
# The structs of crates/ that the header calls otherwise, and the functions that are C's.
CALLED = {
    "GraphAnswer": "Answer", "EntryRead": "Reading", "SheetScanned": "Sheet", "EntryWritten": "Written",
    "Drained": "DrainedAnswer", "DayPrinted": "Day", "SheetRoom": "Room",
}
IN_C = ("tg_message", "tg_version")


def without_comments(path):
    """The text of a source file without comments and strings."""
    text = (TOP / path).read_text()
    return re.sub(r'/\*.*?\*/|//[^\n]*|"(?:\\.|[^"\\\n])*"', " ", text, flags=re.S)


def c_names(path):
    """The names followed by an opening bracket."""
    return set(re.findall(r"\b(tg_\w+)\s*\(", without_comments(path)))


def exported(path):
    shown = run("nm", "--extern-only", "--defined-only", "--format=posix", path).out
    return {line.split()[0] for line in shown.splitlines() if line.startswith("tg_")}


# ---- declarations, each as `name: type` in Rust's words

C_TYPES = {"char": "c_char", "uint8_t": "u8", "uint32_t": "u32", "size_t": "usize"}


def rust_type(c_type):
    """tg_sheet_written is SheetWritten."""
    camel = "".join(part.capitalize() for part in c_type.split("_")[1:])
    return C_TYPES.get(c_type, camel)


def from_c(declarations):
    """`const uint8_t *sheet` is `sheet: *const u8`; one declaration may name several fields."""
    said = []
    for declaration in declarations:
        const, base, names = re.fullmatch(r"(const )?(\w+) (.*)", declaration).groups()
        for name in re.split(r", *", names):
            pointer, name, length = re.fullmatch(r"(\*?)(\w+)(?:\[(\w+)\])?", name).groups()
            kind = rust_type(base)
            if pointer:
                kind = ("*const " if const else "*mut ") + kind
            if length:
                kind = f"[{kind}; {length.removeprefix('TG_')}]"
            said.append(f"{name.rstrip('_')}: {kind}")
    return said


def pieces(text, separator):
    return [" ".join(piece.split()) for piece in text.split(separator) if piece.strip()]


def c_declarations(path):
    text = without_comments(path).replace("\\\n", " ")
    macros = re.findall(r"^ *#define (TG_\w+) +(.*)", text, flags=re.M)
    text = re.sub(r"^ *#.*", "", text, flags=re.M)
    for name, parameters in macros:
        text = re.sub(rf"\b{name}\b", parameters, text)
    found = {
        rust_type(name): ", ".join(from_c(pieces(fields, ";")))
        for fields, name in re.findall(r"typedef struct \{(.*?)\} (tg_\w+);", text, flags=re.S)
    }
    for answer, name, parameters in re.findall(r"((?:const )?\w+ \*?)(tg_\w+)\((.*?)\);", text, flags=re.S):
        listed = [] if parameters.strip() == "void" else from_c(pieces(parameters, ","))
        found[name] = f"({', '.join(listed)}) -> {from_c([answer + 'answer'])[0].removeprefix('answer: ')}"
    return found


def rust_declarations(path):
    text = without_comments(path)
    found = {
        name: ", ".join(field.removeprefix("pub ") for field in pieces(fields, ","))
        for name, fields in re.findall(r"pub struct (\w+) \{(.*?)\n\}", text, flags=re.S)
    }
    for name, parameters, answer in re.findall(r"pub fn (tg_\w+)\((.*?)\) -> ([^;]*);", text, flags=re.S):
        found[name] = f"({', '.join(pieces(parameters, ','))}) -> {answer}"
    return found


STRUCT = re.compile(r"#\[repr\(C\)\]\s*(?:#\[derive\([\w, ]*\)\]\s*)?pub struct (\w+) \{(.*?)\n\}", re.S)


def proved_declarations():
    """The structs and functions of crates/ that C sees. A slice is a pointer and a count."""
    found = {}
    for path in sorted(TOP.glob("crates/*/src/**/*.rt")):
        text = without_comments(path)
        for name, fields in STRUCT.findall(text):
            found[name] = ", ".join(field.removeprefix("pub ") for field in pieces(fields, ","))
        for name, parameters, answer in re.findall(r'pub extern\s+fn (tg_\w+)\((.*?)\) -> (\w+)', text, flags=re.S):
            listed = ", ".join(pieces(parameters, ","))
            for lent, pointer in ("&mut ", "*mut"), ("&", "*const"):
                listed = re.sub(rf"(\w+): {lent}\[(\w+)\]", rf"\1: {pointer} \2, \1_len: usize", listed)
            found[name] = f"({listed}) -> {answer}"
    called = re.compile(rf"\b({'|'.join(CALLED)})\b")
    return {called.sub(lambda name: CALLED[name[1]], name): called.sub(lambda name: CALLED[name[1]], said)
            for name, said in found.items()}


def constants(pattern, path):
    return {name: value.replace("_", "") for name, value in re.findall(pattern, without_comments(path))}


class Interface(Cases):
    needs = (ARCHIVE,)

    def compare(self, path, there, wanted):
        """What a file has, by name, against what the header has; "-" where one has it not."""
        for name in sorted({*there, *wanted}):
            self.same(f"{name} in {path}", there.get(name, "-"), wanted.get(name, "-"))

    def test_names(self):
        """Every function is exported, called in C, and its declaration understood."""
        declared = dict.fromkeys(c_names(HEADER), "there")
        self.compare(ARCHIVE.name, dict.fromkeys(exported(ARCHIVE), "there"), declared)
        self.compare("host/c/check.c", dict.fromkeys(c_names("host/c/check.c"), "there"), declared)
        understood = [name for name in c_declarations(HEADER) if name.startswith("tg_")]
        self.compare("what this test understands", dict.fromkeys(understood, "there"), declared)

    def test_declarations(self):
        self.compare(RUST, rust_declarations(RUST), c_declarations(HEADER))

    def test_proved(self):
        """By numerals: crates/ may call a length otherwise."""
        header = constants(r"\bTG_(\w+) = (\w+)", HEADER)
        wanted = {name: re.sub(r"; (\w+)\]", lambda length: f"; {header.get(length[1], length[1])}]", said)
                  for name, said in c_declarations(HEADER).items() if name not in IN_C}
        self.compare("crates/", proved_declarations(), wanted)

    def test_constants(self):
        header = constants(r"\bTG_(\w+) = (\w+)", HEADER)
        for path in (RUST, "rust/src/raw.rs"):
            for name, value in constants(r"pub const (\w+): \w+ = (\w+);", path).items():
                self.same(f"{name} in {path}", value, header.get(name, "-"))
