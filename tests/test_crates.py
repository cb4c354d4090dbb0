"""The table of crates in docs/DESIGN.md fits crates.txt: a row for each crate, and no import that it forbids.

The third column says what may import a crate: `all`, `theorems`, `code`, `interface`, `nothing`, or several of these.
What a crate is itself is said by the heading above its row.
"""
import re

from helper import TOP, Cases

KINDS = {"Definitions": "definitions", "Theorems": "theorems", "Code": "code", "Interface": "interface"}


def table():
    """Each crate of the document: its kind, and what may import it."""
    kind, rows = None, {}
    for line in (TOP / "docs/DESIGN.md").read_text(encoding="utf8").split("\n"):
        if line.startswith("#"):
            kind = KINDS.get(line.lstrip("# ").split(" ")[0])
        row = re.match(r"\| `(\w+)` \|.*\| ([\w, ]+) \|$", line)
        if kind and row:
            rows[row[1]] = (kind, {word.strip() for word in row[2].split(",")})
    return rows


def listed():
    lines = (TOP / "crates.txt").read_text(encoding="utf8").split("\n")
    found = (re.match(r"(\w+)(?: staticlib)?:(.*)$", line) for line in lines)
    return {match[1]: match[2].split() for match in found if match}


class Crates(Cases):
    def test_rows(self):
        rows, crates = table(), listed()
        for name in sorted({*rows, *crates}):
            there = {"docs/DESIGN.md": name in rows, "crates.txt": name in crates}
            self.same(name, there, {"docs/DESIGN.md": True, "crates.txt": True})

    def test_imports(self):
        rows = table()
        for name, uses in listed().items():
            kind = rows[name][0] if name in rows else None
            wrong = {used: rows[used] for used in uses if kind and used in rows and not rows[used][1] & {"all", kind}}
            self.same(f"what {name}, {kind}, imports and may not", wrong, {})
