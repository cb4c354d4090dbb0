"""Each must-fail edit can be made: the text that it replaces stands in its file once.

The gate (rt ci) tries the edits after it has proved every crate; this says in a second which no longer fits the code.
"""
from helper import TOP, Cases


def fault(edit):
    """What is wrong with an edit, or None."""
    crate, files, name, old, pairs = edit.parent.parent, {}, None, None, 0
    for line in edit.read_text(encoding="utf8").split("\n"):
        if line.startswith("file: "):
            name = line[6:]
            if not (crate / name).is_file():
                return f"there is no file {name}"
            files.setdefault(name, (crate / name).read_text(encoding="utf8"))
        elif line.startswith("old: "):
            old = line[5:]
        elif line.startswith("new:") and (not name or old is None):
            return "a `new:` without its `file:` and `old:`"
        elif line.startswith("new:"):
            count = files[name].count(old)
            if count != 1:
                return f"{name} has the old text {count} times"
            files[name] = files[name].replace(old, line[4:].removeprefix(" "))
            old, pairs = None, pairs + 1
    return None if pairs else "it has no `old:` and `new:` pair"


class Edits(Cases):
    def test_edits(self):
        for edit in sorted(TOP.glob("crates/*/must-fail/*.edit")):
            self.same(edit.relative_to(TOP), fault(edit), None)
