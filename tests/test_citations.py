"""Each citation of a document of docs/ with a heading, in crates, hosts, scripts and tests, names one that it has."""
import functools
import os
import pathlib
import re

from helper import TOP, Cases

FOLDERS = ("crates", "host", "rust", "jobsheet", "python", "include", "lib", "examples", "scripts", "tests")
TEXTS = (".antt", ".rt", ".rs", ".py", ".h", ".c", "")
CITED = re.compile(r'docs/(\w+\.md)(?:,| \()\s*((?:"[^"]+"(?:,? and |, |; )?)+)')


@functools.cache
def headings(name):
    path = TOP / "docs" / name
    text = path.read_text(encoding="utf8") if path.exists() else ""
    return {match[1].strip() for match in re.finditer(r"^#+ (.*)$", text, re.M)}


def plain(text):
    """The text with its comment marks and line breaks as single spaces."""
    return re.sub(r"\s*\n\s*(?:--|//[/!]?|\*|#)?\s*", " ", text)


def files():
    """The files of the repository's folders, without what is built."""
    for folder in FOLDERS:
        for place, folders, names in os.walk(TOP / folder):
            folders[:] = sorted({*folders} - {"target", "out"})
            yield from (pathlib.Path(place, name) for name in sorted(names))


def citations():
    """Each file that cites, with the document and its heading."""
    for path in files():
        if path.suffix in TEXTS:
            for name, quoted in CITED.findall(plain(path.read_text(encoding="utf8", errors="ignore"))):
                for heading in re.findall(r'"([^"]+)"', quoted):
                    yield path.relative_to(TOP), name, heading


class Citations(Cases):
    def test_headings(self):
        for path, name, heading in citations():
            with self.case(f"{path} cites docs/{name}"):
                self.assertIn(heading, headings(name))
