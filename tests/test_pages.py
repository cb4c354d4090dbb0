"""The pages of docs/ that scripts make are those of today, and docs/CLAIM.md has the hash of today's sources."""
from helper import ANY, Cases, run


class Pages(Cases):
    def test_pages(self):
        for command in ("claim --sources", "closure --check", "statements --check"):
            self.same(command, run("python3", *f"scripts/{command}".split()), (0, ANY, ""))
