"""The pictures of docs/pictures/ drawn again: the SVG is the same to the letter, and what a browser shows of it looks
like the PNG that is stored beside it.

With WRITE_PICTURES=1 both are stored anew first; then they are to be looked at.

The browser is Debian's chromium, with the font that the pictures name first (fonts-dejavu-core). Where either is not
installed that part is left out, and said to be.
"""
import os
import pathlib
import re
import shutil

import same_picture
from helper import JOBSHEET, TOP, Cases, run

STORED = TOP / "docs/pictures"
PICTURES = {
    "valley": ["draw", "valley.txt"],
    "mistakes": ["draw", "mistakes.txt"],
    "season": ["draw", "season.csv"],
    "valley-day": ["run", "valley.txt", "--workers", "3", "--svg"],
}
FONT = pathlib.Path("/usr/share/fonts/truetype/dejavu/DejaVuSans.ttf")
WRITE = os.environ.get("WRITE_PICTURES") == "1"


def drawn(words):
    """Drawn in examples/, so that a picture's heading is the file's bare name."""
    return run(JOBSHEET, *words, cwd=TOP / "examples", text=False, timeout=300).out


def browser():
    """The browser, if there is one that has the font."""
    found = shutil.which("chromium")
    missing = [name for name, there in (("chromium", found), ("fonts-dejavu-core", FONT.exists())) if not there]
    if missing:
        print(f"left out: what a browser shows. Not installed: {', '.join(missing)}")
    return None if missing else found


def photographed(browser, svg, png, room):
    """What the browser shows of a picture, in a window of its size, goes to a file. Answers what it said."""
    size = re.search(r'<svg [^>]*width="(\d+)" height="(\d+)"', svg.read_text(encoding="utf8"))
    return run(
        browser, "--headless", "--no-sandbox", "--disable-gpu", "--disable-dev-shm-usage", "--hide-scrollbars",
        "--force-device-scale-factor=1", f"--user-data-dir={room}/profile", f"--screenshot={png}",
        f"--window-size={size[1]},{size[2]}", svg.as_uri(), timeout=300).err[-500:]


class Pictures(Cases):
    needs = (JOBSHEET,)

    def test_pictures(self):
        chromium, room = browser(), self.folder()
        for name, words in PICTURES.items():
            svg, png = STORED / f"{name}.svg", STORED / f"{name}.png"
            if WRITE:
                svg.write_bytes(drawn(words))
            self.same(f"{svg.name} by jobsheet {' '.join(words)}", drawn(words), svg.read_bytes())
            if chromium:
                shown = png if WRITE else room / png.name
                said = photographed(chromium, svg, shown, room)
                with self.case(f"what tells {png.name} and the browser's apart"):
                    self.assertEqual(same_picture.compare(shown, png), [], said)
