"""Each program of README.md runs, and prints what stands below it."""
import os
import pathlib
import re
import subprocess
import sys
import tempfile
import unittest

from support import TOP
from taskgraph import _library


class Readme(unittest.TestCase):
    def test_programs(self):
        text = (TOP / "python/README.md").read_text()
        programs = re.findall(r"```python\n(.*?)```\n+```text\n(.*?)```", text, flags=re.S)
        self.assertEqual(len(programs), text.count("```python"))
        self.assertGreater(len(programs), 0)
        environment = {
            **os.environ, "PYTHONPATH": str(TOP / "python"), "TASKGRAPH_LIBRARY": _library.library()._name,
        }
        for program, printed in programs:
            with self.subTest(program[:60]), tempfile.TemporaryDirectory() as folder:
                path = pathlib.Path(folder, "program.py")
                path.write_text(program)
                run = subprocess.run([sys.executable, path], env=environment, text=True, capture_output=True)
                self.assertEqual((run.stdout, run.stderr, run.returncode), (printed, "", 0))
