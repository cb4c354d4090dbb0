"""The package as pip installs it, with no network, into a folder of its own."""
import os
import pathlib
import subprocess
import sys
import tempfile
import unittest

from support import DAY, FOUR, TOP
from taskgraph import _library

PIP = [sys.executable, "-m", "pip", "--disable-pip-version-check", "install", "--quiet", "--no-index"]
PROGRAM = f"import taskgraph; print(taskgraph.__file__); print(taskgraph.day_list({FOUR}), end='')"


class Install(unittest.TestCase):
    def run_it(self, command, folder):
        environment = {**os.environ, "PYTHONPATH": folder, "TASKGRAPH_LIBRARY": _library.library()._name}
        run = subprocess.run(command, cwd=folder, env=environment, text=True, capture_output=True)
        self.assertEqual(run.returncode, 0, run.stderr)
        return run.stdout

    def test_pip(self):
        before = sorted(TOP.glob("python/*"))
        with tempfile.TemporaryDirectory() as folder:
            self.run_it([*PIP, "--target", folder, str(TOP / "python")], folder)
            package = pathlib.Path(folder, "taskgraph")
            self.assertEqual(self.run_it([sys.executable, "-c", PROGRAM], folder), f"{package}/__init__.py\n{DAY}")
            self.assertTrue((package / "py.typed").is_file())
            sources = {path.name for path in TOP.glob("python/taskgraph/*.py")}
            self.assertEqual({path.name for path in package.glob("*.py")}, sources)
        self.assertEqual(sorted(TOP.glob("python/*")), before)
