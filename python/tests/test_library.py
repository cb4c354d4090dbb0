"""How the shared library is found, and what is said where it is not."""
import _ctypes
import os
import pathlib
import shutil
import subprocess
import sys
import tempfile
import unittest
from unittest import mock

from support import TOP
from taskgraph import LibraryError, _library, bucket, load

# 3 is the bucket of name 3 with 2 bits
PROGRAM = "import sys, taskgraph; taskgraph.load(*sys.argv[1:]); print(taskgraph.bucket(3, 2))"


def run(*arguments, **environment):
    """The program in a process of its own, with no library named but by these."""
    clean = {name: value for name, value in os.environ.items() if name != "TASKGRAPH_LIBRARY"}
    return subprocess.run(
        [sys.executable, "-c", PROGRAM, *arguments], text=True, capture_output=True,
        env={**clean, "PYTHONPATH": str(TOP / "python"), **environment},
    )


class Finding(unittest.TestCase):
    def setUp(self):
        self.library = _library.library()._name
        if "/" not in self.library:
            self.skipTest("the library is an installed one, whose path is not known")

    def test_argument(self):
        self.assertEqual(run(self.library).stdout, "3\n")

    def test_argument_without_a_slash_is_a_file(self):
        here = os.getcwd()
        self.addCleanup(os.chdir, here)
        os.chdir(os.path.dirname(self.library))
        self.assertEqual(_library.find(os.path.basename(self.library)).tg_bucket(3, 2), 3)

    def test_environment(self):
        self.assertEqual(run(TASKGRAPH_LIBRARY=self.library).stdout, "3\n")

    def test_argument_comes_before_the_environment(self):
        self.assertEqual(run(self.library, TASKGRAPH_LIBRARY="/nowhere").stdout, "3\n")

    def test_installed(self):
        for name in ("libtaskgraph.so.5", "libtaskgraph.so"):
            with tempfile.TemporaryDirectory() as folder:
                shutil.copy(self.library, pathlib.Path(folder, name))
                self.assertEqual(run(LD_LIBRARY_PATH=folder).stdout, "3\n", name)

    def test_load_is_kept(self):
        with mock.patch.object(_library, "_current", None), mock.patch.dict(os.environ, TASKGRAPH_LIBRARY="/nowhere"):
            load(pathlib.Path(self.library))
            self.assertEqual(bucket(3, 2), 3)


class Missing(unittest.TestCase):
    def refused(self, *path, **environment):
        with mock.patch.dict(os.environ, environment), self.assertRaises(LibraryError) as caught:
            _library.find(*path)
        text = str(caught.exception)
        self.assertIn("scripts/install PREFIX", text)
        self.assertIn("TASKGRAPH_LIBRARY", text)
        return text

    def test_no_such_file(self):
        self.assertIn("/nowhere/lib.so", self.refused("/nowhere/lib.so"))
        self.assertIn("/nowhere/lib.so", self.refused(TASKGRAPH_LIBRARY="/nowhere/lib.so"))

    def test_no_library(self):
        self.assertIn("README.md", self.refused(TOP / "README.md"))
        self.assertIn(str(TOP), self.refused(TOP))

    def test_another_library(self):
        self.assertIn("it has no function tg_", self.refused(_ctypes.__file__))

    def test_nothing_installed(self):
        with mock.patch.object(_library, "INSTALLED", ("libtaskgraph-nowhere.so.5", "libtaskgraph-nowhere.so")):
            text = self.refused(TASKGRAPH_LIBRARY="")
        self.assertIn("libtaskgraph-nowhere.so.5: ", text)
        self.assertIn("libtaskgraph-nowhere.so: ", text)

    def test_wrong_type(self):
        with self.assertRaisesRegex(TypeError, "str, bytes or os.PathLike"):
            load(5)
