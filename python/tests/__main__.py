"""Runs what `python3 -m unittest discover` runs here; the last line counts the tests.

usage: python3 python/tests
"""
import pathlib
import sys
import unittest

result = unittest.TextTestRunner().run(unittest.defaultTestLoader.discover(str(pathlib.Path(__file__).parent)))
# several parts of one test may have failed
failed = len({getattr(test, "test_case", test).id() for test, _ in result.failures + result.errors})
print(f"{result.testsRun - len(result.skipped) - failed} passed, {failed} failed")
sys.exit(not result.wasSuccessful())
