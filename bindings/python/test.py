#!/usr/bin/env python3
"""Runs the tests of the package yam (tests/). Exit status 1 on a difference."""
import pathlib
import sys
import unittest

HERE = pathlib.Path(__file__).resolve().parent

if __name__ == "__main__":
    sys.dont_write_bytecode = True
    sys.path.insert(0, str(HERE))
    found = unittest.defaultTestLoader.discover(str(HERE / "tests"), top_level_dir=str(HERE))
    result = unittest.TextTestRunner(verbosity=0).run(found)
    passed = result.wasSuccessful() and result.testsRun > 0
    wrong = len(result.failures) + len(result.errors)
    print("Python: as the documents say" if passed else f"Python: {wrong} differences")
    sys.exit(not passed)
