#!/usr/bin/env python3
"""Runs the tests of the client: python3 clients/python/tests/run.py [NAME ..], where NAME is a file such as test_edits.

The programs are those of the variables VP8SERVE and VP8LIST, or on the PATH, or built in this tree. It prints nothing
if all tests pass and none is skipped, names those that are skipped, and prints what failed and exits with 1 if one
fails. A test has a limit of its own, and the whole run one of 25 minutes.
"""

import ast
import faulthandler
import io
import pathlib
import sys
import unittest

HERE = pathlib.Path(__file__).resolve().parent
MOST_TIME = 1500


def old_grammar():
    """The files of the clients that Python 3.9 could not read."""
    wrong = []
    for path in sorted(HERE.parents[1].rglob("*.py")):
        try:
            ast.parse(path.read_text(encoding="utf-8"), str(path), feature_version=(3, 9))
        except SyntaxError as error:
            wrong.append(f"{path}: not the grammar of Python 3.9: {error}")
    return wrong


def main(names):
    faulthandler.dump_traceback_later(MOST_TIME, exit=True)
    sys.dont_write_bytecode = True
    sys.path.insert(0, str(HERE))
    loader = unittest.TestLoader()
    tests = loader.loadTestsFromNames(names) if names else loader.discover(str(HERE))
    said = io.StringIO()
    result = unittest.TextTestRunner(said).run(tests)
    for test, why in result.skipped:
        print(f"skipped: {test}: {why}")
    wrong = old_grammar()
    for line in wrong:
        print(line)
    if not result.wasSuccessful():
        print(said.getvalue(), end="")
    elif not result.testsRun:
        print("no test was found")
    return 0 if result.wasSuccessful() and result.testsRun and not wrong else 1


if __name__ == "__main__":
    sys.exit(main(sys.argv[1:]))
