"""Runs the tests in a folder's modules, and counts them: the last line is 'N passed, M failed'."""

import sys
import unittest


def run(folder: str) -> int:
    """The exit status: 0 where some test ran and none failed."""
    tests = unittest.defaultTestLoader.discover(folder, "[a-z]*.py")
    result = unittest.TextTestRunner(stream=sys.stdout, verbosity=1).run(tests)
    # a test with parts of its own can fail in several of them, and is one test all the same
    failed = {str(getattr(test, "test_case", test)) for test, _ in result.failures + result.errors}
    print(f"{result.testsRun - len(failed)} passed, {len(failed)} failed")
    return 1 if failed or not result.testsRun else 0
