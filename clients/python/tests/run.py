#!/usr/bin/env python3
"""Runs the tests of the client against a served project, and ends with the line `N passed, N failed`.

    python3 clients/python/tests/run.py [NAME..]

runs all, or those whose names hold one of these words. It needs nothing but the program: the script `annotate` makes it
at its first call, or the environment variable ANNOTATE names the file of one.
"""

import sys
import unittest
from pathlib import Path


def main() -> int:
    here = Path(__file__).resolve().parent
    sys.dont_write_bytecode = True
    sys.path.insert(0, str(here))
    loader = unittest.TestLoader()
    if len(sys.argv) > 1:
        loader.testNamePatterns = [f"*{word}*" for word in sys.argv[1:]]
    result = unittest.TextTestRunner(stream=sys.stderr, verbosity=1).run(loader.discover(str(here)))
    failed = len(result.failures) + len(result.errors) + len(result.unexpectedSuccesses)
    passed = result.testsRun - failed - len(result.skipped)
    for test, reason in result.skipped:
        print(f"left out: {test}: {reason}")
    print(f"{passed} passed, {failed} failed")
    return 0 if failed == 0 and passed > 0 else 1


if __name__ == "__main__":
    sys.exit(main())
