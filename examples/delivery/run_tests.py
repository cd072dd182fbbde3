#!/usr/bin/env python3
"""Runs the tests of the delivery application and of the adapter beside it; the last line is 'N passed, M failed'.

usage: run_tests.py [PROGRAM]      the built shadowd; default crates/shadowd/out/shadowd

Tests whose packages, or whose program, are not there are skipped by name. They run under Debian's interpreter, if it is there.
"""
import os
import sys
import unittest

HERE = os.path.dirname(os.path.abspath(__file__))
DEBIAN = "/usr/bin/python3"


class Counted(unittest.TextTestResult):
    """A result that counts the tests that passed: a class whose setting up fails has tests that were not run."""
    passed = 0

    def addSuccess(self, test):
        super().addSuccess(test)
        self.passed += 1


def main():
    if os.path.realpath(sys.executable) != os.path.realpath(DEBIAN) and os.access(DEBIAN, os.X_OK):
        os.execv(DEBIAN, [DEBIAN, os.path.abspath(__file__), *sys.argv[1:]])
    if len(sys.argv) > 1:
        os.environ["SHADOWD"] = os.path.abspath(sys.argv[1])
    folders = [os.path.join(HERE, "tests"), os.path.join(HERE, "..", "cat_api", "tests")]
    sys.path[:0] = [HERE, *folders]
    found = [unittest.TestLoader().discover(folder, top_level_dir=folder) for folder in folders]
    result = unittest.TextTestRunner(stream=sys.stdout, resultclass=Counted).run(unittest.TestSuite(found))
    for test, why in result.skipped:
        print(f"skipped {test.id()}: {why}")
    failed = len(result.failures) + len(result.errors) + len(result.unexpectedSuccesses)
    print(f"{result.passed} passed, {failed} failed")
    return 1 if failed or result.testsRun == 0 else 0


if __name__ == "__main__":
    if sys.argv[1:] == ["--help"]:
        sys.exit(print(__doc__))
    sys.exit(main())
