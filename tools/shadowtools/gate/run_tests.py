"""Runs the tests of the tools; the last line is 'N passed, M failed', and ', K skipped' where some were.

usage: run_tests.py [PROGRAM]      the built shadowd; default crates/shadowd/out/shadowd

Tests that need numpy are skipped by name where python3-numpy is not there, and tests that need the program where
it is not built. If this interpreter has no numpy and /usr/bin/python3 has it, the tests run under that one. Where python3-pytest is
there, pytest runs them; else unittest does. One module alone: `python3 -m pytest tests/test_score.py` in tools.
"""
import importlib.util
import os
import subprocess
import sys
import unittest

from shadowtools import places
from shadowtools.command import as_command
from shadowtools.places import TOOLS

DEBIAN = "/usr/bin/python3"


def has_numpy(interpreter):
    try:
        return subprocess.run([interpreter, "-c", "import numpy"], stderr=subprocess.DEVNULL).returncode == 0
    except OSError:
        return False


class Counted(unittest.TextTestResult):
    """A result that counts the tests that passed: a class whose setting up fails has tests that were not run."""
    passed = 0

    def addSuccess(self, test):
        super().addSuccess(test)
        self.passed += 1


class Reported:
    """The same by pytest."""

    def __init__(self):
        self.passed, self.failed, self.skipped = 0, 0, []

    def pytest_collectreport(self, report):
        self.failed += report.failed

    def pytest_runtest_logreport(self, report):
        if report.skipped:
            self.skipped.append((report.nodeid, report.longrepr[2].removeprefix("Skipped: ")))
        self.failed += report.failed
        self.passed += report.passed and report.when == "call"


def by_pytest(folder):
    """The tests that passed and failed, and those that were skipped with the reasons."""
    import pytest
    found = Reported()
    pytest.main(["-q", "-p", "no:cacheprovider", folder], plugins=[found])
    return found.passed, found.failed, found.skipped


def by_unittest(folder):
    suite = unittest.defaultTestLoader.discover(folder, top_level_dir=folder)
    result = unittest.TextTestRunner(stream=sys.stdout, verbosity=1, resultclass=Counted).run(suite)
    return (result.passed, len(result.failures) + len(result.errors) + len(result.unexpectedSuccesses),
            [(test.id(), why) for test, why in result.skipped])


def main(words):
    if importlib.util.find_spec("numpy") is None and sys.executable != DEBIAN and has_numpy(DEBIAN):
        os.execv(DEBIAN, [DEBIAN, os.path.join(TOOLS, "run_tests.py"), *words])
    if words:
        os.environ["SHADOWD"] = places.BUILT = os.path.abspath(words[0])
    sys.path[:0] = [TOOLS, os.path.join(TOOLS, "tests")]
    runner = by_pytest if importlib.util.find_spec("pytest") else by_unittest
    return told(*runner(os.path.join(TOOLS, "tests")))


def told(passed, failed, skipped):
    """Prints the tests that were skipped and the last line. The exit status: no test at all is a failure."""
    for test, why in skipped:
        print(f"skipped {test}: {why}")
    print(f"{passed} passed, {failed} failed" + (f", {len(skipped)} skipped" if skipped else ""))
    return 1 if failed or not passed + len(skipped) else 0


command = as_command(main)


if __name__ == "__main__":
    sys.exit(command())
