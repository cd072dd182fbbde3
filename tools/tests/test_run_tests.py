"""The runner of the tests: what it counts of a small folder, by unittest and by pytest."""
import io
import os
import shutil
import subprocess
import sys
import unittest
from contextlib import redirect_stdout

from common import ROOT, TOOLS, Folder
from shadowtools.gate import run_tests
from shadowtools.needs import is_there

SMALL = '''import unittest


class Small(unittest.TestCase):
    def test_right(self):
        self.assertEqual(1 + 1, 2)

    def test_of_parts(self):
        for number in (1, 2):
            with self.subTest(number):
                self.assertLess(number, 3)

    @unittest.skip("needs a library")
    def test_left_out(self):
        self.fail()
'''
WRONG = '''

class Wrong(unittest.TestCase):
    def test_wrong(self):
        self.assertEqual(1, 2)


class Unset(unittest.TestCase):
    def setUp(self):
        raise OSError("no folder")

    def test_that_cannot_begin(self):
        pass
'''


class Runner(Folder):
    def counted(self, runner, text):
        """What a runner counts, in a process of its own."""
        self.write("test_small.py", text)
        program = f"import sys; from shadowtools.gate import run_tests; sys.exit(print('|', *run_tests.{runner}({self.folder!r})[:2]) or 0)"
        done = subprocess.run([sys.executable, "-B", "-c", program], cwd=TOOLS, capture_output=True, text=True)
        self.assertEqual(done.returncode, 0, done.stderr)
        return done.stdout.splitlines()[-1]

    def test_by_unittest(self):
        self.assertEqual(self.counted("by_unittest", SMALL), "| 2 0")
        self.assertEqual(self.counted("by_unittest", SMALL + WRONG), "| 2 2")

    @unittest.skipUnless(is_there("pytest"), "needs python3-pytest")
    def test_by_pytest(self):
        self.assertEqual(self.counted("by_pytest", SMALL), "| 2 0")
        self.assertEqual(self.counted("by_pytest", SMALL + WRONG), "| 2 2")
        self.assertEqual(self.counted("by_pytest", "import none_such\n" + SMALL), "| 0 1")

    def test_the_runner_of_the_examples(self):
        """Two tests pass, one is skipped, and a class of three whose setting up fails is one failure: no number is below 0."""
        unset = """

class Whole(unittest.TestCase):
    @classmethod
    def setUpClass(cls):
        raise OSError("no program")

    def test_first(self):
        pass

    def test_second(self):
        pass

    def test_third(self):
        pass
"""
        for folder in ("delivery/tests", "cat_api/tests"):
            os.makedirs(self.path(folder))
        shutil.copy(os.path.join(ROOT, "examples", "delivery", "run_tests.py"), self.path("delivery"))
        for text, status, last in ((SMALL + unset, 1, "2 passed, 1 failed"), (SMALL, 0, "2 passed, 0 failed")):
            self.write("delivery/tests/test_small.py", text)
            done = subprocess.run([sys.executable, "-B", self.path("delivery/run_tests.py")], capture_output=True, text=True)
            self.assertEqual((done.returncode, done.stdout.splitlines()[-1]), (status, last), done.stderr)

    def test_the_last_line(self):
        for counts, status, lines in (((3, 0, []), 0, "3 passed, 0 failed\n"), ((3, 1, []), 1, "3 passed, 1 failed\n"), ((0, 0, []), 1, "0 passed, 0 failed\n"),
                                      ((1, 0, [("a.b", "needs c")]), 0, "skipped a.b: needs c\n1 passed, 0 failed, 1 skipped\n")):
            with redirect_stdout(io.StringIO()) as said:
                self.assertEqual(run_tests.told(*counts), status)
            self.assertEqual(said.getvalue(), lines)


if __name__ == "__main__":
    unittest.main()
