"""Each script of the tools has its help, and none begins its work where it is asked for it."""
import glob
import os
import re
import subprocess
import sys
import unittest

from common import ROOT, TOOLS, Folder
from shadowtools.door import NO_COMMAND, help_of

DOORS = sorted(glob.glob(os.path.join(TOOLS, "*.py")))


class Help(Folder):
    def test_each_door_has_help(self):
        """Its module's docstring, or that of argparse, which is asked in the next test."""
        for path in DOORS:
            with open(path, encoding="utf-8") as file:
                module = re.search(r'leads_to\("([a-z_.]+)", __name__\)', file.read()).group(1)
            said = help_of("shadowtools." + module)
            with self.subTest(path):
                self.assertTrue(said is None or len(said.split()) > 8, said)

    def test_help_does_no_work(self):
        """In a folder of its own, with an interpreter that has no library of others."""
        for name, wanted in (("run_tests", "usage: run_tests.py [PROGRAM]"), ("audit", "usage: audit.py BANK PLAN JOURNAL"),
                             ("irt", NO_COMMAND), ("irt_bank", "usage: irt_bank.py --items"), ("dev", "usage: dev.py")):
            done = subprocess.run([sys.executable, "-S", os.path.join(TOOLS, name + ".py"), "--help"], cwd=self.folder, capture_output=True, text=True)
            self.assertEqual((done.returncode, done.stderr, wanted in done.stdout), (0, "", True), name)
        self.assertEqual(os.listdir(self.folder), [])

    def test_scripts_beside_the_tools(self):
        """Each script of bench/ and the commands of examples/delivery: no traceback, no work, and a usage where it is a command."""
        found = [os.path.join(ROOT, "examples", "delivery", name) for name in ("make_texts.py", "run_tests.py")]
        for path in found + sorted(glob.glob(os.path.join(ROOT, "bench", "*.py"))):
            done = subprocess.run([sys.executable, "-S", path, "--help"], cwd=self.folder, capture_output=True, text=True)
            with open(path, encoding="utf-8") as file:
                is_command = "__main__" in file.read()
            with self.subTest(path):
                self.assertEqual((done.returncode, done.stderr, bool(done.stdout) or not is_command), (0, "", True))
        self.assertEqual(os.listdir(self.folder), [])


if __name__ == "__main__":
    unittest.main()
