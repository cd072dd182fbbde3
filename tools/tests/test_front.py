"""The front door: each command's help without a library, and each command's own status and output."""
import os
import subprocess
import sys
import unittest

import data_of_bank_a as a
from common import TOOLS, Folder
from shadowtools import front

# An interpreter that finds no library beside the standard one, as on a machine without Debian's packages.
BARE = [sys.executable, "-S", "-E", os.path.join(TOOLS, "shadow.py")]


def said(*words):
    done = subprocess.run([*BARE, *words], capture_output=True, text=True, stdin=subprocess.DEVNULL)
    return done.returncode, done.stdout, done.stderr


class Help(unittest.TestCase):
    def test_each_command_has_help_without_a_library(self):
        for name in front.COMMANDS:
            with self.subTest(name):
                status, out, errors = said(name, "--help")
                self.assertEqual((status, errors), (0, ""))
                self.assertIn(f"usage: shadow {name} ", out)

    def test_reports_of_other_kinds(self):
        for option, word in (("--journal", "--annul FILE"), ("--prices", "--rules-only")):
            status, out, errors = said("report", option, "--help")
            self.assertEqual((status, errors, word in out), (0, "", True))

    def test_help_names_each_command(self):
        status, out, errors = said("--help")
        self.assertEqual((status, errors), (0, ""))
        for name in front.COMMANDS:
            self.assertIn(f"\n  {name} ", out)

    def test_other_words(self):
        self.assertEqual(said()[0], 2)
        status, out, errors = said("scores")
        self.assertEqual((status, out), (2, ""))
        self.assertIn("no command 'scores'", errors)
        self.assertNotIn("Traceback", errors)


class Commands(Folder):
    def test_a_command_is_that_of_its_script(self):
        for name, text in (("bank", a.BANK), ("plan", a.PLAN), ("journal", "SHADOWJ2\0")):
            self.write(name, text)
        words = [self.path(name) for name in ("bank", "plan", "journal")]
        script = subprocess.run([sys.executable, os.path.join(TOOLS, "audit.py"), *words], capture_output=True, text=True)
        self.assertEqual(said("audit", *words), (script.returncode, script.stdout, script.stderr))
        self.assertIn("entries 0 sessions 0", script.stdout)
        self.assertEqual(said("audit", *words[:2], self.path("bank"))[:2], (6, "journal: header\n"))


if __name__ == "__main__":
    unittest.main()
