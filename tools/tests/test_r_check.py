"""The check of the R package, over a stand-in for R that prints what R's own check prints."""
import os
import unittest
from unittest import mock

from common import Folder
from shadowtools.gate import r_check

WHOLE = """* using R version 4.2.2
* checking for file 'shadowr/DESCRIPTION' ... OK
* checking package dependencies ...Warning: no network
 OK
* checking examples ... NONE
* checking tests ...
  Running 'testthat.R'
 OK
* DONE
"""
RUNNING = """#!/bin/sh
if [ "$2" = build ]; then touch shadowr_0.1.0.tar.gz; exit {build}; fi
mkdir -p shadowr.Rcheck/tests
echo '• the command shadow is not here (3): test-exam.R:1:1' > shadowr.Rcheck/tests/testthat.Rout
cat {said}
exit {status}
"""


class Standing(Folder):
    def checked(self, said, status=0, build=0):
        """The status and the lines of the tool over an R that prints this text."""
        path = self.write("R", RUNNING.format(said=self.write("said", said), status=status, build=build))
        os.chmod(path, 0o755)
        with mock.patch.dict(os.environ, PATH=self.folder + os.pathsep + os.environ["PATH"]):
            found, said, errors = self.tool("r_check", self.path("shadowd"))
        self.assertEqual(errors, "")
        return found, said.splitlines()

    def test_a_whole_check_counts_its_parts_and_names_what_was_skipped(self):
        status, lines = self.checked(WHOLE)
        self.assertEqual((status, lines), (0, ["skipped: the command shadow is not here (3): test-exam.R:1:1", "4 passed, 0 failed"]))

    def test_a_warning_and_an_error_fail_with_their_lines_and_a_note_does_not(self):
        warned = WHOLE.replace("DESCRIPTION' ... OK", "DESCRIPTION' ... WARNING\n  the field is odd")
        status, lines = self.checked(warned)
        self.assertEqual((status, lines[0].split(":")[0], lines[1], lines[-1]), (1, "WARNING", "  the field is odd", "3 passed, 1 failed"))
        status, lines = self.checked(WHOLE.replace("testthat.R'\n OK", "testthat.R'\n ERROR\nOne test failed"), status=1)
        self.assertEqual((status, lines[:2], lines[-1]), (1, ["ERROR: tests", "One test failed"], "3 passed, 1 failed"))
        status, lines = self.checked(WHOLE.replace("examples ... NONE", "examples ... NOTE\n  slow"))
        self.assertEqual((status, lines[0], lines[-1]), (0, "NOTE: examples", "4 passed, 0 failed"))

    def test_a_check_that_ends_without_its_tests_fails(self):
        for said, status in ((WHOLE.partition("* checking tests")[0], 0), ("no check at all\n", 0), (WHOLE, 1)):
            found, lines = self.checked(said, status)
            self.assertEqual((found, lines[-1].split(", ")[1]), (1, "1 failed"))

    def test_a_package_that_is_not_built_fails(self):
        found, lines = self.checked(WHOLE, build=1)
        self.assertEqual((found, lines[-1]), (1, "0 passed, 1 failed"))

    def test_without_R_it_is_skipped_by_name(self):
        with mock.patch.dict(os.environ, PATH=self.folder):
            self.assertEqual(self.tool("r_check"), (0, "skipped: R is not here\n0 passed, 0 failed\n", ""))

    def test_the_check_asks_no_network(self):
        settings = r_check.environment(self.folder, "shadowd")
        self.assertIn("file://" + self.folder, self.read("profile.R"))
        self.assertEqual(settings["R_PROFILE_USER"], self.path("profile.R"))
        self.assertTrue(os.path.isfile(self.path("none/src/contrib/PACKAGES")))


if __name__ == "__main__":
    unittest.main()
