"""kill_migrate.py over a stand-in, right and wrong."""
import itertools
import os
import signal
import subprocess
import unittest
from unittest import mock

import kill_migrate
from common import TOOLS, Folder

FAKE = os.path.join(TOOLS, "tests", "fake_migrate.py")


class Kills(Folder):
    """The stand-in is killed before each of its writes, one after the other, so that no test depends on the machine."""

    def killed(self, fault, kills=8, sizes="10", is_running=True):
        writes = itertools.count() if is_running else itertools.repeat(-1)

        def interrupted(trial, after):
            words = trial.words("migrate")
            words["env"]["STOP"] = str(next(writes))
            return subprocess.run(**words, check=False).returncode == -signal.SIGKILL

        with mock.patch.dict(os.environ, {"FAKE": fault}), mock.patch.object(kill_migrate.Trial, "interrupted", interrupted):
            return self.tool("kill_migrate", FAKE, "--kills", str(kills), "--sizes", sizes)[:2]

    def test_a_program_that_is_right(self):
        status, said = self.killed("", 14, "1,10")
        self.assertEqual((status, said.splitlines()[-1]), (0, "14 passed, 0 failed"), said)
        self.assertRegex(said, r"(?m)^10 records, .* 7 kills, 5 inside a run, 5 left a part of the move$")

    def test_programs_that_are_wrong(self):
        for fault, wanted in (("gate", "audit gives 6"), ("front", "has changed"), ("count", "migrate gives"), ("tail", "another one")):
            status, said = self.killed(fault)
            with self.subTest(fault):
                self.assertEqual(status, 1, said)
                self.assertRegex(said, wanted)
                self.assertRegex(said, r"(?m)^\d+ passed, 1 failed$")

    def test_it_needs_kills_inside_a_run(self):
        """Kills that all come after the end of a run, and one that comes before anything is written."""
        for is_running, wanted in ((False, "10 records: no kill found the program running"), (True, "no kill left a part of the move")):
            status, said = self.killed("", 1, is_running=is_running)
            self.assertEqual(status, 1, said)
            self.assertIn(wanted, said)

    def test_a_kill_by_time(self):
        """A program that does not end is running, and is killed; one that has ended is not."""
        for words, wanted in ((["sleep", "600"], True), (["true"], False)):
            trial = mock.Mock(words=lambda command, words=words: {"args": words, "stdout": subprocess.PIPE})
            self.assertIs(kill_migrate.Trial.interrupted(trial, 0 if wanted else 5), wanted)

    def test_the_journals(self):
        bank, plan, files = kill_migrate.made_journals([1, 7])
        self.assertEqual([len(old) for old, _ in files.values()], [91, len(files[7][0])])
        for old, moved in files.values():
            self.assertTrue(moved.startswith(old[:-1] + b"\1\0\0\0\1\x08\1"))


if __name__ == "__main__":
    unittest.main()
