"""The built server on a disk that is full, with a reserve beside the journal and without one."""
import os
import re
import subprocess
import threading
import time
import unittest

import data_of_bank_a as bank_a
from common import PROGRAM, Folder, asked, needs_program

LIMIT = 60  # seconds for the whole of a test
PIECE = 65536
RESERVE = 4 * PIECE


def mounted(place):
    """Whether a file system of one mebibyte could be mounted there."""
    return os.geteuid() == 0 and subprocess.run(["mount", "-t", "tmpfs", "-o", "size=1m", "tmpfs", place], capture_output=True, check=False).returncode == 0


@needs_program
class FullDisk(Folder):
    def setUp(self):
        super().setUp()
        self.place = self.path("place")
        os.mkdir(self.place)
        if not mounted(self.place):
            self.skipTest("needs root, and a tmpfs")
        self.addCleanup(subprocess.run, ["umount", self.place], check=True)
        self.files = [self.write("bank.csv", bank_a.BANK), self.write("plan.txt", bank_a.PLAN + "sessions 65536\njournal 536870912\n")]
        self.journal, self.reserve, self.other = (os.path.join(self.place, name) for name in ("journal", "journal.reserve", "other"))
        self.lines = []

    def start(self, reserve):
        environment = dict(os.environ, SHADOWD_JOURNAL=self.journal, SHADOWD_LISTEN="127.0.0.1:0", SHADOWD_WORKERS="1", SHADOWD_RESERVE=str(reserve))
        self.server = subprocess.Popen([PROGRAM, "serve", *self.files], env=environment, stdin=subprocess.DEVNULL, stdout=subprocess.DEVNULL,
                                       stderr=subprocess.PIPE, text=True)
        watch = threading.Timer(LIMIT, self.server.kill)
        watch.start()
        self.addCleanup(watch.cancel)
        self.addCleanup(self.server.wait)
        self.addCleanup(self.server.stderr.close)
        self.addCleanup(self.server.kill)
        while not (found := re.search(r"listening on 127\.0\.0\.1:(\d+)", line := self.server.stderr.readline())):
            self.assertNotEqual(line, "")
        self.port = int(found[1])
        reader = threading.Thread(target=lambda: self.lines.extend(self.server.stderr), daemon=True)
        reader.start()

    def begin(self, booking):
        return asked(self.port, "POST", "/sessions", {"booking": booking}, LIMIT)[0]

    def fill(self):
        """Other files take the whole disk."""
        with open(self.other, "wb", 0) as file:
            try:
                while True:
                    file.write(b"x" * 4096)
            except OSError:
                pass

    def until(self, holds):
        while not holds():
            self.assertIsNone(self.server.poll())
            time.sleep(0.02)

    def served(self, first):
        """How many begins in a row are done."""
        for booking in range(first, first + 100_000):
            status = self.begin(booking)
            if status != 201:
                self.assertEqual(status, 503)
                return booking - first
        self.fail("the disk is not full")

    def counted(self, words):
        return sum(words in line for line in self.lines)

    def test_the_reserve_is_used_and_then_the_disk_is_full(self):
        self.start(RESERVE)
        self.until(lambda: os.path.exists(self.reserve) and os.path.getsize(self.reserve) == RESERVE)
        self.assertEqual(os.stat(self.reserve).st_mode & 0o777, 0o600)
        self.assertEqual(self.begin(0), 201)
        self.fill()
        before = os.path.getsize(self.journal)
        self.assertEqual(self.begin(1), 201)
        self.assertIn(os.path.getsize(self.reserve), (RESERVE, RESERVE - PIECE))
        done = 1 + self.served(2)
        self.assertGreater(os.path.getsize(self.journal) - before, RESERVE - 2 * 4096)
        self.assertEqual(os.path.getsize(self.reserve), 0)
        self.assertEqual([self.begin(100_000 + turn) for turn in range(5)], [503] * 5)
        self.assertEqual([self.begin(booking) for booking in (0, done)], [200, 200])
        os.remove(self.other)
        self.assertEqual(self.begin(done + 1), 201)
        self.until(lambda: self.counted("works again") == 1)
        self.assertEqual([self.counted(f"reserve {self.reserve}: {words}") for words in (
            f"the disk is full: of {RESERVE} bytes some are used\n", "nothing is left: no answer is recorded\n", "the disk has room")], [1, 1, 0])
        self.server.kill()
        self.server.wait()
        audit = subprocess.run([PROGRAM, "audit", *self.files], env=dict(os.environ, SHADOWD_JOURNAL=self.journal), capture_output=True, text=True, check=False)
        self.assertEqual((audit.returncode, f" sessions {done + 2} " in audit.stdout), (0, True), audit.stdout)

    def test_a_server_that_starts_on_a_full_disk_uses_what_it_finds(self):
        with open(self.reserve, "wb") as file:
            file.write(bytes(RESERVE))
        with open(self.journal, "wb") as file:
            file.write(b"SHADOWJ2\0")
        self.fill()
        self.start(RESERVE)
        self.assertGreater(self.served(1), 500)

    def test_none_is_made_unless_it_is_set(self):
        self.start(0)
        self.assertEqual(self.begin(1), 201)
        time.sleep(2)
        self.assertEqual(sorted(os.listdir(self.place)), ["journal"])


if __name__ == "__main__":
    unittest.main()
