"""Lines on standard error of the built program while nobody reads them: no reply waits for a line, and what is dropped is counted."""
import os
import re
import resource
import signal
import subprocess
import threading
import time
import unittest

from common import PROGRAM, Folder, asked, needs_program
from data_of_bank_a import BANK, PLAN

LIMIT = 60  # seconds for the whole of a test
REPLY = 5  # seconds for a reply
QUEUE = 65536 + 4096  # bytes of the pipe of lines, and of the piece that is copied
LONGEST = 1024  # bytes of a line


def fill(end):
    """Fills a pipe that nobody reads."""
    os.set_blocking(end, False)
    for piece in (4096, 1):
        try:
            while True:
                os.write(end, b"x" * piece)
        except BlockingIOError:
            pass
    os.set_blocking(end, True)


def ignore_the_signal():
    """A write past the limit fails, and the process goes on."""
    signal.signal(signal.SIGXFSZ, signal.SIG_IGN)


@needs_program
class NobodyReads(Folder):
    """A server whose standard error is a full pipe."""

    def setUp(self):
        super().setUp()
        self.journal = self.journal_in("abcd")  # so that a line on the journal has some 900 bytes
        self.files = [self.write("bank.csv", BANK), self.write("plan.txt", PLAN + "sessions 65536\n")]
        self.reader, self.writer = os.pipe()
        self.addCleanup(os.close, self.reader)

    def journal_in(self, letters):
        """A path with a folder of 200 bytes for each letter."""
        folder = os.path.join(self.folder, *(letter * 200 for letter in letters))
        os.makedirs(folder)
        return os.path.join(folder, "journal")

    def start(self, **settings):
        environment = dict(os.environ, SHADOWD_JOURNAL=self.journal, SHADOWD_LISTEN="127.0.0.1:0", SHADOWD_WORKERS="2", **settings)
        self.server = subprocess.Popen([PROGRAM, "serve", *self.files], env=environment, stdin=subprocess.DEVNULL, stdout=subprocess.DEVNULL,
                                       stderr=self.writer, preexec_fn=ignore_the_signal)
        watch = threading.Timer(LIMIT, self.server.kill)
        watch.start()
        self.addCleanup(watch.cancel)
        self.addCleanup(self.server.wait)
        self.addCleanup(self.server.kill)
        said = b""
        while not (found := re.search(rb"listening on 127\.0\.0\.1:(\d+)", said)):
            said += os.read(self.reader, 4096)
        self.port, self.said = int(found[1]), said

    def ask(self, method, path, body=None):
        return asked(self.port, method, path, body, REPLY)

    def begin(self, booking):
        return self.ask("POST", "/sessions", {"booking": booking})[0]

    def room(self, more):
        """So many bytes more may be written to the journal, or any number."""
        most = resource.RLIM_INFINITY if more is None else os.path.getsize(self.journal) + more
        resource.prlimit(self.server.pid, resource.RLIMIT_FSIZE, (most, resource.RLIM_INFINITY))

    def fault(self, booking):
        """The disk is full at a begin, and has room at the next: a line each."""
        self.room(0)
        self.assertEqual(self.begin(booking), 503)
        self.assertEqual(self.ask("GET", "/sessions/0")[0], 200)
        self.room(None)
        self.assertEqual(self.begin(booking), 201)

    def test_each_reply_comes_and_what_is_dropped_is_counted(self):
        self.start()
        self.assertEqual(self.begin(0), 201)
        fill(self.writer)
        faults = QUEUE // 800
        for booking in range(1, faults + 1):
            self.fault(booking)
        self.assertEqual(self.ask("GET", "/health")[0], 200)
        said = self.read_until(rb"shadowd: (\d+) lines were dropped here\n")
        lines = said.lstrip(b"x").splitlines(keepends=True)
        self.assertTrue(all(line.startswith(b"shadowd: ") and len(line) <= LONGEST for line in lines))
        kept = sum(b"journal" in line for line in lines)
        self.assertEqual(kept + int(lines[-1].split()[1]), 2 * faults)
        self.assertGreater(kept, 60)
        self.fault(faults + 1)
        self.assertIn(b"works again\n", self.read_until(rb"works again\n"))

    def read_until(self, pattern):
        said = b""
        while not re.search(pattern, said):
            said += os.read(self.reader, 65536)
        return said

    def line_of_start(self):
        """The line on where the server listens, and what it would be if it might have any length."""
        self.start()
        said = self.said if self.said.endswith(b"\n") else self.said + self.read_until(rb"\n\Z")
        self.server.kill()
        self.server.wait()
        return said.splitlines(keepends=True)[-1], b"shadowd: listening on 127.0.0.1:%d, journal %s\n" % (self.port, self.journal.encode())

    def test_a_line_of_the_greatest_length(self):
        front = self.journal_in("abce")[:-len("journal")]
        self.journal = front + "j" * (LONGEST - len("shadowd: listening on 127.0.0.1:00000, journal \n") - len(front))
        line, whole = self.line_of_start()
        self.assertEqual((line, len(line)), (whole, LONGEST))

    def test_a_longer_line_is_cut(self):
        """It ends in three dots and a line feed."""
        self.journal = self.journal_in("fghij")
        line, whole = self.line_of_start()
        self.assertGreater(len(whole), LONGEST)
        self.assertEqual(line, whole[:LONGEST - 4] + b"...\n")

    def test_a_server_ends(self):
        self.start(SHADOWD_CONNECTIONS="1")
        fill(self.writer)
        begun = time.monotonic()
        self.assertEqual([self.begin(1), self.begin(2)], [201, 201])
        self.assertEqual(self.server.wait(LIMIT), 0)
        self.assertLess(time.monotonic() - begun, REPLY)


if __name__ == "__main__":
    unittest.main()
