"""That a long run shows that it lives: on a terminal or by --progress, never on standard output, and not after its end."""
import io
import os
import pty
import signal
import subprocess
import sys
import time
import unittest
from contextlib import redirect_stderr, redirect_stdout
from unittest import mock

from common import TOOLS, Folder, heed_interruptions
from shadowtools import alive
from shadowtools.agency.drivers import Progress
from shadowtools.alive import Pulse, Wanted, without_its_words

SHADOW = [sys.executable, os.path.join(TOOLS, "shadow.py")]
# A stand-in for shadowd that takes so many seconds, and has the status 17.
SLOW = "#!/bin/sh\nsleep %s\necho no series 00\nexit 17\n"


class Pulses(unittest.TestCase):
    def lines_of(self, wanted, is_terminal=False):
        """The lines of two works, one within the other, with a hundredth of a second between two lines."""
        pulse, said, out = Pulse(), io.StringIO(), io.StringIO()
        pulse.wanted, said.isatty = wanted, lambda: is_terminal
        with mock.patch.object(alive, "PAUSE", 0.01), redirect_stderr(said), redirect_stdout(out):
            first = pulse.begin("shadow explain")
            second = pulse.begin("shadowd assemble")
            until = time.monotonic() + 5
            while pulse.is_wanted() and said.getvalue().count("\n") < 2 and time.monotonic() < until:
                time.sleep(0.01)
            pulse.end(second)
            pulse.end(first)
            time.sleep(0.05)
            before = said.getvalue()
            time.sleep(0.1)
        self.assertEqual((said.getvalue(), out.getvalue()), (before, ""), "a line after the end, or on standard output")
        return before.splitlines()

    def test_when_there_are_lines(self):
        for wanted, is_terminal in ((Wanted.ALWAYS, False), (Wanted.ON_A_TERMINAL, True)):
            lines = self.lines_of(wanted, is_terminal)
            self.assertEqual(lines[0], "shadow explain: 0 s; shadowd assemble: 0 s")
            self.assertGreaterEqual(len(lines), 2)
        for wanted, is_terminal in ((Wanted.NEVER, True), (Wanted.ON_A_TERMINAL, False), (Wanted.NEVER, False)):
            self.assertEqual(self.lines_of(wanted, is_terminal), [])

    def test_the_time_that_has_passed(self):
        pulse = Pulse()
        pulse.works = {"a": ("shadow report", 100.0), "b": ("shadowd audit", 130.0), "c": ("another", 131.0)}
        self.assertEqual(pulse.line(162.4), "shadow report: 62 s; shadowd audit: 32 s")

    def test_words(self):
        self.assertEqual(without_its_words(["--quiet", "series", "a"]), (["series", "a"], Wanted.NEVER))
        self.assertEqual(without_its_words(["series", "--progress"]), (["series"], Wanted.ALWAYS))
        self.assertEqual(without_its_words(["--progress", "--quiet"]), ([], Wanted.NEVER))
        self.assertEqual(without_its_words(["series", "--program"]), (["series", "--program"], Wanted.ON_A_TERMINAL))

    def test_notes(self):
        for wanted, lines in ((Wanted.NEVER, ""), (Wanted.ON_A_TERMINAL, "half\n"), (Wanted.ALWAYS, "half\n")):
            with mock.patch.object(alive.PULSE, "wanted", wanted), redirect_stderr(io.StringIO()) as said:
                alive.tell("half")
            self.assertEqual(said.getvalue(), lines)


class Estimates(unittest.TestCase):
    def test_of_the_end(self):
        """A third of the answers took ten seconds: the others take twenty."""
        said = []
        progress = Progress(300, said.append)
        for now, given in ((4.0, 50), (10.0, 100), (12.0, 110), (20.0, 0), (30.0, 300)):
            with mock.patch("shadowtools.agency.drivers.time.perf_counter", lambda now=now: progress.begun + now):
                progress.note(given)
        self.assertEqual(said, ["100 of 300 answers, 10 s, some 20 s left", "0 of 300 answers, 20 s", "300 of 300 answers, 30 s, some 0 s left"])


class Series(Folder):
    def slow(self, seconds):
        path = self.write("slow", SLOW % seconds)
        os.chmod(path, 0o755)
        return [*SHADOW, "series", "bank", "plan", "2", "1,1", "--program", path]

    def test_the_output_is_that_of_the_program(self):
        for more in ([], ["--progress"], ["--quiet"]):
            done = subprocess.run([*self.slow(0), *more], capture_output=True, text=True)
            self.assertEqual((done.returncode, done.stdout, done.stderr), (17, "no series 00\n", ""))

    def test_the_words_of_the_program(self):
        path = self.write("words", '#!/bin/sh\nfor word; do echo "$word"; done\n')
        os.chmod(path, 0o755)
        for weights in ("1,0,7", self.write("weights", "1,0,7\n")):
            done = subprocess.run([*SHADOW, "series", "b", "p", "3", weights, "--program", path], capture_output=True, text=True)
            self.assertEqual((done.returncode, done.stdout), (0, "series\nb\np\n3\n1,0,7\n"))
        done = subprocess.run([*SHADOW, "series", "b", "p", "3", "1", "--program", self.path("none")], capture_output=True, text=True)
        self.assertEqual((done.returncode, done.stdout, done.stderr), (1, "", f"{self.path('none')}: No such file or directory\n"))

    def test_a_terminal_has_lines(self):
        """Standard error is a terminal: after five seconds it has a line, and standard output has the program's alone."""
        master, end = pty.openpty()
        with subprocess.Popen(self.slow(6), stdout=subprocess.PIPE, stderr=end, stdin=subprocess.DEVNULL) as started:
            os.close(end)
            said = started.stdout.read()
        lines = os.read(master, 4096).decode()
        os.close(master)
        self.assertEqual((started.returncode, said), (17, b"no series 00\n"))
        self.assertEqual(lines, "shadow series: 5 s; shadowd series: 5 s\r\n")

    def is_running(self, process):
        """Whether a process is there, and not one that has ended and waits to be taken off the list."""
        try:
            with open(f"/proc/{process}/stat", encoding="ascii") as file:
                return file.read().rpartition(")")[2].split()[0] != "Z"
        except FileNotFoundError:
            return False

    def test_an_interruption_ends_both(self):
        """The interruption reaches the tool alone; its program is ended too, and there is no traceback."""
        words = self.slow("0; echo $$ > child; exec sleep 60")
        with subprocess.Popen(words, stdout=subprocess.PIPE, stderr=subprocess.PIPE, text=True, cwd=self.folder, start_new_session=True,
                              preexec_fn=heed_interruptions) as started:
            until = time.monotonic() + 20
            while not (os.path.exists(self.path("child")) and self.read("child")) and time.monotonic() < until:
                time.sleep(0.02)
            time.sleep(1)   # until the tool waits for it
            started.send_signal(signal.SIGINT)
            said, errors = started.communicate(timeout=20)
        self.assertEqual((started.returncode, said, errors), (130, "", "interrupted\n"))
        until = time.monotonic() + 20
        while self.is_running(int(self.read("child"))):
            self.assertLess(time.monotonic(), until, "the program goes on")
            time.sleep(0.05)


if __name__ == "__main__":
    unittest.main()
