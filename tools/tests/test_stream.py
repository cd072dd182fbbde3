"""The built program beside itself: a server under load, and a stream of its journal to a follower."""
import hashlib
import os
import re
import shutil
import signal
import socket
import subprocess
import threading
import time
import unittest

import journal_maker as made
from common import PROGRAM, ROOT, Folder, asked, needs_program
from exam_client import children_of
from fake_follower import HEADER, Follower, frames, is_beginning, records

DATA = os.path.join(ROOT, "crates", "shadowd", "data")
FILES = [os.path.join(DATA, name) for name in ("bank.csv", "plan.txt")]
LIMIT = 60  # seconds for each wait
ANSWERS = (1, 0, 1)
MARK = b"\1\0\0\0\1\x08"  # the mark's frame


def free_port():
    with socket.create_server(("127.0.0.1", 0)) as holder:
        return holder.getsockname()[1]


class Beside(Folder):
    """A server, and a stream beside it."""

    def setUp(self):
        super().setUp()
        self.journal, self.port, self.follower = self.path("leader.journal"), free_port(), None

    def run_program(self, words, settings, front=(), errors=None):
        done = subprocess.Popen([*front, PROGRAM, *words], env=dict(os.environ, SHADOWD_JOURNAL=self.journal, SHADOWD_LISTEN=f"127.0.0.1:{self.port}",
                                **settings), stdout=subprocess.PIPE, stderr=errors or subprocess.PIPE, text=True)
        self.addCleanup(self.end, done)
        return done

    def end(self, program):
        if program.poll() is None:
            for child in children_of(program.pid):  # of strace
                os.kill(child, signal.SIGKILL)
            program.kill()
        for stream in (program.stdout, program.stderr):
            if stream is not None and not stream.closed:
                stream.close()
        program.wait(LIMIT)

    def serve(self, front=()):
        server = self.run_program(["serve", *FILES], {"SHADOWD_WORKERS": "4"}, front, subprocess.DEVNULL)
        self.until(lambda: self.entries() is not None)
        return server

    def stream(self):
        with open(self.path("stream.log"), "a", encoding="utf-8") as log:
            return self.run_program(["stream", *FILES], {"SHADOWD_FOLLOWER": f"127.0.0.1:{self.follower.port}"}, (), log)

    def until(self, holds, seconds=LIMIT):
        end = time.monotonic() + seconds
        while not holds():
            self.assertLess(time.monotonic(), end, "it took too long")
            time.sleep(0.02)

    def ask(self, method, path, body=None):
        return asked(self.port, method, path, body, LIMIT)

    def entries(self):
        try:
            status, health = self.ask("GET", "/health")
        except OSError:
            return None
        return health["entries"] if status == 200 else None

    def session(self, booking):
        """A whole session."""
        status, reply = self.ask("POST", "/sessions", {"booking": booking})
        self.assertEqual(status, 201, reply)
        for step, response in enumerate(ANSWERS):
            status, reply = self.ask("POST", f"/sessions/{reply['session']}/answers", {"step": step, "response": response})
            self.assertEqual(status, 200, reply)

    def load(self, clients, sessions):
        threads = [threading.Thread(target=lambda first: [self.session(first + k) for k in range(sessions)], args=(1000 * client,))
                   for client in range(clients)]
        for thread in threads:
            thread.start()
        return threads

    def bytes(self):
        with open(self.journal, "rb") as file:
            return file.read()

    def follow(self, *arguments, **settings):
        self.follower = Follower(*arguments, **settings)
        self.addCleanup(self.follower.stop)
        return self.follower


@needs_program
class Streams(Beside):
    """Records go to the follower while the server writes them, and the last one too."""

    def test_a_server_under_load(self):
        """The stream is killed and started again, and links are cut; the follower's file is always a beginning of the leader's."""
        self.serve()
        follower = self.follow()
        stream, threads, links = self.stream(), self.load(4, 6), 0
        for _ in range(3):
            self.until(lambda: follower.links > links)
            time.sleep(0.2)
            self.assertTrue(is_beginning(follower.journal(), self.bytes()))
            links = follower.links
            follower.cut()
            time.sleep(0.2)
            stream.kill()
            stream = self.stream()
        for thread in threads:
            thread.join(LIMIT)
        wanted = self.entries()
        self.assertEqual(len(records(self.bytes())), wanted)
        self.until(lambda: follower.links > links and len(follower.payloads) == wanted)
        self.assertEqual(follower.journal(), self.bytes())

    def test_the_last_record_of_a_quiet_server(self):
        """No later frame shows that it is settled: the server's count does. A follower that has all gets its last record again at most."""
        self.serve()
        follower = self.follow()
        self.session(70)
        self.stream()
        wanted = self.entries()
        self.until(lambda: len(follower.payloads) == wanted, 10)
        self.assertEqual(follower.journal(), self.bytes())
        self.session(71)
        self.until(lambda: len(follower.payloads) == self.entries(), 10)
        self.until(lambda: f"follower has {self.entries()} of {self.entries()} records" in self.read("stream.log"), 10)

    def test_the_settled_records_at_the_start(self):
        """The first line has their number and digest: with the server all of them, without it all but the last."""
        server = self.serve()
        self.session(72)
        self.follow()
        stream = self.stream()
        self.until(lambda: self.told_by(stream), 10)
        self.assertEqual(self.told(), self.digest(self.entries()))
        stream.kill()
        server.kill()
        server.wait(LIMIT)
        os.remove(self.path("stream.log"))
        stream = self.stream()
        self.until(lambda: self.told_by(stream), 10)
        self.assertEqual(self.told(), self.digest(len(records(self.bytes())) - 1))

    def told(self):
        """What the first line on the records has."""
        return re.findall(rf"^shadowd: journal {re.escape(self.journal)}: (\d+) records, SHA-256 ([0-9a-f]{{64}})$", self.read("stream.log"), re.M)

    def told_by(self, stream):
        self.assertIsNone(stream.poll(), "it ended")
        return self.told()

    def digest(self, count):
        """The number and the digest of the first records of the file, without its header and its last gate."""
        whole = frames(records(self.bytes())[:count])[8:-1]
        return [(str(count), hashlib.sha256(whole).hexdigest())]

    def test_the_last_record_without_a_server(self):
        """Nobody says that it is settled, so it is not sent; each before it is."""
        server = self.serve()
        self.session(70)
        count = self.entries()
        server.send_signal(signal.SIGKILL)
        server.wait(LIMIT)
        follower = self.follow()
        self.stream()
        self.until(lambda: len(follower.payloads) == count - 1, 10)
        time.sleep(1.5)
        self.assertEqual(len(follower.payloads), count - 1)
        self.serve()
        self.until(lambda: len(follower.payloads) == count, 10)
        self.assertEqual(follower.journal(), self.bytes())

    def test_a_follower_that_is_away(self):
        self.serve()
        follower = self.follow()
        port = follower.port
        stream = self.stream()
        self.session(70)
        self.until(lambda: len(follower.payloads) == self.entries())
        had = list(follower.payloads)
        follower.stop()
        self.session(71)
        time.sleep(1.5)
        self.assertIsNone(stream.poll())
        follower = self.follow(had, port)
        self.until(lambda: len(follower.payloads) == self.entries())
        self.assertEqual(follower.journal(), self.bytes())
        self.assertGreater(len(had), 0)

    def test_a_follower_of_another_past(self):
        self.serve()
        self.session(70)
        self.follow([b"\7" * 8] * 100)
        stream = self.stream()
        self.assertEqual(stream.communicate(timeout=LIMIT)[0], "peer message\n")
        self.assertEqual(stream.returncode, 20)
        self.assertIn("the follower has 100 records, more than this journal", self.read("stream.log"))


@needs_program
class Moved(Beside):
    """A journal that was moved from version 1: the records after the mark are streamed."""

    def counting(self):
        """The records of the journal that count."""
        payloads = records(HEADER + self.bytes()[8:])
        return payloads[payloads.index(b"\x08") + 1:]

    def test_a_journal_that_migrate_moved(self):
        """The follower gets the records after the mark, then those that the server adds; its file is that of version 2."""
        texts = []
        for path in FILES:
            with open(path, encoding="ascii") as file:
                texts.append(file.read())
        maker = made.Maker(*texts).run("begin 70\nanswer 0 0 1\nanswer 0 1 0\nbegin 71\nclose 1")
        old, new, moved = maker.files()
        with open(self.journal, "wb") as file:
            file.write(old)
        self.assertEqual(self.run_program(["migrate", *FILES], {}).wait(LIMIT), 0)
        self.assertEqual(self.bytes(), moved)
        follower = self.follow()
        stream = self.stream()
        self.until(lambda: follower.links == 1)
        time.sleep(0.5)
        self.assertEqual(follower.payloads, [])  # no server has opened it
        self.serve()
        self.until(lambda: len(follower.payloads) == len(maker.new), 10)
        self.assertEqual(follower.journal(), new)
        self.session(72)
        self.until(lambda: len(follower.payloads) == self.entries(), 10)
        self.assertEqual(follower.payloads, self.counting())
        self.end(stream)
        self.stream()
        self.session(73)
        self.until(lambda: len(follower.payloads) == self.entries(), 10)
        self.assertEqual(follower.payloads, self.counting())

    def test_a_move_that_is_cut_off(self):
        """A journal whose old records no mark follows, or whose mark's gate is closed, is of version 1."""
        old = made.file_of(made.ONE, [b"\7" * 8, b"\5" * 300])
        for data, at in ((old, len(old) - 1), (old[:-1] + b"\0" + MARK[1:] + frames([b"\6"])[8:], len(old) - 1), (old[:-40], len(old) - 1), (made.ONE + b"\0", 8)):
            with self.subTest(size=len(data)):
                with open(self.journal, "wb") as file:
                    file.write(data)
                self.follow()
                stream = self.stream()
                self.assertEqual((stream.communicate(timeout=LIMIT)[0], stream.returncode), ("disk failed\n", 9))
                self.assertIn(f"no journal of the second version, by its bytes at {at}\n", self.read("stream.log"))
                self.assertEqual(self.follower.payloads, [])


@needs_program
class Files(Beside):
    """What the stream reads, and that it leaves it alone."""

    def write_bytes(self, data):
        with open(self.journal, "wb") as file:
            file.write(data)

    def ends(self, data, line):
        self.follow()
        if data is not None:
            self.write_bytes(data)
        stream = self.stream()
        self.assertEqual((stream.communicate(timeout=LIMIT)[0], stream.returncode), ("disk failed\n", 9))
        self.assertIn(line, self.read("stream.log"))

    def test_a_file_that_is_not_there_yet(self):
        follower = self.follow()
        stream = self.stream()
        self.until(lambda: "not there yet" in self.read("stream.log"))
        self.write_bytes(frames([b"\7" * 8, b"\5"]))
        self.until(lambda: len(follower.payloads) == 1)
        self.assertIsNone(stream.poll())
        self.assertEqual(self.read("stream.log").count("not there yet"), 1)

    def test_a_folder(self):
        os.mkdir(self.journal)
        self.ends(None, "it is a folder")

    def test_another_header(self):
        self.ends(b"SHADOWJ3\0", "no journal of the second version, by its bytes at 0")

    def test_a_length_that_no_payload_has(self):
        self.ends(frames([b"\7" * 8])[:-1] + b"\1\0\0\0\0\0", "by its bytes at 21")

    def test_frames(self):
        """A record is sent where another frame begins after its gate, in part or whole, whatever that frame's gate reads; and a file
        whose header is not whole has none. The file is not changed."""
        first, second = b"\7" * 8, b"\5" * 30
        whole = frames([first, second])
        for data, wanted in ((b"", 0), (b"SHAD", 0), (frames([]), 0), (frames([first]), 0), (frames([first])[:-3], 0), (frames([first]) + b"\0", 1),
                             (whole, 1), (whole + b"\0", 2), (whole[:-1], 1)):
            with self.subTest(size=len(data)):
                follower = self.follow()
                self.write_bytes(data)
                stream = self.stream()
                self.until(lambda: follower.links == 1)
                time.sleep(0.3)
                self.assertEqual(follower.payloads, [first, second][:wanted])
                self.assertEqual(self.bytes(), data)
                self.end(stream)

    def test_a_record_that_is_dropped_and_written_anew(self):
        """A record whose gate is open and after which nothing begins may still be dropped. The one that takes its place is sent."""
        first, dropped, other = b"\7" * 8, b"\5" * 30, b"\6" * 30
        follower = self.follow()
        self.write_bytes(frames([first, dropped]))
        self.stream()
        self.until(lambda: follower.payloads == [first])
        time.sleep(0.2)
        for data in (frames([first]), frames([first]) + b"\0\0", frames([first, other]), frames([first, other, first])):
            with open(self.journal, "r+b") as file:
                file.seek(0)
                file.write(data)
                file.truncate(len(data))
            time.sleep(0.1)
        self.until(lambda: follower.payloads == [first, other])

    def test_a_journal_that_is_replaced(self):
        follower = self.follow()
        self.write_bytes(frames([b"\7" * 8, b"\5"]))
        stream = self.stream()
        self.until(lambda: len(follower.payloads) == 1)
        shutil.copy(self.journal, self.path("other"))
        os.rename(self.path("other"), self.journal)
        self.assertEqual((stream.communicate(timeout=LIMIT)[0], stream.returncode), ("disk failed\n", 9))
        self.assertIn("another file, or none, is at its path", self.read("stream.log"))

    @unittest.skipUnless(shutil.which("strace"), "needs strace")
    def test_it_only_reads(self):
        """It opens the journal for reading alone, takes no lock, and neither writes nor syncs it."""
        follower = self.follow()
        self.write_bytes(frames([b"\7" * 8, b"\5"]))
        calls = self.path("calls")
        stream = self.run_program(["stream", *FILES], {"SHADOWD_FOLLOWER": f"127.0.0.1:{follower.port}"},
                                  ("strace", "-f", "-y", "-o", calls), subprocess.DEVNULL)
        self.until(lambda: len(follower.payloads) == 1)
        self.end(stream)
        lines = [line for line in self.read("calls").splitlines() if "leader.journal" in line]
        self.assertTrue(any(re.search(r"openat\(.*O_RDONLY", line) for line in lines), lines)
        self.assertFalse([line for line in lines if re.search(r"O_RDWR|O_WRONLY|O_CREAT|flock|fcntl.*F_SETLK|sync|ftruncate|pwrite| write\(", line)])


@needs_program
@unittest.skipUnless(shutil.which("strace"), "needs strace")
class Failing(Beside):
    """What a server could not sync is not sent."""

    def test_a_sync_that_fails(self):
        """From its 22nd sync on each one fails: four are of opening, so it is the second one of the ninth entry. The gate of that
        record reads open, and it is not sent."""
        front = ("strace", "-f", "-q", "-o", "/dev/null", "-e", "trace=fsync,fdatasync", "-e", "inject=fsync,fdatasync:error=EIO:when=22+")
        self.run_program(["serve", *FILES], {"SHADOWD_WORKERS": "1"}, front, subprocess.DEVNULL)
        self.until(lambda: self.entries() is not None)
        follower = self.follow()
        stream = self.stream()
        with self.assertRaises(AssertionError):
            for booking in range(70, 90):
                self.session(booking)
        time.sleep(3)
        found = records(self.bytes())
        self.assertIsNone(self.entries())
        self.assertIsNone(stream.poll())
        self.assertEqual(len(found), 9)
        self.assertEqual(follower.payloads, found[:8])


if __name__ == "__main__":
    unittest.main()
