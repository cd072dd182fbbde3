"""Forms that are ready before the answer change nothing but time: one script of requests, one after another, to the built server
with and without them, on one worker and on four, leaves the same journal byte for byte, and has the same replies."""
import os
import subprocess
import unittest

import drill_texts
from common import PROGRAM, Folder, needs_program
from exam_client import Connection, Server, answer, begin, close, request_bytes

NUMBER, SESSIONS = 7, 3
AHEAD = 16
LIMIT = 60  # seconds for each wait


def message_of(line):
    """The message that asks what a line of a replay's script asks."""
    name, *numbers = line.split()
    first, *rest = map(int, numbers)
    return {"begin": begin, "answer": answer, "close": close}[name](first, *rest)


def look(session):
    return request_bytes("GET", f"/sessions/{session}")


def with_more(messages):
    """The same messages, with some between them that add nothing, and with sessions that have a list, and an answer that comes twice."""
    yield begin(100, range(0, 120, 7))
    for number, message in enumerate(messages):
        yield message
        if number % 5 == 0:
            yield message
        if number % 7 == 0:
            yield look(number % SESSIONS)
    for step in range(20):
        yield answer(0, step, 1 - step % 2)  # most are of steps that are over
        if step % 6 == 0:
            yield request_bytes("GET", "/exposure")


@needs_program
class Ahead(Folder):
    def setUp(self):
        super().setUp()
        self.assertEqual(drill_texts.main([str(NUMBER), str(SESSIONS), self.folder]), 0)
        plan = self.read("plan.txt")
        self.write("plan.txt", plan.replace(f"sessions {SESSIONS}\n", f"sessions {SESSIONS + 1}\n"))
        self.messages = list(with_more(map(message_of, self.read("script.txt").splitlines())))

    def served(self, workers, ahead):
        """The replies to the messages, each on a connection of its own, and the bytes of the journal."""
        journal = self.path(f"journal-{workers}-{ahead}")
        server = Server([PROGRAM], self.path("bank.csv"), self.path("plan.txt"), journal, workers, LIMIT, ahead=ahead)
        try:
            replies = [self.reply(server.address, message) for message in self.messages]
        finally:
            server.kill()
        with open(journal, "rb") as file:
            return replies, file.read()

    def reply(self, address, message):
        connection = Connection(address, LIMIT)
        try:
            return connection.ask(message)
        finally:
            connection.close()

    def test_nothing_but_time_changes(self):
        replies, journal = self.served(1, None)
        statuses = {status for status, _ in replies}
        self.assertEqual(statuses, {200, 201, 409})
        self.assertGreater(len(journal), 10_000)
        for workers, ahead in ((4, None), (1, AHEAD), (4, AHEAD), (4, 1)):
            with self.subTest(workers=workers, ahead=ahead):
                again, bytes_again = self.served(workers, ahead)
                self.assertEqual(again, replies)
                self.assertEqual(bytes_again, journal)

    def test_numbers_that_are_none(self):
        for word in ("0", "1025", "x", "", "-1", "01", "4294967297"):
            with self.subTest(word=word):
                done = subprocess.run([PROGRAM, "serve", self.path("bank.csv"), self.path("plan.txt"), word], stdin=subprocess.DEVNULL,
                                      env=dict(os.environ, SHADOWD_JOURNAL=self.path("none")), capture_output=True, text=True, timeout=LIMIT)
                self.assertEqual(done.returncode, 2)
                self.assertIn(" serve BANK PLAN [AHEAD] ", done.stdout)
                self.assertFalse(os.path.exists(self.path("none")))


if __name__ == "__main__":
    unittest.main()
