"""kill_follow.py over the built program, and what it demands of the files."""
import random
import re
import unittest
from unittest import mock

import kill_follow
from common import PROGRAM, Folder, needs_program

ONE, OTHER = b"\1\0\0\0\2ab", b"\1\0\0\0\1c"
HEADER = b"SHADOWJ2"


class Files(unittest.TestCase):
    """The demands on the two files, over files made by hand."""

    def compared(self, leader, follower, most):
        pair = mock.Mock(whole=HEADER + ONE + OTHER + b"\0", leader="leader", follower="follower")
        pair.relay.most = most
        pair.data = {"leader": leader, "follower": follower}.get
        kill_follow.Pair.compare(pair, "here")

    def test_the_records_of_a_file(self):
        """Records before the first closed gate alone."""
        for data, count in ((b"", 0), (HEADER + b"\0", 0), (HEADER + ONE + b"\0", 1), (HEADER + ONE + OTHER + b"\0" + ONE, 2)):
            self.assertEqual(kill_follow.records_of(data), count)
        self.assertEqual(kill_follow.front_of(HEADER + ONE + b"\0" + OTHER), HEADER + ONE)

    def test_files_that_are_right(self):
        whole = HEADER + ONE + OTHER + b"\0"
        for follower, most in ((b"", 0), (HEADER + b"\0", 0), (HEADER + ONE + b"\0" + OTHER[1:], 1), (whole, 2), (whole, 1)):
            self.compared(whole, follower, most)

    def test_files_that_are_wrong(self):
        whole = HEADER + ONE + OTHER + b"\0"
        for leader, follower, most, wanted in ((HEADER + ONE + b"\0", whole, 2, "the leader's file has changed"),
                                               (whole, HEADER + OTHER + b"\0", 0, "no beginning"),
                                               (whole, HEADER + ONE + b"\0", 2, "answered 2 and has 1")):
            with self.assertRaisesRegex(kill_follow.Wrong, wanted):
                self.compared(leader, follower, most)

    def test_what_is_no_have(self):
        relay = mock.Mock(most=0, haves=0)
        kill_follow.Relay.note(relay, bytearray(b"\2\0\0\0\0\0\0\0\5\2\0"))
        self.assertEqual((relay.most, relay.haves), (5, 1))
        with self.assertRaises(kill_follow.Wrong):
            kill_follow.Relay.note(relay, bytearray(b"\3\0\0\0\0\0\0\0\5"))

    def test_kills_that_come_too_late(self):
        """It fails where no kill came while records were shipped."""
        pair = mock.Mock(seen=kill_follow.collections.Counter(), draw=random.Random(7), following=None)
        with self.assertRaisesRegex(kill_follow.Wrong, "no kill of the follower"):
            kill_follow.kill_often(pair, 1, 0)


@needs_program
class Kills(Folder):
    """The built program, killed a few times."""

    def test_a_few_kills(self):
        status, said, _ = self.tool("kill_follow", PROGRAM, "--follower", "6", "--leader", "3", "--sessions", "12")
        self.assertEqual((status, said.splitlines()[-1]), (0, "9 passed, 0 failed"), said)
        self.assertRegex(said, re.compile(r"^84 records; ", re.M))


if __name__ == "__main__":
    unittest.main()
