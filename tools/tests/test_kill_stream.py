"""What kill_stream.py demands of the files, the answers and the processes."""
import random
import unittest
from unittest import mock

import kill_stream

ONE, OTHER = b"\1\0\0\0\2ab", b"\1\0\0\0\1c"
HEADER = b"SHADOWJ2"
WHOLE = HEADER + ONE + OTHER + b"\0"


class Files(unittest.TestCase):
    """The demands on the two files, over files made by hand."""

    def compared(self, leader, follower, most, before=b""):
        sides = mock.Mock(leader="leader", follower="follower", front=before)
        sides.relay.most = most
        sides.data = {"leader": leader, "follower": follower}.get
        return kill_stream.Streaming.compare(sides, "here")

    def test_files_that_are_right(self):
        """The length of the follower's records, and whether it has a part of one more."""
        for follower, most, wanted in ((b"", 0, (0, False)), (b"SHAD", 0, (4, False)), (HEADER + b"\0", 0, (8, False)),
                                       (HEADER + ONE + b"\0", 1, (15, False)), (HEADER + ONE + b"\0" + OTHER[1:], 1, (15, True)),
                                       (WHOLE, 2, (21, False)), (WHOLE, 1, (21, False))):
            with self.subTest(follower=follower):
                self.assertEqual(self.compared(WHOLE, follower, most), wanted)

    def test_a_leader_in_work(self):
        """What is after the leader's closed gate is no record of it."""
        self.assertEqual(self.compared(HEADER + ONE + b"\0" + OTHER[1:], HEADER + ONE + b"\0", 1, HEADER + ONE), (15, False))

    def test_files_that_are_wrong(self):
        for leader, follower, most, before, wanted in (
                (WHOLE, HEADER + OTHER + b"\0", 0, b"", "no beginning"),
                (HEADER + ONE + b"\0", WHOLE, 2, b"", "no beginning"),
                (HEADER + ONE + b"\0" + OTHER[1:], WHOLE, 2, b"", "no beginning"),
                (WHOLE, HEADER + ONE + b"\0", 2, b"", "answered 2 and has 1"),
                (WHOLE, b"", 1, b"", "answered 1 and has 0"),
                (WHOLE, HEADER + ONE + OTHER[:-1], 1, b"", "is cut"),
                (HEADER + ONE + b"\0", HEADER + b"\0", 0, HEADER + ONE + OTHER, "lacks what it had"),
                (HEADER + OTHER + b"\0", HEADER + b"\0", 0, HEADER + ONE, "lacks what it had")):
            with self.subTest(wanted=wanted, leader=leader), self.assertRaisesRegex(kill_stream.Wrong, wanted):
                self.compared(leader, follower, most, before)


class Answers(unittest.TestCase):
    """Which answers a history has to have, and what is found where it has not."""

    def asked(self, reply):
        sides, connection = mock.Mock(), mock.Mock(**{"ask.return_value": reply})
        with mock.patch.object(kill_stream, "Connection", return_value=connection):
            kill_stream.Streaming.has_answers(sides, "journal", [kill_stream.Answer(4, 0, 1, 1)], "here")
        return connection.ask.call_args[0][0]

    def test_an_answer_that_is_there(self):
        """The other response is sent, so a server without the answer would take it."""
        message = self.asked((409, {"error": "other", "value": 1}))
        self.assertTrue(message.startswith(b"POST /sessions/0/answers ") and message.endswith(b'{"step":1,"response":0}'), message)

    def test_an_answer_that_is_not_there(self):
        for reply in ((200, {"item": 2, "proved": True, "session": 0, "state": "waiting", "step": 2}), (409, {"error": "other", "value": 0}),
                      (404, {"error": "no-session", "value": 0}), (409, {"error": "wrong-step", "value": 0})):
            with self.subTest(reply=reply), self.assertRaisesRegex(kill_stream.Wrong, "is not in the follower's file"):
                self.asked(reply)

    def test_what_a_count_has(self):
        one, other, late = (kill_stream.Answer(entries, 0, 0, 1) for entries in (3, 5, 6))
        sides = mock.Mock(clients=[mock.Mock(answers=[other, late]), mock.Mock(answers=[one])])
        self.assertEqual(kill_stream.Streaming.counted(sides, 5), [one, other])


class Processes(unittest.TestCase):
    """What must go on, and what must not."""

    def kept(self, streaming=None, server=None, relay=None, client=None, alive=True):
        one = mock.Mock(fault=client, **{"is_alive.return_value": alive, "ended.is_set.return_value": False})
        sides = mock.Mock(clients=[one], folder=".")
        sides.following.poll.return_value = None
        sides.streaming.poll.return_value, sides.server.process.poll.return_value, sides.relay.fault = streaming, server, relay
        sides.keep_stream = lambda: kill_stream.Streaming.keep_stream(sides)
        with mock.patch("builtins.open", mock.mock_open(read_data="its lines")):
            kill_stream.Streaming.keep(sides)

    def test_processes_that_end(self):
        self.kept()
        for faults, wanted in (({"streaming": 20}, "stream ended"), ({"server": 9}, "serve ended"), ({"relay": "no have"}, "no have"),
                               ({"client": "no reply"}, "no reply"), ({"alive": False}, "a client has ended")):
            with self.subTest(faults=faults), self.assertRaisesRegex(kill_stream.Wrong, wanted):
                self.kept(**faults)

    def test_a_follower_that_gets_no_more(self):
        sides = mock.Mock()
        sides.relay.most = 4
        with mock.patch.object(kill_stream, "LIMIT", 0.01), self.assertRaisesRegex(kill_stream.Wrong, "answers 4 of 5 records"):
            kill_stream.Streaming.until_at(sides, 5, "here")

    def test_kills_that_come_too_late(self):
        """It fails where each kill found all records at the follower, and the further ones too."""
        sides = mock.Mock(seen=kill_stream.collections.Counter(), draw=random.Random(7))
        with self.assertRaisesRegex(kill_stream.Wrong, "no kill of the follower"):
            kill_stream.kill_often(sides, 1, 0)
        self.assertEqual(sides.trial.call_count, 1 + kill_stream.FURTHER)

    def test_a_further_kill(self):
        """If none of the asked kills of the follower came while it lacked records, it is killed until one does."""
        sides = mock.Mock(seen=kill_stream.collections.Counter(), draw=random.Random(7))
        sides.trial.side_effect = lambda victim, when: sides.seen.update(behind=when == "further kill 2, of the follower")
        kill_stream.kill_often(sides, 2, 1)
        self.assertEqual(sorted(call[0][0] for call in sides.trial.call_args_list), ["follower"] * 5 + ["leader"])

    def test_a_port_that_is_taken(self):
        """The server is started again as long as its port is taken, and after no other failure."""
        sides, started = mock.Mock(program="program", texts=("bank", "plan")), mock.Mock()
        taken = RuntimeError("the server ended with status 14: shadowd: cannot listen on 127.0.0.1:20000: in use")
        with mock.patch.object(kill_stream, "Server", side_effect=[taken, taken, started]) as server:
            self.assertIs(kill_stream.Streaming.serve(sides, "journal", ("127.0.0.1", 20000)), started)
        self.assertEqual([call[1]["listen"] for call in server.call_args_list], ["127.0.0.1:20000"] * 3)
        for faults, limit in (([RuntimeError("the server ended with status 6")], 60), ([taken], 0)):
            with mock.patch.object(kill_stream, "Server", side_effect=faults), mock.patch.object(kill_stream, "LIMIT", limit), \
                    self.assertRaisesRegex(kill_stream.Wrong, "serve on journal: the server ended"):
                kill_stream.Streaming.serve(sides, "journal")


if __name__ == "__main__":
    unittest.main()
