"""What soak.py demands: journals and replies made by hand, right and with one thing wrong; runs of a program that does one thing wrong."""
import os
import random
import unittest
from unittest import mock

import data_of_bank_a as bank_a
import soak
from common import PROGRAM, Folder, needs_program
from shadowtools.gate import soak_clients, soak_compare, soak_site
from shadowtools.gate.soak_clients import GIVEN_UP, Asked, Exchange

FORM, TREE = bytes(64), b"\0\1\0\6"
ONE, OTHER = 70, 71  # bookings


def started(session, booking):
    return b"\6" + session.to_bytes(4, "big") + booking.to_bytes(8, "big") + b"\1" + FORM


def served(session, step, item):
    return b"\3" + session.to_bytes(4, "big") + step.to_bytes(2, "big") + item.to_bytes(2, "big") + FORM + b"\1" + TREE


def answered(session, step, response):
    return b"\4" + session.to_bytes(4, "big") + step.to_bytes(2, "big") + bytes([response])


def closed(session):
    return b"\5" + session.to_bytes(4, "big")


RECORDS = [started(0, ONE), served(0, 0, 2), started(1, OTHER), served(1, 0, 2), answered(0, 0, 1), served(0, 1, 4), closed(1)]
DATA = bank_a.journal(RECORDS)
JOURNAL = soak_compare.read_journal(DATA)


def waiting(session, step, item):
    return {"item": item, "proved": True, "session": session, "state": "waiting", "step": step}


def exchange(asked, status, body, at=1.0, client="plain", epoch=0):
    return Exchange(client, asked, epoch, at - 0.5, at, at + 0.1, status, body)


BEGIN, OTHERS = Asked("begin", ONE), Asked("begin", OTHER)
ANSWER, CLOSE = Asked("answer", ONE, 0, 0, 1), Asked("close", OTHER, 1)
RIGHT = [exchange(BEGIN, 201, waiting(0, 0, 2), 1), exchange(OTHERS, 201, waiting(1, 0, 2), 1), exchange(ANSWER, 200, waiting(0, 1, 4), 2),
         exchange(CLOSE, 200, {"session": 1, "state": "closed"}, 2), exchange(ANSWER, 200, waiting(0, 1, 4), 3)]


def faults_of(exchanges, journal=JOURNAL, inherited=0, windows=()):
    """The demands that do not hold."""
    return {what for what, faults in soak_compare.demands(journal, exchanges, inherited, windows).items() if faults}


LOST, FOREIGN, UNTRUE = "each acknowledged request is in the journal", "each entry was sent by its booking's client", "each reply agrees with the journal"
BACK, LATE, CAUSELESS = "no session goes back", "no late client is taken", "no fault without a cause"


class Demands(unittest.TestCase):
    def test_what_is_right(self):
        self.assertEqual(JOURNAL.bookings, [ONE, OTHER])
        self.assertEqual(JOURNAL.served[0, 1], (4, True))
        self.assertEqual(faults_of(RIGHT), set())

    def test_an_acknowledged_request_that_is_not_there(self):
        for number, without in ((4, answered(0, 0, 1)), (6, closed(1))):
            records = [record for record in RECORDS if record != without and record != served(0, 1, 4)]
            self.assertEqual(faults_of(RIGHT, soak_compare.read_journal(bank_a.journal(records))) & {LOST}, {LOST}, number)
        self.assertEqual(faults_of([*RIGHT, exchange(Asked("begin", 72), 201, waiting(2, 0, 2))]), {LOST, UNTRUE})

    def test_another_response_than_the_acknowledged_one(self):
        records = [answered(0, 0, 0) if record == answered(0, 0, 1) else record for record in RECORDS]
        self.assertEqual(faults_of(RIGHT, soak_compare.read_journal(bank_a.journal(records))), {LOST, FOREIGN})

    def test_an_entry_that_nobody_sent(self):
        for left in (0, 1, 3):
            self.assertEqual(faults_of([one for number, one in enumerate(RIGHT) if number != left]), {FOREIGN}, left)
        self.assertEqual(faults_of([], inherited=len(RECORDS)), set())
        self.assertEqual(faults_of([], inherited=len(RECORDS) - 1), {FOREIGN})

    def test_an_answer_whose_reply_was_not_read_may_be_there(self):
        given_up = [exchange(one.asked, 0, GIVEN_UP) for one in RIGHT]
        self.assertEqual(faults_of(given_up), set())

    def test_a_late_client(self):
        """An answer in the session of another booking is refused, and nothing else."""
        late = Asked("answer", 99, 0, 0, 1)
        self.assertEqual(faults_of([*RIGHT, exchange(late, 409, {"error": "other-booking"})]), set())
        self.assertEqual(faults_of([*RIGHT, exchange(late, 200, waiting(0, 1, 4), 3)]), {LOST, LATE})
        self.assertEqual(faults_of([*RIGHT, exchange(Asked("close", 99, 1), 200, {"session": 1, "state": "closed"}, 3)]), {LOST, LATE})
        self.assertTrue(soak_compare.is_late(JOURNAL, exchange(late, 409, {"error": "other-booking"})))
        self.assertFalse(soak_compare.is_late(JOURNAL, RIGHT[2]))

    def test_a_refusal_that_is_not_true(self):
        other = Asked("answer", ONE, 0, 0, 0)
        for asked, status, body, is_right in (
                (other, 409, {"error": "other", "value": 1}, True), (other, 409, {"error": "other", "value": 0}, False),
                (ANSWER, 409, {"error": "other", "value": 1}, False), (ANSWER, 409, {"error": "other-booking"}, False),
                (Asked("answer", 99, 0, 0, 1), 409, {"error": "other-booking", "value": ONE}, False),
                (Asked("answer", ONE, 7, 0, 1), 409, {"error": "other-booking"}, False),
                (Asked("look", ONE, 2), 404, {"error": "no-session", "value": 2}, True),
                (Asked("look", ONE, 1), 404, {"error": "no-session", "value": 2}, False)):
            self.assertEqual(faults_of([*RIGHT, exchange(asked, status, body)]), set() if is_right else {UNTRUE}, body)

    def test_another_item_than_the_served_one(self):
        for body in (waiting(0, 1, 3), {**waiting(0, 1, 4), "proved": False}):
            self.assertEqual(faults_of([*RIGHT, exchange(ANSWER, 200, body, 3)]), {UNTRUE})

    def test_a_session_that_goes_back(self):
        look = Asked("look", ONE, 0)
        self.assertEqual(faults_of([*RIGHT, exchange(look, 200, waiting(0, 0, 2), 2.05)]), set())
        self.assertEqual(faults_of([*RIGHT, exchange(look, 200, waiting(0, 0, 2), 2.2)]), {BACK})
        self.assertEqual(faults_of([*RIGHT, exchange(look, 200, {"session": 0, "state": "pending", "step": 1}, 2.2)]), {BACK})
        self.assertEqual(faults_of([*RIGHT, exchange(Asked("look", OTHER, 1), 200, waiting(1, 0, 2), 9)]), {BACK})

    def test_a_fault_without_a_cause(self):
        for status, body in ((0, None), (503, {"error": "disk"}), (500, {"error": "memory"})):
            one = exchange(Asked("health", 0), status, body, 5)
            self.assertEqual(faults_of([*RIGHT, one]), {CAUSELESS})
            for window, is_excused in (((4.4, 4.6), status == 0), ((4.9, 5), True), ((5.05, 9), True), ((5.2, 9), False), ((3, 4.4), False)):
                self.assertEqual(faults_of([*RIGHT, one], windows=[window]), set() if is_excused else {CAUSELESS}, window)

    def test_what_was_inherited(self):
        front = len(bank_a.journal(RECORDS[:3])) - 1
        self.assertEqual(soak_compare.parted(DATA[:front] + b"\0", DATA, 3), [])
        self.assertEqual(soak_compare.parted(bank_a.journal([*RECORDS[:3], closed(0)]), DATA, 3), [])
        for wrong, inherited in ((bank_a.journal([RECORDS[0], RECORDS[2]]), 2), (DATA[:front] + b"\0", len(RECORDS) + 1)):
            self.assertEqual(len(soak_compare.parted(wrong, DATA, inherited)), 1)


class Clients(unittest.TestCase):
    def client(self, kind, *replies):
        place = soak_clients.Place("")
        one = kind(place, 0, 7)
        given = iter(replies)
        one.pause = lambda: None
        one.reply = lambda asked: exchange(asked, *next(given))
        return one

    def test_whoever_lost_a_session_begins_again(self):
        for error in ({"error": "other-booking"}, {"error": "no-session", "value": 0}, {"error": "wrong-step", "value": 0}):
            one = self.client(soak_clients.Client, (201, waiting(0, 0, 2)), (409, error), (201, waiting(5, 0, 2)), (200, {"session": 5, "state": "complete"}))
            one.session(ONE)
            with self.assertRaises(StopIteration):
                one.reply(BEGIN)

    def test_a_reply_that_no_client_can_have(self):
        for kind, error in ((soak_clients.Client, "other"), (soak_clients.Client, "is-closed"), (soak_clients.Twin, "bad-body"),
                            (soak_clients.Late, "bad-json")):
            one = self.client(kind, (201, waiting(0, 0, 2)), (409, {"error": error}))
            with self.assertRaises(soak_clients.Wrong):
                one.session(ONE)

    def test_each_message_names_its_booking(self):
        for asked in (ANSWER, CLOSE, BEGIN):
            self.assertIn(b'"booking":%d' % asked.booking, asked.message())


class Site(Folder):
    def test_what_a_line_is_of(self):
        for line, wanted in (("shadowd: journal /tmp/x/journal: No space left on device (os error 28)\n",
                              "shadowd: journal journal: No space left on device (os error N)"),
                             ("shadowd: listening on 127.0.0.1:4710, journal /a/b\n", "shadowd: listening on N, journal b")):
            self.assertEqual(soak_site.kind_of(line), wanted)

    def test_a_pipe_that_nobody_reads(self):
        process = soak_site.Process(["/bin/sh", "-c", "echo shadowd: listening on 127.0.0.1:4710, journal x >&2; sleep 60"], {}, self.path("log"))
        self.addCleanup(process.kill)
        self.assertTrue(process.await_port())
        process.block()
        with self.assertRaises(BlockingIOError):
            os.write(process.errors, b"x" * soak_site.PIECE)
        process.unblock()
        os.set_blocking(process.errors, True)
        os.write(process.errors, b"\nshadowd: asked to end\n")
        process.kill()
        self.assertEqual((process.port, list(process.told)[-1]), (4710, "shadowd: asked to end\n"))

    def compared(self, leader, follower, most=0, front=b""):
        site = mock.Mock(machines=[mock.Mock(**{"data.return_value": leader}), mock.Mock(**{"data.return_value": follower})], front=front)
        site.relay.most = most
        soak_site.Site.compare(site, "here")

    def test_the_two_files(self):
        part, wrong = bank_a.journal(RECORDS[:3]), bank_a.journal(RECORDS[2:])
        self.compared(DATA, part, 3, part[:-1])
        for leader, follower, most, front, why in ((DATA, wrong, 0, b"", "no beginning"), (part, DATA, 0, b"", "no beginning"),
                                                   (DATA, part, 4, b"", "answered 4 and has 3"), (part, part, 3, DATA[:-1], "lacks what it had")):
            with self.assertRaisesRegex(soak_site.Wrong, why):
                self.compared(leader, follower, most, front)

    def test_an_audit_that_finds_something(self):
        texts, path = [self.write("bank.csv", bank_a.BANK), self.write("plan.txt", bank_a.PLAN)], self.path("journal")
        with open(path, "wb") as file:
            file.write(DATA)
        for said, count, why in (("echo entries 6 sessions 2; true", 7, "it has 7 records"), ("exit 6", 7, "gives 6"),
                                 ("echo entries 7 sessions 2", 7, "audit.py of")):
            with open(self.path("program"), "w", encoding="ascii") as program:
                program.write(f"#!/bin/sh\n{said}\n")
            os.chmod(self.path("program"), 0o755)
            found = soak.judged(self.path("program"), texts, path, count, True)
            self.assertEqual((len(found), why in found[0]), (1, True), found)


class Order(unittest.TestCase):
    def test_each_fault_comes(self):
        first, again = (soak.schedule(random.Random(7)) for _ in range(2))
        self.assertEqual(first, again)
        self.assertEqual(sorted(first), sorted(soak.FAULTS))

    def test_the_best_disk_that_is_there(self):
        for user, loop, wanted in ((0, True, "ext4"), (0, False, "tmpfs"), (1000, True, "RLIMIT_FSIZE")):
            with mock.patch.object(os, "geteuid", return_value=user), mock.patch.object(soak_site, "has_loop_device", return_value=loop):
                self.assertEqual(soak_site.disk_kind(None), wanted)


@needs_program
class Wrong(Folder):
    """The built program, before whose start something is done."""

    def soaked(self, fault, before):
        path = self.write("program", f'#!/bin/sh\n{before}\nexec {PROGRAM} "$@"\n')
        os.chmod(path, 0o755)
        with mock.patch.object(soak, "schedule", lambda draw: [fault]):
            return self.tool("soak", path, "--minutes", "0", "--disk", "RLIMIT_FSIZE", "--folder", self.folder)

    def test_a_journal_that_is_made_though_none_may_be(self):
        status, said, _ = self.soaked("lost journal", "export SHADOWD_MAKE=yes")
        self.assertEqual(status, 1)
        self.assertRegex(said, "lost journal: serve with None for a journal goes on")
        self.assertTrue(said.endswith("0 passed, 1 failed\n"))

    def test_a_start_that_takes_an_older_journal(self):
        before = 'case "$1$SHADOWD_MAKE" in serveno) cp -n "$SHADOWD_JOURNAL" old; cp old "$SHADOWD_JOURNAL" ;; esac'
        status, said, _ = self.soaked("kill leader", before)
        self.assertEqual(status, 1)
        self.assertRegex(said, "the leader's file lacks what it had|more than this journal|no beginning of the leader's")
        self.assertTrue(said.endswith("0 passed, 1 failed\n"))


if __name__ == "__main__":
    unittest.main()
