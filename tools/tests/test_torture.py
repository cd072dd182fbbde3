"""torture.py: its draws, its readers by rows worked by hand, and that it finds a program that is
wrong."""
import contextlib
import io
import os
import unittest
from unittest import mock

import audit
import data_of_bank_a as a
import data_of_bands as bands
import journal_maker
import message_model
import mutate_bank
import reply_model
import text_readers
import torture
import torture_cases
import torture_draws as draws
import torture_http
from common import PROGRAM, TOOLS, Folder, needs_program
from exam_client import answer, begin, close, request_bytes

BANK = mutate_bank.read(draws.EXAMPLE[0])
FAULTY = os.path.join(TOOLS, "tests", "faulty_shadowd.py")


class Draws(unittest.TestCase):
    def test_a_seed_gives_the_same_texts(self):
        for number in range(20):
            first, second = (draws.of_case(3, number) for _ in range(2))
            self.assertEqual(draws.any_exam(first), draws.any_exam(second))
            self.assertEqual(list(draws.requests(first, 9, 3)), list(draws.requests(second, 9, 3)))
            self.assertEqual(draws.damaged(first, draws.EXAMPLE[0]),
                             draws.damaged(second, draws.EXAMPLE[0]))

    def test_texts_without_damage_are_read(self):
        """Some of them have bands, and of these some more than two."""
        numbers = []
        for number in range(20):
            bank, plan = draws.small_exam(draws.of_case(4, number))
            text_readers.read_plan(plan, *mutate_bank.read(bank))
            bank, plan = draws.drill_exam(draws.of_case(4, number), 1)
            numbers.append(len(text_readers.read_plan(plan, *mutate_bank.read(bank)).lines[b"bands"]))
        self.assertIn(0, numbers)
        self.assertGreater(max(numbers), 2)


    def test_each_way_to_bear_a_token(self):
        """Of the messages to a server with a token some have it, some none, some two and some another one of its length."""
        draw, right, found = draws.of_case(5, 0), b"a-token", set()
        for _ in range(400):
            fields = draws.authorization(draw, right)
            found.add((len(fields), tuple(len(one) for one in fields), b"Bearer " + right in fields))
        for wanted in ((1, (14,), True), (0, (), False), (1, (14,), False), (1, (13,), False), (1, (15,), False), (2, (14, 14), True)):
            self.assertIn(wanted, found)


class Plans(unittest.TestCase):
    """The first fault of a plan for the example's bank."""

    def said(self, text):
        try:
            return text_readers.canonical(text_readers.read_plan(text, *BANK), 0)
        except mutate_bank.Refused as refused:
            return refused.line

    def test_faults(self):
        front = b"length 3\nprior -10 0 -10\n"
        for text, wanted in (
                (b"enemies 3 2\n", "line 1 set"), (b"length 2\n", "missing prior"),
                             (b"", "missing length"), (front + b"rate 1 2\n", "missing key"),
                (front + b"# \n\nlength 2", "line 5 twice"), (front + b"length x", "line 3 number"),
                             (front + b"width 2", "line 3 word"),
                (front + b"count 0 1 ", "line 3 shape"), (front + b"count 0  1 2", "line 3 shape"),
                             (front + b"count 0 1 2-2", "line 3 set"),
                (front + b"count 0 1 512", "line 3 set"), (front + b"count 2 1 0", "row 0 bounds"),
                             (front + b"count 0 1 6", "row 0 item"),
                (front + b"quantity 0 0 1 0", "row 0 quantity"),
                             (front + b"quantity 256 0 1 0", "line 3 number"),
                             (front + b"stimulus 1 1 2", "stimulus 1"),
                (front + b"bands", "line 3 shape"), (front + b"bands 1 ", "line 3 shape"),
                (front + b"bands 256", "line 3 number"), (front + b"bands 01", "line 3 number"),
                (front + b"bands 1\nbands 2", "line 4 twice"), (front + b"bands 0", "bands"),
                (front + b"bands 3", "bands"), (front + b"bands 2 1", "bands"),
                (front + b"bands 1 1", "bands"), (front + b"bands 1 2 3 4 5 6 7 8", "bands"),
                (front + b"bands 3\nbudget 2", "bands"),
                (front + b"rate 2 1\nbands 3\nkey " + b"0" * 64, "rate"),
                (front + b"budget 2", "budget"), (front + b"journal 63", "limit"),
                             (front + b"base 0-1", "base"), (b"prior 0\nlength 7", "length"),
                (b"prior 0\nlength 6", "prior"), (front + b"key " + b"A" * 64, "line 3 number"),
                             (front + b"\r\n", "line 3 word")):
            with self.subTest(text):
                self.assertEqual(self.said(text), f"plan: {wanted}")

    def test_bands_of_larger_grids(self):
        """Seven points on a grid of nine are taken, also its last point; eight are not, nor the point 9."""
        items = [(0, 2, [], [1] * 9, [-1] * 18)]
        front = b"length 1\nprior" + b" 0" * 9 + b"\nbands "
        plan = text_readers.read_plan(front + b"1 2 3 4 5 6 8", 9, items)
        self.assertIn("\nkey " + "0" * 64 + "\nbands 1 2 3 4 5 6 8\nbudget 2001\n",
                      text_readers.canonical(plan, 0))
        for points in (b"1 2 3 4 5 6 7 8", b"9", b"255"):
            with self.assertRaisesRegex(mutate_bank.Refused, "plan: bands"):
                text_readers.read_plan(front + points, 9, items)

    def test_canonical(self):
        text = b"#\nprior -10 0 -10\ncount 0 3 0-1 2 4\nlength 3\nbase 1 4-5"
        self.assertEqual(self.said(text).splitlines(),
                         ["length 3", "prior -10 0 -10", "rate 1 1", "key " + "0" * 64,
                          "budget 2001", "base-budget 4095", "sessions 1000",
                          "journal 67108864", "count 0 3 0-2 4", "base 1 4-5"])


class Scripts(unittest.TestCase):
    """Lines with a list of items that the examinee must not get, and lines that name a booking."""

    def test_lines(self):
        for line, wanted in (
                (b"begin 7 without 2", [7, frozenset([2])]), (b"begin 18446744073709551615 without 2", [2**64 - 1, frozenset([2])]), (b"begin 7 without 0-2 4 511", [7, frozenset([0, 1, 2, 4, 511])]),
                (b"begin 7 without", None), (b"begin 7 without ", None), (b"begin 7 without 0 1", None), (b"begin 7 without 2-2", None),
                (b"begin 7 without 3 1", None), (b"begin 7 without 512", None), (b"begin 7 without 01", None), (b"begin 07 without 1", None),
                (b"begin 18446744073709551616 without 1", None), (b"begin 7 Without 1", None), (b"begin 7 1", None),
                (b"answer 0 1 2 for 7", [0, 1, 2, 7]), (b"close 3 for 18446744073709551615", [3, 2**64 - 1]), (b"close 3", [3]),
                (b"answer 0 1 2 for", None), (b"answer 0 1 2 7", None), (b"answer 0 1 for 7", None), (b"answer 0 1 2 for 7 8", None),
                (b"answer 0 1 2 for 7 for 7", None), (b"answer 0 1 2 of 7", None), (b"close 3 for 18446744073709551616", None),
                (b"close 3 for 07", None), (b"close for 7", None), (b"look 3 for 7", None), (b"begin 7 for 7", None), (b"exposure for 7", None)):
            with self.subTest(line):
                found = text_readers.request_of(line)
                self.assertEqual(found and found.numbers, wanted)


class Models(unittest.TestCase):
    """The model of the requests over a journal in which eligibility is set aside at a later step."""

    def setUp(self):
        self.maker = journal_maker.Maker(bands.BANK_TWO, bands.PLAN_TWO).run(bands.SCRIPT_TWO)
        self.requests = text_readers.read_script(bands.SCRIPT_TWO.encode())

    def replies(self, data):
        """The lines of the replies, until the journal lacks an entry; what it lacks."""
        model, said = reply_model.Model(self.maker.rules, reply_model.records_of(data)[0]), []
        for request in self.requests:
            try:
                said += reply_model.lines_of(model.reply(request), self.maker.rules)
            except reply_model.Missing as missing:
                return said, missing
        return said, None

    def test_replies_over_each_file(self):
        for data in self.maker.files():
            self.assertEqual(self.replies(data), (bands.REPLIES_TWO.splitlines(), None))
            records, kept = reply_model.records_of(data)
            self.assertEqual((len(records), kept), (17, data))
            self.assertEqual(reply_model.length_of(records), len(data))

    def test_what_is_missing(self):
        """Eligibility may be set aside before the first item of a session, and before the second, whose estimate is in another
        band; then only the item is missing. A start of two bands has 142 bytes, and a setting aside 13 or more."""
        kinds = [payload[0] for payload in self.maker.old]
        self.assertEqual([k for k, kind in enumerate(kinds) if kind == 2], [11, 14])
        for many, kind, least, exact in ((0, audit.STARTED, 142, True), (1, audit.ASIDE, 13, False), (2, audit.ANSWERED, 8, True),
                                         (3, audit.ASIDE, 13, False), (11, audit.ASIDE, 13, False), (12, audit.SERVED, 78, False),
                                         (14, audit.ASIDE, 13, False), (15, audit.SERVED, 78, False)):
            _, missing = self.replies(journal_maker.file_of(journal_maker.TWO, self.maker.new[:many]))
            with self.subTest(many):
                self.assertEqual((missing.kind, missing.least, missing.exact), (kind, least, exact))


class Lists(unittest.TestCase):
    """The model of sessions with a list of items that the examinee must not get, over records of bank A that were made by hand."""

    SCRIPT = ("begin 70\nbegin 71 without 2\nbegin 71 without 1\nbegin 71\nbegin 70 without 2\nbegin 72 without 0-1\nbegin 72 without 3-5\n"
              "begin 72 without 6\nclose 1\nexposure\n")
    REPLIES = ["session 0 step 0 item 2 proved", "session 1 step 0 item 1 proved", "refused other-list 1", "session 1 step 0 item 1 proved",
               "refused other-list 0", "refused no-form", "refused no-form", "refused no-item 6", "session 1 closed", "exposure finished 1",
               "item 0 shown 0 eligible 1", "item 1 shown 1 eligible 1", "item 2 shown 0 eligible 0", "item 3 shown 0 eligible 1",
               "item 4 shown 0 eligible 1", "item 5 shown 0 eligible 1"]

    def model(self, payloads, plan=a.PLAN):
        data = journal_maker.file_of(journal_maker.TWO, payloads)
        return reply_model.Model(journal_maker.rules_of(a.BANK, plan), reply_model.records_of(data)[0])

    def payloads(self):
        """Session 0 without a list is served item 2; session 1 without item 2 is served item 1 from the form {1, 3, 5}, and closed."""
        made = journal_maker.Maker(a.BANK, a.PLAN)
        made.begin(70)
        made.add(a.started_without(1, 71, {2}, {1, 3, 5}))
        made.serve(1)
        made.close(1)
        return made.new

    def test_replies(self):
        model = self.model(self.payloads())
        said = [line for request in text_readers.read_script(self.SCRIPT.encode())
                for line in reply_model.lines_of(model.reply(request), model.rules)]
        self.assertEqual(said, self.REPLIES)
        self.assertEqual(model.taken, len(model.records))

    def test_what_is_missing(self):
        """A start with a list has 206 bytes in a plan of one band. One with another list, or without one, is not the next record."""
        payloads = self.payloads()
        for words in ("begin 71 without 2-3", "begin 71"):
            model = self.model(payloads)
            model.reply(text_readers.request_of(b"begin 70"))
            with self.subTest(words), self.assertRaises(reply_model.Missing):
                model.reply(text_readers.request_of(words.encode()))
        with self.assertRaises(reply_model.Missing) as found:
            self.model([]).reply(text_readers.request_of(b"begin 70 without 2"))
        self.assertEqual((found.exception.kind, found.exception.least, found.exception.exact), (audit.STARTED, 206, True))

    def test_the_order_of_refusals(self):
        """The number of sessions comes after the items of the list, and before a form without them."""
        for words, wanted in (("begin 71 without 0-1 6", "refused no-item 6"), ("begin 71 without 0-1", "limit sessions 1 of 1")):
            model = self.model(self.payloads()[:2], a.PLAN + "sessions 1\n")
            model.take_first(2)
            with self.subTest(words):
                self.assertEqual(reply_model.lines_of(model.reply(text_readers.request_of(words.encode())), model.rules), [wanted])


class Bookings(unittest.TestCase):
    """The model of answers and closings that name a booking: another one is refused before the step and the response are looked at."""

    SCRIPT = ("answer 0 0 1 for 70\nbegin 70\nanswer 0 0 1 for 71\nbegin 71\nanswer 0 0 1 for 71\nanswer 0 9 9 for 71\nanswer 2 0 1 for 71\nclose 2 for 71\n"
              "close 0 for 71\nanswer 0 0 1 for 70\nanswer 0 0 0 for 71\nanswer 0 0 0 for 70\nanswer 0 0 1 for 70\nanswer 0 0 1\nclose 0 for 72\nclose 0 for 70\n"
              "close 0 for 71\nclose 0 for 70\nanswer 0 1 1 for 71\nanswer 0 1 1 for 70\nclose 1\n")
    REPLIES = ["refused no-session 0", "session 0 step 0 item 2 proved", "refused other-booking", "session 1 step 0 item 2 proved",
               "refused other-booking", "refused other-booking", "refused no-session 2", "refused no-session 2",
               "refused other-booking", "session 0 step 1 item 4 proved", "refused other-booking", "refused other 1", "session 0 step 1 item 4 proved",
               "session 0 step 1 item 4 proved", "refused other-booking", "session 0 closed", "refused other-booking", "refused is-closed closed",
               "refused other-booking", "refused is-closed closed", "session 1 closed"]

    def test_replies(self):
        made = journal_maker.Maker(a.BANK, a.PLAN)
        made.begin(70)
        made.begin(71)
        made.answer(0, 0, 1)
        made.close(0)
        made.close(1)
        model = reply_model.Model(made.rules, reply_model.records_of(journal_maker.file_of(journal_maker.TWO, made.new))[0])
        said = [line for request in text_readers.read_script(self.SCRIPT.encode())
                for line in reply_model.lines_of(model.reply(request), model.rules)]
        self.assertEqual(said, self.REPLIES)
        self.assertEqual(model.taken, len(model.records))


class Messages(unittest.TestCase):
    """What messages are, and why bytes are none."""

    def found(self, data, token=b""):
        return [one.words if isinstance(one, message_model.Fault) else message_model.asked(one, token)
                for one in message_model.messages(data)]

    def test_messages(self):
        look = b"GET /sessions/7?x HTTP/1.1\n\n"
        body = b'POST /sessions HTTP/1.1\r\nContent-length:\t25\r\n\r\n{"booking":1,"booking":2}'
        for data, wanted in (
                (look + look, [("look", [7])] * 2), (body[:-1], [[None]]), (body, [("begin", [2])]),
                             (body.replace(b"25", b"24"), ["bad-json", ["bad-head"]]),
                             (b"\r\n" + look[:-1], [[None]]),
                (look.replace(b"1.1", b"1.0") + look, [("look", [7])]),
                             (look.replace(b"GET", b"HEAD") + look, ["no-method"]),
                (look.replace(b"GET ", b"GET  "), [["bad-head"]]),
                             (look.replace(b"7", b"07"), ["no-route"]),
                (b"POST /exposure HTTP/1.1\n\n", [["no-length"]]),
                             (b"GET / HTTP/1.1\nContent-Length: 4097\n\n", [["too-long"]]),
                (b"GET / HTTP/1.1\nContent-Length: 1\nContent-Length: 1\n\n", [["bad-head"]]),
                (b"GET / HTTP/1.1\n" + b"A:\n" * 65 + b"\n", [["bad-head"]]),
                             (b"GET /" + b"a" * 9000, [["too-long"]]), (b"\xff", [["bad-head"]]),
                (b"POST /sessions HTTP/1.1\nContent-Length: 16\n\n{\"booking\": 1.0}",
                 ["bad-body"]),
                (b"POST /sessions HTTP/1.1\nContent-Length: 6\n\n[1e400", ["bad-json"])):
            with self.subTest(data):
                self.assertEqual(self.found(data), wanted)

    def test_lists(self):
        for member, wanted in (
                (b"", ("begin", [1])), (b',"without":[]', ("begin", [1])), (b',"Without":[2]', ("begin", [1])),
                (b',"without":[5,2,5]', ("begin", [1, frozenset([2, 5])])), (b',"without":[511]', ("begin", [1, frozenset([511])])),
                (b',"without":null,"without":[0]', ("begin", [1, frozenset([0])])), (b',"without":null', "bad-body"),
                (b',"without":[0],"without":null', "bad-body"), (b',"without":[512]', "bad-body"), (b',"without":[1.0]', "bad-body"),
                (b',"without":["1"]', "bad-body"), (b',"without":[[1]]', "bad-body"), (b',"without":"1"', "bad-body"),
                (b',"without":-1', "bad-body"), (b',"without":{"1":1}', "bad-body"), (b',"without":[-0]', "bad-body")):
            body = b'{"booking":1' + member + b"}"
            head = b"POST /sessions HTTP/1.1\nContent-Length: %d\n\n" % len(body)
            with self.subTest(member):
                self.assertEqual(self.found(head + body), [wanted])

    def test_bookings(self):
        none, seven = [], [7]
        for value, named in (
                (b"7", seven), (b"0", [0]), (b"18446744073709551615", [2**64 - 1]), (b'"7","booking":7', seven), (b"18446744073709551616", None),
                (b"1.0", None), (b"1e3", None), (b"-1", None), (b'"7"', None), (b"null", None), (b"[7]", None), (b'7,"booking":null', None)):
            for body, path, kind, front in (
                    (b'{"step":1,"response":0,"booking":%s}' % value, b"answers", "answer", [3, 1, 0]), (b'{"booking":%s}' % value, b"close", "close", [3])):
                with self.subTest(body):
                    self.assertEqual(self.posted(path, body), ["bad-body" if named is None else (kind, front + named)])
        for body, answer_of, close_of in (
                (b"", "bad-json", none), (b"{", "bad-json", none), (b'{"booking":8', "bad-json", none), (b"\xff", "bad-json", none), (b"[8]", "bad-body", none),
                (b"8", "bad-body", none), (b"null", "bad-body", none), (b"{}", "bad-body", none), (b'{"Booking":8}', "bad-body", none),
                (b'{"step":1,"response":0}', ("answer", [3, 1, 0]), none), (b'{"step":1,"response":0,"booking":8}', ("answer", [3, 1, 0, 8]), [8])):
            with self.subTest(body):
                self.assertEqual(self.posted(b"answers", body), [answer_of])
                self.assertEqual(self.posted(b"close", body), [("close", [3, *close_of])])

    def posted(self, path, body):
        return self.found(b"POST /sessions/3/%s HTTP/1.1\nContent-Length: %d\n\n%s" % (path, len(body), body))

    def test_tokens(self):
        look = b"GET /sessions/7 HTTP/1.1\n%s\n"
        for fields, wanted in ((b"", "unauthorized"), (b"authorization:\tBearer key \n", ("look", [7])), (b"Authorization:BEARER key\n", ("look", [7])),
                               (b"Authorization: Bearer  key\n", "unauthorized"),
                               (b"Authorization: Bearer kex\n", "unauthorized"), (b"Authorization: Bearer ke\n", "unauthorized"),
                               (b"Authorization: Bearer keys\n", "unauthorized"), (b"Authorization: Basic key\n", "unauthorized"),
                               (b"Authorization: key\n", "unauthorized"), (b"Authorization: Bearer key\n" * 2, "unauthorized")):
            with self.subTest(fields):
                self.assertEqual(self.found(look % fields, b"key"), [wanted])
                self.assertEqual(self.found(look % fields), [("look", [7])])
        health = b"GET /health HTTP/1.1\n\n"
        self.assertEqual(self.found(health, b"key"), [("health", [])])
        self.assertEqual(self.found(health.replace(b"GET", b"PUT"), b"key"), ["unauthorized"])
        self.assertEqual(self.found(health.replace(b"GET", b"PUT")), ["no-method"])
        self.assertEqual(self.found(health.replace(b"health", b"health/"), b"key"), ["unauthorized"])

    def test_each_front_of_a_head_is_a_part(self):
        head = b"\r\n\nPOST /a?b HTTP/1.1\r\nContent-Length: 0\r\nA:\n\r\n"
        for size in range(1, len(head)):
            self.assertEqual(message_model.front(head[:size]), message_model.Fault([None]),
                             head[:size])


def responded(status, body, close=False):
    """A response as docs/HTTP.md has it, with the status line as its text."""
    fields = "WWW-Authenticate: Bearer\r\n" * status.startswith("401") + "Content-Type: application/json\r\n" + f"Content-Length: {len(body)}\r\n"
    return f"HTTP/1.1 {status}\r\n{fields}{close * CLOSE}\r\n{body}".encode("ascii")


CLOSE = "Connection: close\r\n"
PLACE = '{"item":2,"proved":true,"session":0,"state":"waiting","step":0}'
# A session that begins, gets a response that its item does not have, and is closed.
ASKED = [begin(70), answer(0, 0, 2), request_bytes("GET", "/sessions/0"),
         request_bytes("POST", "/sessions/0/close"), request_bytes("GET", "/exposure"),
         request_bytes("GET", "/health"), b"\xff"]
# The journal has a header of 8 bytes, records of 83, 92 and 10, and a closed gate; it may have 67,108,864.
HEALTH = '{"busy":2,"entries":3,"open":0,"room":67108670}'
ANSWERED = [responded("201 Created", PLACE),
            responded("422 Unprocessable Entity", '{"error":"bad-response","value":2}'),
            responded("200 OK", PLACE), responded("200 OK", '{"session":0,"state":"closed"}'),
            responded("200 OK", '{"finished":1,"rows":[[0,1],[0,1],[1,1],[0,1],[0,1],[0,1]]}'),
            responded("200 OK", HEALTH), responded("400 Bad Request", '{"error":"bad-head"}', True)]


class Connections(Folder):
    """The responses of a connection, beside the journal that was left."""

    def setUp(self):
        super().setUp()
        case = torture_cases.Case(None, self.folder, None)
        self.exam = torture_cases.Exam(case, *draws.EXAMPLE)
        tree = bytes.fromhex("0100010003000000010300")
        entries = [a.started(0, 70), a.served(0, 0, 2, [1, 2, 3], tree=tree), b"\5\0\0\0\0"]
        case.write("journal", a.journal(entries))

    def in_order(self, answered, asked=b"".join(ASKED)):
        """The judgement of one connection after another."""
        records, _ = reply_model.records_of(self.exam.case.read("journal"))
        model = reply_model.Model(self.exam.rules, records)
        torture_http.Responses(self.exam, model, answered, False).judge(asked, False)

    def in_any_order(self, answered, asked=b"".join(ASKED)):
        """The judgement of many at once."""
        caller = mock.Mock(heard=[(asked, answered, True)])
        torture_http.Facts(self.exam).judge([caller])

    def replayed(self, status, out, script):
        """The judgement of a replay that was killed or that ended, over no journal before."""
        stop = torture_cases.Stop(after=1) if status else torture_cases.NO_STOP
        done = torture_cases.Run(status, out.encode("ascii"), "")
        after, requests = self.exam.case.read("journal"), text_readers.read_script(script)
        return torture_cases.Judged(self.exam, requests, None, after, done, stop).judge()

    def test_replies_and_entries_of_a_replay(self):
        script = b"begin 70\nclose 0\n"
        first, last = "session 0 step 0 item 2 proved\n", "session 0 closed\n"
        for status, out, asked, count in ((0, first + last, script, 2), (-9, first, script, 1),
                                          (-9, first + last[:9], script, 1),
                                          (-9, first + last, script + b"begin 71\n", 2)):
            self.assertEqual(self.replayed(status, out, asked), count)
        for status, out, asked in ((-9, "", script), (-9, last, script), (-9, first, script[:9]),
                                   (0, first, script), (0, first + last + last, script)):
            with self.subTest(status=status, out=out, asked=asked):
                with self.assertRaises(reply_model.Surprise):
                    self.replayed(status, out, asked)

    def test_what_is_right(self):
        self.in_order(b"".join(ANSWERED))
        self.in_any_order(b"".join(ANSWERED))

    def test_what_is_right_and_wrong_of_a_booking(self):
        """Another booking is refused, and its own is not: whoever claims it otherwise is found, in order and beside other callers."""
        asked = b"".join([begin(70), answer(0, 0, 2, 71), answer(0, 0, 2, 70), close(0, 71), close(0, 70), close(0, 71), answer(0, 0, 1, 71)])
        other, closed = responded("409 Conflict", '{"error":"other-booking"}'), responded("409 Conflict", '{"error":"is-closed","value":"closed"}')
        right = [ANSWERED[0], other, *ANSWERED[1:2], other, ANSWERED[3], other, other]
        for judge in (self.in_order, self.in_any_order):
            judge(b"".join(right), asked)
            for place, wrong in ((1, ANSWERED[1]), (2, other), (3, ANSWERED[3]), (4, other), (5, closed), (6, closed), (6, ANSWERED[2]),
                                 (1, other.replace(b"}", b',"value":0}').replace(b"25", b"35"))):
                with self.subTest(place=place, wrong=wrong, judge=judge.__name__), self.assertRaises(reply_model.Surprise):
                    judge(b"".join(right[:place] + [wrong] + right[place + 1:]), asked)

    def test_what_is_wrong(self):
        whole = b"".join(ANSWERED)
        wrong = [b"".join(ANSWERED[:k] + ANSWERED[k + 1:]) for k in range(len(ANSWERED))]
        wrong += [whole + ANSWERED[-1], ANSWERED[0] + whole,
                  whole.replace(b"201 Created", b"200 OK")]
        changes = [(b'"item":2', b'"item":3'), (b'"value":2', b'"value":3'), (b"[1,1]", b"[2,1]"),
                   (b"closed", b"opened"), (b"true", b"null"), (b'"step":0', b'"step":1'),
                   (b'"busy":2', b'"busy":0'), (b'"entries":3', b'"entries":2'), (b'"open":0', b'"open":1'),
                   (b"67108670", b"67108671"), (b'200 OK\r\nContent-Type: application/json\r\nContent-Length: 47',
                                               b'503 Service Unavailable\r\nContent-Type: application/json\r\nContent-Length: 47')]
        wrong += [whole.replace(*change) for change in changes]
        for answered in wrong:
            for judge in (self.in_order, self.in_any_order):
                if judge == self.in_any_order and answered == whole.replace(b"201 Created", b"200 OK"):
                    continue  # another caller may have begun the session
                with self.subTest(answered, judge=judge.__name__):
                    with self.assertRaises((reply_model.Surprise, LookupError)):
                        judge(answered)


    def test_what_is_right_with_a_token(self):
        """The requests without a token are refused, but for that on the health; then each bears the token."""
        bears = [text.replace(b"Host: exam\r\n", b"Host: exam\r\nAuthorization: Bearer key\r\n") for text in ASKED]
        denied = responded("401 Unauthorized", '{"error":"unauthorized"}')
        health = responded("200 OK", '{"busy":1,"entries":0,"open":0,"room":67108855}')
        asked, answered = ASKED[:6] + bears, [denied] * 5 + [health] + ANSWERED
        self.judged_with(b"key", asked, answered)
        for wrong in ([denied] * 4 + answered[5:], [denied] * 6 + answered[6:], [denied] * 5 + [HEALTH.encode()] + ANSWERED,
                      [denied.replace(b"WWW-Authenticate: Bearer\r\n", b"")] * 5 + answered[5:]):
            with self.assertRaises(reply_model.Surprise):
                self.judged_with(b"key", asked, wrong)

    def judged_with(self, token, asked, answered):
        records, _ = reply_model.records_of(self.exam.case.read("journal"))
        model = reply_model.Model(self.exam.rules, records)
        torture_http.Responses(self.exam, model, b"".join(answered), False, token).judge(b"".join(asked), False)


@needs_program
class Wrong(Folder):
    """A program that is wrong is found, and the case is kept."""

    def tortured(self, fault, kind, cases):
        said, environment = io.StringIO(), {"SHADOWD": PROGRAM, "FAULT": fault}
        with contextlib.redirect_stdout(said), mock.patch.dict(os.environ, environment):
            status = torture.main([FAULTY, "--cases", str(cases), "--kinds", kind, "--keep",
                                   self.path("kept")])
        return status, said.getvalue()

    def test_faults(self):
        for fault, kind in (("item", "stops"), ("twice", "stops"), ("lost", "stops"),
                            ("byte", "stops"), ("shorter", "stops"), ("status", "journals"),
                            ("touch", "journals"), ("mark", "moves"), ("records", "moves"), ("fault", "texts"), ("canonical", "texts"),
                            ("status", "texts")):
            with self.subTest(fault=fault, kind=kind):
                status, said = self.tortured(fault, kind, 8)
                self.assertEqual(status, 1, said)
                self.assertRegex(said, r"again: python3 .* --seed 1 --case \d+ --kinds " + kind)
                self.assertTrue(os.path.exists(self.path("kept/surprise.txt")))


if __name__ == "__main__":
    unittest.main()
