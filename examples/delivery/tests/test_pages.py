"""The application without a browser: who may ask, what counts as an answer, and what a lost reply leaves."""
import contextlib
import csv
import dataclasses
import http.client
import io
import json
import os
import re
import shutil
import socket
import sqlite3
import stat
import subprocess
import sys
import threading
import unittest.mock
import urllib.parse

from common import EXAMPLES, HERE, LIMIT, PROGRAM, Client, Examination, LossyDoor, StandIn, fetch, needs_flask, needs_program

KEY = re.compile(r'<input type="radio" name="option" value="(\d+)" required> <span>([^<]*)</span>')


class WithStandIn(Examination):
    """The application over a stand-in for shadowd."""

    def setUp(self):
        super().setUp()
        self.server = StandIn()
        self.app = self.make_app()

    def make_app(self):
        from delivery import make_app
        return make_app(self.settings(), self.server)

    def begun(self, booking, app=None):
        client = Client(app or self.app)
        client.begin(self.desk().issue(booking))
        self.assertEqual(client.place(), len(self.recorded(booking)) + 1, client.page)
        return client

    def ids_on(self, page):
        """The IDs of items and passages that a page shows."""
        with open(self.settings().map, encoding="utf-8") as file:
            found = json.load(file)
        names = [item["id"] for item in found["items"]] + found["passages"]
        return [name for name in names if re.search(rf"\b{re.escape(name)}\b", page)]

    def recorded(self, booking):
        return self.server.recorded.get(self.server.sessions.get(booking), [])

    def response(self, item, option):
        """The response that an option of an item of `knowledge` is to shadowd, by the key of the attributes."""
        with open(os.path.join(EXAMPLES, "knowledge", "attributes.csv"), encoding="utf-8", newline="") as file:
            return int("ABCD"[option] == list(csv.DictReader(file))[item]["KEY"])


@needs_flask
class Admission(WithStandIn):
    def test_a_code_is_good_for_one_sign_in(self):
        code = self.desk().issue(70)
        self.assertIn("booking 70", Client(self.app).sign_in(code).get_data(as_text=True))
        for spelling in (code, code.lower(), code.replace("-", " ")):
            again = Client(self.app)
            self.assertEqual(again.sign_in(spelling).status_code, 403)
            self.assertIn('role="alert"', again.page)
            self.assertIn("<h1>Sign in</h1>", again.get().get_data(as_text=True))

    def test_a_code_is_read_as_people_write_it(self):
        code = self.desk().issue(70)
        written = " " + code.replace("-", "").lower().replace("0", "o").replace("1", "l") + " "
        self.assertEqual(Client(self.app).sign_in(written).status_code, 200)

    def test_two_at_the_same_moment(self):
        """One code, sixteen sign-ins at once: one is let in."""
        code, statuses = self.desk().issue(70), []
        clients = [Client(self.app) for _ in range(16)]
        for client in clients:
            client.get("/")
        threads = [threading.Thread(target=lambda c: statuses.append(c.post("/", **c.hidden(), code=code).status_code), args=[client])
                   for client in clients]
        for thread in threads:
            thread.start()
        for thread in threads:
            thread.join()
        self.assertEqual(sorted(statuses), [200] + [403] * 15)

    def test_a_newer_code_ends_the_sign_in_before_it(self):
        desk, first = self.desk(), self.begun(70)
        unused, newer = desk.issue(70), desk.issue(70)
        self.assertEqual(Client(self.app).sign_in(unused).status_code, 403)
        second = Client(self.app)
        second.sign_in(newer)
        self.assertEqual(second.place(), 1)
        first.answer(0)
        self.assertIn("a newer code of your booking was used", first.page)
        self.assertEqual(self.recorded(70), [])

    def test_guesses_are_slowed(self):
        guesser, good = Client(self.app), self.desk().issue(70)
        statuses = {guesser.sign_in(f"0000-0000-{number:04}").status_code for number in range(20)}
        self.assertEqual(statuses, {403})
        self.assertEqual(guesser.sign_in("0000-0000-0020").status_code, 429)
        self.assertEqual(guesser.sign_in(good).status_code, 429)

    def test_codes_are_long_and_kept_as_digests(self):
        codes = {self.desk().issue(booking) for booking in range(100)}
        self.assertEqual(len(codes), 100)
        kept = self.bytes_of("store") + self.bytes_of("store-wal")
        for code in codes:
            self.assertRegex(code, r"\A[0-9A-HJKMNP-TV-Z]{4}(-[0-9A-HJKMNP-TV-Z]{4}){2}\Z")
            self.assertNotIn(code.replace("-", "").encode(), kept)
            self.assertNotIn(code.encode(), kept)

    def test_after_the_sign_out_a_copy_of_the_cookie_is_void(self):
        client = self.begun(70)
        cookie = client.client.get_cookie("delivery").value if hasattr(client.client, "get_cookie") else \
            next(one.value for one in client.client.cookie_jar if one.name == "delivery")
        client.post("/sign-out", **client.hidden())
        self.assertIn("You are signed out.", client.page)
        self.assertEqual(self.with_cookie(cookie).status_code, 303)

    def with_cookie(self, value):
        return self.app.test_client(use_cookies=False).get("/test", headers={"Cookie": f"delivery={value}"})


@needs_flask
class Forgery(WithStandIn):
    def cookie(self, fields, key="s" * 32):
        """A cookie of these fields, signed with a key as Flask does it."""
        from flask import Flask
        from flask.sessions import SecureCookieSessionInterface
        app = Flask("forger")
        app.secret_key = key
        return SecureCookieSessionInterface().get_signing_serializer(app).dumps(fields)

    def status(self, cookie):
        return self.app.test_client(use_cookies=False).get("/test", headers={"Cookie": f"delivery={cookie}"}).status_code

    def test_cookies(self):
        self.begun(70)
        seat, asked = self.desk().seat(70)[0], self.server.asked
        good = self.cookie({"booking": 70, "seat": seat})
        self.assertEqual(self.status(good), 200)
        asked = self.server.asked
        body, _, rest = good.partition(".")
        other = self.cookie({"booking": 71, "seat": seat}, "a guessed key")
        for cookie in (other, good[:-4] + ("A" if good[-4] != "A" else "B") + good[-3:], body[:-2] + "AA." + rest, other.partition(".")[0] + "." + rest,
                       body, "", ".", "a.b.c", "{}", self.cookie({"booking": 71, "seat": seat}),
                       self.cookie({"booking": 71, "seat": ""}), self.cookie({"seat": seat}), self.cookie({"booking": 70})):
            with self.subTest(cookie):
                self.assertEqual(self.status(cookie), 303)
        self.assertEqual(self.server.asked, asked)

    def test_forms_without_the_token_of_their_page(self):
        client, other = self.begun(70), self.begun(71)
        for token in ("", "x", other.hidden()["csrf_token"]):
            for path in ("/test", "/begin", "/sign-out"):
                reply = client.client.post(path, data={"csrf_token": token, "step": "0", "option": "0"})
                self.assertEqual((reply.status_code, path), (400, path))
        client.get()
        self.assertEqual((client.place(), self.recorded(70)), (1, []))
        self.assertEqual(Client(self.app).post("/", code=self.desk().issue(72)).status_code, 400)

    def test_a_page_of_who_had_the_browser_before(self):
        """Two examinees, one browser: the page that the first one left open answers for nobody."""
        client = self.begun(70)
        left_open = client.hidden()
        client.begin(self.desk().issue(71))
        self.assertEqual(client.post("/test", **left_open, option=0).status_code, 400)
        self.assertEqual((self.recorded(70), self.recorded(71)), ([], []))
        self.assertEqual(self.desk().given(71, False), [])

    def scripts_of(self, page):
        """What a page has of scripts, but for elements that name a file of the application."""
        return [one for one in re.findall(r"(?is)<script.*?</script>| on\w+\s*=|javascript:", page)
                if not re.fullmatch(r'<script src="/static/\w+\.js" defer></script>', one)]

    def test_headers(self):
        client = self.begun(70)
        for path, status in (("/", 200), ("/test", 200), ("/nowhere", 404), ("/begin", 405), ("/static/delivery.css", 200),
                             ("/static/../settings.py", 404), ("/static/%2e%2e/delivery.py", 404)):
            with self.subTest(path):
                reply = client.client.get(path)
                self.assertEqual(reply.status_code, status)
                self.assertEqual(reply.headers["X-Frame-Options"], "DENY")
                self.assertEqual(reply.headers["X-Content-Type-Options"], "nosniff")
                self.assertEqual("no-store" in reply.headers["Cache-Control"], (path, status) != ("/static/delivery.css", 200), reply.headers)
                policy = reply.headers["Content-Security-Policy"]
                self.assertIn("default-src 'none'", policy)
                self.assertIn("frame-ancestors 'none'", policy)
                self.assertRegex(policy, r"; script-src 'self'; ")
                self.assertNotIn("unsafe", policy)
                self.assertEqual(self.scripts_of(reply.get_data(as_text=True)), [])
        self.assertEqual(Client(self.app).post("/", code="x" * 5000).status_code, 413)

    def test_the_cookie_is_out_of_reach(self):
        cookie = Client(self.app).get("/").headers["Set-Cookie"]
        self.assertIn("HttpOnly", cookie)
        self.assertIn("SameSite=Lax", cookie)
        self.change_settings(secure_cookies="")
        cookie = Client(self.make_app()).client.get("/", base_url="https://exam.example.org").headers["Set-Cookie"]
        self.assertTrue(cookie.startswith("__Host-delivery="), cookie)
        self.assertIn("Secure", cookie)


@needs_flask
class Answers(WithStandIn):
    def test_the_responses_are_those_of_the_key(self):
        client = self.begun(70)
        chosen = [item % 4 for item in range(20)]
        for item, option in enumerate(chosen):
            self.assertEqual(client.place(), item + 1)
            client.answer(option)
        self.assertIn("Your test is complete", client.page)
        self.assertNotIn("score", client.page)
        self.assertEqual(self.recorded(70), [self.response(item, option) for item, option in enumerate(chosen)])
        self.assertEqual([(one.step, one.item, one.response) for one in self.desk().given(70, True)],
                         list(zip(range(20), range(20), self.recorded(70))))

    def test_a_page_does_not_show_the_key(self):
        """The page of an item is the same whichever option is right."""
        shutil.copytree(os.path.join(HERE, "texts", "knowledge"), self.path("texts"))
        pages = []
        for responses in ("[1, 0, 0, 0]", "[0, 0, 1, 0]"):
            self.write("texts/V1.toml", re.sub(r"responses = .*", f"responses = {responses}", self.read("texts/V1.toml")))
            self.change_settings(texts='"texts"')
            client = self.begun(70, self.make_app())
            pages.append(re.sub(r'name="csrf_token" value="[^"]*"', "", client.page))
        self.assertEqual(pages[0], pages[1])
        self.assertEqual([value for value, _ in KEY.findall(pages[0])], ["0", "1", "2", "3"])

    def test_pages_have_no_id(self):
        client = self.begun(70)
        for step in range(20):
            self.assertEqual((client.place(), self.ids_on(client.page)), (step + 1, []))
            client.answer(0)

    def test_what_is_no_answer(self):
        client = self.begun(70)
        token = client.hidden()["csrf_token"]
        for fields in ({}, {"step": "0"}, {"option": "0"}, {"step": "0", "option": ""}, {"step": "0", "option": "4"},
                       {"step": "0", "option": "-1"}, {"step": "0", "option": "1.0"}, {"step": "0", "option": "٠"},
                       {"step": "0", "option": "9" * 400}, {"step": "1", "option": "0"}, {"step": "-1", "option": "0"},
                       {"step": "99999999999999999999", "option": "0"}, {"step": "0 OR 1=1", "option": "0"}):
            with self.subTest(fields):
                client.post("/test", csrf_token=token, **fields)
                self.assertEqual((client.reply.status_code, client.place(), self.recorded(70)), (200, 1, []))
        client.answer(9)
        self.assertIn("Choose one of the answers", client.page)
        self.assertIn("<title>Error: Item 1 of 20", client.page)

    def test_the_first_answer_counts(self):
        client = self.begun(70)
        page = client.hidden()
        client.post("/test", **page, option=0)
        client.post("/test", **page, option=0)
        self.assertNotIn('class="notice"', client.page)
        client.post("/test", **page, option=1)
        self.assertIn("Item 1 was answered before, and the first answer counts.", client.page)
        self.assertEqual((client.place(), self.recorded(70)), (2, [self.response(0, 0)]))

    def test_no_session_of_another_examinee(self):
        """Fields that name another booking or session change nothing."""
        first, second = self.begun(70), self.begun(71)
        first.post("/test", **first.hidden(), option=0, booking=71, session=1, seat=self.desk().seat(71)[0])
        self.assertEqual((first.place(), second.get() and second.place()), (2, 1))
        self.assertEqual((len(self.recorded(70)), self.recorded(71)), (1, []))

    def test_replies_that_are_lost(self):
        for fault in ("before", "after"):
            with self.subTest(fault):
                booking = {"before": 70, "after": 71}[fault]
                client = self.begun(booking)
                self.server.lost = [fault, "before"]
                self.assertEqual(client.answer(2).status_code, 503)
                self.assertIn("Your answer to item 1 is kept.", client.page)
                self.assertIn('http-equiv="refresh"', client.page)
                self.assertEqual(client.get("/test?renew=no").status_code, 503)
                self.assertNotIn("refresh", client.page)
                client.get()
                self.assertEqual((client.place(), self.recorded(booking)), (2, [self.response(0, 2)]))

    def test_another_option_while_the_reply_is_lost(self):
        client = self.begun(70)
        page = client.hidden()
        self.server.lost = ["after", "before"]
        client.post("/test", **page, option=0)
        self.assertEqual(client.post("/test", **page, option=1).status_code, 503)
        client.get()
        self.assertEqual((client.place(), self.recorded(70)), (2, [self.response(0, 0)]))

    def test_an_application_that_ends_with_an_answer_on_its_way(self):
        client = self.begun(70)
        self.server.lost = ["before"]
        client.answer(0)
        self.assertEqual([(one.step, one.item) for one in self.desk().given(70, False)], [(0, 0)])
        self.assertEqual(self.begun_again(70).place(), 2)
        self.assertEqual(self.recorded(70), [self.response(0, 0)])

    def begun_again(self, booking):
        """A browser at a new application over the same file."""
        client = Client(self.make_app())
        client.sign_in(self.desk().issue(booking))
        return client

    def test_an_answer_that_somebody_else_gave(self):
        client = self.begun(70)
        self.server.recorded[0].append(1 - self.response(0, 0))
        client.answer(0)
        self.assertEqual(client.place(), 2)
        self.assertEqual([one.response for one in self.desk().given(70, True)], [1 - self.response(0, 0)])

    def test_a_server_that_took_over_and_gave_the_session_to_another_booking(self):
        """The answer is nobody else's: the booking begins again, and its examinee answers the item once more."""
        client = self.begun(70)
        self.server.lost = ["taken over"]
        client.answer(0)
        self.assertEqual((self.server.sessions, self.server.recorded), ({901: 0, 902: 1, 70: 2}, {0: [], 1: [], 2: []}))
        self.assertEqual((client.place(), self.desk().given(70, False), self.desk().given(70, True)), (1, [], []))
        client.answer(0)
        self.assertEqual((client.place(), self.recorded(70)), (2, [self.response(0, 0)]))

    def test_a_session_that_the_staff_closed(self):
        client = self.begun(70)
        client.answer(0)
        self.server.closed.add(0)
        client.answer(0)
        self.assertIn("Your test was ended by the staff", client.page)
        self.assertIn("1 of 20", client.page)
        self.assertEqual(self.desk().given(70, False), [])

    def test_a_file_of_the_application_that_cannot_be_written(self):
        client = self.begun(70)
        page = client.hidden()
        with unittest.mock.patch("booking_desk.Desk.give", side_effect=sqlite3.OperationalError("disk I/O error")):
            self.assertEqual(client.post("/test", **page, option=0).status_code, 503)
        self.assertIn("If you gave an answer, it is perhaps not kept.", client.page)
        client.get()
        self.assertEqual((client.place(), self.recorded(70)), (1, []))

    def test_a_journal_of_an_older_moment(self):
        """A step whose answer was acknowledged before is asked again, and the new answer counts."""
        client = self.begun(70)
        for option in (0, 1, 2):
            client.answer(option)
        del self.server.recorded[0][1:]
        client.get()
        self.assertEqual(client.place(), 2)
        client.answer(0)
        self.assertEqual((client.place(), self.recorded(70)), (3, [self.response(0, 0), self.response(1, 0)]))


@needs_flask
class Times(WithStandIn):
    """A limit of 30 minutes. A test moves the end, in place of waiting for it."""

    def setUp(self):
        super().setUp()
        self.change_settings(minutes="30")
        self.app = self.make_app()

    def look(self, app=None):
        """What the application does by itself, each five seconds."""
        (app or self.app).extensions["background"]["ending"][0]()

    def left(self, booking):
        desk = self.desk()
        return desk.clock(booking).left(desk.now())

    def test_the_limit_is_said_and_begins_with_the_test(self):
        client = Client(self.app)
        self.desk().extend(70, 450)
        client.sign_in(self.desk().issue(70))
        self.assertIn("You have 37.5 minutes for all of it.", client.page)
        self.assertIsNone(self.left(70))
        client.post("/begin", **client.hidden())
        self.assertAlmostEqual(self.left(70), 30 * 60 + 450, delta=20)
        before = self.desk().clock(70)
        client.get()
        client.client.post("/begin", data=client.hidden())
        self.assertEqual(self.desk().clock(70), before)
        self.assertRegex(client.page, r'data-left="22\d\d\.\d"')

    def test_no_limit(self):
        self.change_settings(minutes="")
        client = self.begun(71, self.make_app())
        self.assertNotIn("data-left", client.page)
        self.assertNotIn("Time left", client.page)
        self.assertEqual(client.client.get("/clock").get_json(), {"state": "running", "left": None})

    def test_the_end_of_the_time(self):
        """Within the grace an answer counts; after it none does. The session is closed, and the last page has why."""
        for late, answers in ((1, 2), (7, 1)):
            with self.subTest(late):
                booking = 70 + late
                client = self.begun(booking)
                client.answer(0)
                self.desk().extend(booking, -self.left(booking) - late)
                client.answer(1)
                self.assertIn("<h1>Your time is over</h1>", client.page)
                self.assertIn(f"Your answers up to then are recorded: {answers} of 20.", client.page)
                self.assertEqual("The time was over before that answer came." in client.page, late == 7)
                self.assertEqual(len(self.recorded(booking)), answers)
                self.assertIn(self.server.sessions[booking], self.server.closed)
                self.assertEqual(self.desk().ending(booking), ("time", "closed"))

    def test_an_examinee_who_never_asks_again(self):
        for booking in (70, 71, 72):
            self.begun(booking)
        desk = self.desk()
        desk.extend(70, -self.left(70) - 6)
        desk.extend(71, -self.left(71) - 1)
        self.look()
        self.assertEqual([self.server.sessions[booking] in self.server.closed for booking in (70, 71, 72)], [True, False, False])

    def test_an_end_whose_request_or_reply_is_lost(self):
        """The reason is noted before shadowd is asked; so another application that goes on knows it."""
        for fault in ("before", "after"):
            with self.subTest(fault):
                booking = {"before": 70, "after": 71}[fault]
                self.begun(booking)
                self.desk().extend(booking, -self.left(booking) - 6)
                self.server.lost = [fault]
                self.look()
                self.assertEqual(self.desk().ending(booking), ("time", None))
                self.assertEqual(self.server.sessions[booking] in self.server.closed, fault == "after")
                again = self.make_app()
                self.look(again)
                self.assertEqual(self.desk().ending(booking), ("time", "closed"))
                self.assertIn(self.server.sessions[booking], self.server.closed)

    def test_an_answer_on_its_way_goes_before_the_close(self):
        client = self.begun(70)
        self.server.lost = ["before"]
        client.answer(2)
        self.desk().extend(70, -self.left(70) - 6)
        self.look()
        self.assertEqual((self.recorded(70), self.server.closed), ([self.response(0, 2)], {0}))

    def test_a_pause(self):
        """The time stands still; an answer to the item that was seen counts; after the pause the next item comes."""
        client = self.begun(70)
        desk, page = self.desk(), client.hidden()
        desk.extend(70, 300 - self.left(70))
        desk.now = lambda: 1000 + desk_time[0]
        desk_time = [desk.clock(70).ends_at - 1300]  # 300 seconds are left
        desk.pause(70)
        desk_time[0] += 9000
        desk.pause(70)
        self.assertAlmostEqual(self.left(70), 300, delta=0.1)
        self.look()
        client.get()
        self.assertIn("<h1>Your test is paused</h1>", client.page)
        self.assertIn("You have 5 minutes left.", client.page)
        self.assertIsNone(client.place())
        self.assertEqual(client.client.get("/clock").get_json()["state"], "paused")
        client.post("/test", **page, option=1)
        self.assertIn("<h1>Your test is paused</h1>", client.page)
        self.assertEqual(self.recorded(70), [self.response(0, 1)])
        desk.resume(70)
        self.assertAlmostEqual(desk.clock(70).left(desk.now()), 300, delta=0.1)
        desk.extend(70, 9300)  # for the clock of the application, which did not jump
        client.get()
        self.assertEqual((client.place(), self.desk().clock(70).paused_at), (2, None))

    def test_an_end_by_the_staff_that_is_not_acknowledged(self):
        """No item is shown any more, and no answer is taken."""
        client = self.begun(70)
        page = client.hidden()
        self.desk().ask_to_end(70, "staff")
        client.post("/test", **page, option=1)
        self.assertIn("Your test was ended by the staff", client.page)
        self.assertIn("The test had ended before that answer came.", client.page)
        self.assertEqual((self.recorded(70), self.server.closed), ([], {0}))

    def test_a_test_that_was_complete_before_its_time(self):
        client = self.begun(70)
        for _ in range(20):
            client.answer(0)
        self.desk().extend(70, -self.left(70) - 6)
        self.look()
        client.get()
        self.assertIn("Your test is complete", client.page)
        self.assertEqual((self.desk().ending(70), self.server.closed), (("answered", "complete"), set()))

    def test_a_journal_that_has_another_item_at_the_step(self):
        """The answer is not recorded for the other item, which is shown in its place."""
        client, place = self.begun(70), self.server.place
        client.answer(0)
        self.server.place = lambda session: place(session)._replace(item=9) if len(self.recorded(70)) == 1 else place(session)
        client.answer(1)
        self.assertEqual((client.place(), self.recorded(70)), (2, [self.response(0, 0)]))
        self.assertEqual(self.desk().shown(70, 1), (9, None))
        client.answer(1)
        self.assertEqual(self.recorded(70), [self.response(0, 0), self.response(9, 1)])

    def test_an_answer_that_another_process_sends_meanwhile(self):
        """A place that was asked for before the answer was acknowledged takes nothing back."""
        self.begun(70)
        desk = self.desk()
        asked_at = desk.moment()
        desk.give(70, 0, 1, 0)
        desk.settle(70, 0, 0)
        desk.show(70, 0, 0, asked_at)
        self.assertEqual([one.step for one in desk.given(70, True)], [0])


@needs_flask
class Languages(WithStandIn):
    def test_both_files_have_the_same_sentences(self):
        from words import Words, facts_of
        english, german = Words("en").table, Words("de").table
        self.assertEqual(list(english), list(german))
        self.assertEqual({name: facts_of(text) for name, text in english.items()}, {name: facts_of(text) for name, text in german.items()})

    def test_pages_have_no_words_of_their_own(self):
        """What is left of a template of examinees without its expressions and its elements."""
        folder = os.path.join(HERE, "templates")
        for name in sorted(set(os.listdir(folder)) - {"staff"}):
            with open(os.path.join(folder, name), encoding="utf-8") as file:
                left = re.sub(r"(?s){%.*?%}|{{.*?}}|<[^>]*>", "", file.read())
            self.assertEqual(re.findall(r"\w+", left), [], name)

    def test_a_test_in_german(self):
        self.change_settings(language='"de"', minutes="30")
        client = Client(self.make_app())
        client.begin(self.desk().issue(70))
        self.assertIn('<html lang="de"', client.page)
        self.assertIn("<h1>Aufgabe 1 von 20</h1>", client.page)
        for _ in range(20):
            client.answer(0)
        self.assertIn("Ihr Test ist vollständig", client.page)
        self.assertIn("Diese Seite gibt es nicht", client.get("/nowhere").get_data(as_text=True))
        self.assertIn("<h1>Es gibt keine Verbindung zum Netz</h1>", client.get("/no-network").get_data(as_text=True))


@needs_flask
class TheWorker(WithStandIn):
    def test_what_it_keeps(self):
        """Its page, a style and a script: the files that it names are there, and are the same for each examinee."""
        client = self.begun(70)
        source = client.get("/worker.js").get_data(as_text=True)
        self.assertEqual((client.reply.mimetype, client.reply.headers["Cache-Control"]), ("text/javascript", "no-cache"))
        kept = re.findall(r'"(/[^"]*)"', source.partition("KEPT = [")[2].partition("]")[0])
        self.assertEqual(kept, ["/no-network", "/static/delivery.css", "/static/no_network.js"])
        for path in kept:
            own, strangers = client.get(path).get_data(), Client(self.app).get(path).get_data()
            self.assertEqual((client.reply.status_code, own), (200, strangers))
        client.post("/contrast", **client.get() and client.hidden())
        self.assertEqual(client.get("/worker.js").get_data(as_text=True), source)

    def test_it_is_another_one_when_its_page_is(self):
        source = Client(self.app).get("/worker.js").get_data(as_text=True)
        self.change_settings(language='"de"')
        self.assertNotEqual(Client(self.make_app()).get("/worker.js").get_data(as_text=True), source)

    def test_a_message_is_not_lost_to_it(self):
        client = self.begun(70)
        page = client.hidden()
        client.answer(0)
        client.client.post("/test", data={**page, "option": 1})
        client.client.get("/no-network")
        client.client.get("/worker.js")
        client.get()
        self.assertIn("Item 1 was answered before", client.page)


@needs_flask
class HighContrast(WithStandIn):
    def test_it_is_chosen_and_taken_back(self):
        client = Client(self.app)
        client.sign_in(self.desk().issue(70))
        self.assertNotIn('class="contrast"', client.page)
        client.post("/contrast", **client.hidden())
        self.assertIn('<html lang="en" class="contrast">', client.page)
        client.post("/begin", **client.hidden())
        self.assertIn('<html lang="en" class="contrast">', client.page)
        client.post("/contrast", **client.hidden())
        self.assertEqual(('class="contrast"' in client.page, client.place()), (False, 1))


@needs_flask
class Retakers(WithStandIn):
    """A booking whose test leaves out what earlier bookings of the person were shown."""

    def issue(self, *words):
        """Status and output of the command that issues codes."""
        import booking_desk
        said, errors = io.StringIO(), io.StringIO()
        with contextlib.redirect_stdout(said), contextlib.redirect_stderr(errors):
            status = booking_desk.main([self.settings_path, *words])
        return status, said.getvalue() or errors.getvalue()

    def test_the_list_goes_with_each_request_that_begins(self):
        """Three answers: four items were shown. The stand-in has the items in order."""
        client = self.begun(70)
        for _ in range(3):
            client.answer(0)
        status, said = self.issue("80", "without", "70")
        self.assertEqual(status, 0)
        Client(self.app).begin(said.split()[1])
        self.assertEqual(self.server.lists[self.server.sessions[80]], [0, 1, 2, 3])
        self.assertEqual(self.server.lists[self.server.sessions[70]], [])
        Client(self.make_app()).begin(self.desk().issue(80))
        self.assertEqual(self.desk().withheld(80), [0, 1, 2, 3])

    def test_words_that_are_none(self):
        self.assertEqual(self.issue("80", "without", "71"), (1, "80: the bookings 71 were shown no item\n"))
        for words in (["80", "without"], ["without", "70"], ["80", "without", "x"], ["80", "without", "70", "without", "71"]):
            with self.subTest(words):
                self.assertEqual(self.issue(*words)[0], 2)


@needs_flask
class Texts(WithStandIn):
    BAD = '<script>alert(1)</script> "quoted" & <img src=x onerror=alert(1)>'

    def own_texts(self):
        shutil.copytree(os.path.join(HERE, "texts", self.example), self.path("texts"))
        self.change_settings(texts='"texts"')

    def test_markup_is_shown_as_text(self):
        self.own_texts()
        self.write("texts/V1.toml", f"text = '''{self.BAD}'''\noptions = ['''{self.BAD}''', 'b']\nresponses = [0, 1]\n")
        page = self.begun(70, self.make_app()).page
        self.assertEqual(re.findall("<script[^>]*>", page), ['<script src="/static/pages.js" defer>'])
        self.assertNotIn("<img", page)
        self.assertEqual(page.count("&lt;script&gt;alert(1)&lt;/script&gt;"), 2)
        self.assertIn("A &lt;b&gt;test&lt;/b&gt;", page)
        self.assertNotIn("<script>", Client(self.app).get("/nowhere/<script>").get_data(as_text=True))

    def test_files_that_are_refused(self):
        from item_texts import read_item
        from settings import BadInput
        good = {"text": '"a"', "options": '["a", "b"]', "responses": "[0, 1]"}
        for name, fields in (("no TOML", {"text": "a"}), ("empty text", {"text": '" "'}), ("a number", {"text": "7"}),
                             ("options", {"options": '"ab"'}), ("one option", {"options": '["a"]', "responses": "[0]"}),
                             ("an empty option", {"options": '["a", ""]'}), ("too few", {"responses": "[0]"}),
                             ("a third category", {"responses": "[0, 2]"}), ("one category", {"responses": "[1, 1]"}),
                             ("no number", {"responses": "[0, true]"}), ("a fraction", {"responses": "[0, 1.0]"}), ("pictures", {"pictures": "'a.png'"})):
            with self.subTest(name):
                shutil.rmtree(self.path("texts"), ignore_errors=True)
                self.own_texts()
                self.write("texts/V1.toml", "".join(f"{key} = {value}\n" for key, value in (good | fields).items()))
                with self.assertRaisesRegex(BadInput, "V1"):
                    read_item(self.path("texts"), "V1", 2, None)

    def test_a_file_that_is_refused_at_the_start(self):
        from settings import BadInput
        self.own_texts()
        self.write("texts/V1.toml", "text = 7")
        with self.assertRaisesRegex(BadInput, "V1"):
            self.make_app()

    FORMULA = '<math alttext="x squared"><msup><mi>x</mi><mn>2</mn></msup><mo>&lt;</mo><mfrac><mn>1</mn><mi>n</mi></mfrac></math>'

    def test_formulas(self):
        self.own_texts()
        self.write("texts/V1.toml", f"text = '''Is {self.FORMULA} <b>so</b>?'''\noptions = ['''{self.FORMULA}''', 'x < 2']\nresponses = [0, 1]\n")
        page = self.begun(70, self.make_app()).page
        self.assertEqual(page.count(self.FORMULA), 2)
        self.assertIn(f"<p>Is {self.FORMULA} &lt;b&gt;so&lt;/b&gt;?</p>", page)
        self.assertIn("<span>x &lt; 2</span>", page)

    def test_formulas_that_are_refused(self):
        from item_texts import read_item
        from settings import BadInput
        self.own_texts()
        for inside in ("<script>alert(1)</script>", "<mi onclick='x'>x</mi>", "<mi style='color:red'>x</mi>", "<mtext><img src='x'/></mtext>", "<mi>x",
                       "<annotation-xml encoding='text/html'><b/></annotation-xml>", "<mi href='javascript:x'>x</mi>", "<mspace width='&quot;>'/>", "<maction>x</maction>"):
            with self.subTest(inside):
                self.write("texts/V1.toml", f"text = '''<math>{inside}</math>'''\noptions = ['a', 'b']\nresponses = [0, 1]\n")
                with self.assertRaisesRegex(BadInput, "V1: a formula "):
                    read_item(self.path("texts"), "V1", 2, None)

    def test_pictures(self):
        """Each has its text, is had by who was shown the item alone, and is kept in no cache."""
        self.own_texts()
        with open(self.path("texts/one.png"), "wb") as file:
            file.write(b"\x89PNG and so on")
        self.write("texts/two.svg", "<svg/>")
        self.write("texts/V1.toml", self.read("texts/V1.toml") + "pictures = [{ file = 'one.png', text = 'A \"map\"' }, { file = 'two.svg', text = 'b' }]\n")
        self.write("texts/V2.toml", self.read("texts/V2.toml") + "pictures = [{ file = 'two.svg', text = 'of an item that was not shown' }]\n")
        client = self.begun(70, self.make_app())
        found = re.findall(r'<img src="([^"]*)" alt="([^"]*)">', client.page)
        self.assertEqual(found, [("/picture/0/0", "A &#34;map&#34;"), ("/picture/0/1", "b")])
        for path, status, kind in (("/picture/0/0", 200, "image/png"), ("/picture/0/1", 200, "image/svg+xml"), ("/picture/0/2", 404, "text/html"),
                                   ("/picture/1/0", 404, "text/html"), ("/picture/0/-1", 404, "text/html"), ("/picture/99999999999999999999/0", 404, "text/html")):
            with self.subTest(path):
                reply = client.client.get(path)
                self.assertEqual((reply.status_code, reply.mimetype, reply.headers["Cache-Control"]), (status, kind, "no-store"))
        self.assertEqual(client.client.get("/picture/0/0").get_data(), b"\x89PNG and so on")
        self.assertEqual(Client(self.app).client.get("/picture/0/0").status_code, 303)

    def test_pictures_that_are_refused(self):
        from item_texts import read_item
        from settings import BadInput
        self.own_texts()
        self.write("texts/one.png", "PNG")
        self.write("texts/none.png", "")
        self.write("one.png", "PNG")
        good = self.read("texts/V1.toml")
        for entry in ("{ file = 'one.png' }", "{ file = 'one.png', text = ' ' }", "{ file = 'one.png', text = 'a', alt = 'b' }", "'one.png'", "{ file = 'two.png', text = 'a' }",
                      "{ file = '../one.png', text = 'a' }", "{ file = 'V2.toml', text = 'a' }", "{ file = 'none.png', text = 'a' }", "{ file = 7, text = 'a' }"):
            with self.subTest(entry):
                self.write("texts/V1.toml", f"{good}pictures = [{entry}]\n")
                with self.assertRaises(BadInput) as caught:
                    read_item(self.path("texts"), "V1", 2, None)
                self.assertIn("one.png" if "../" in entry else "V1: ", str(caught.exception))

    def test_names_that_lead_elsewhere(self):
        from item_texts import load
        from settings import BadInput
        os.mkdir(self.path("folder"))
        self.write("secret.toml", "text = 'x'")
        self.write("folder/inside.toml", "text = 'x'")
        self.assertEqual(load(self.path("folder"), "inside"), {"text": "x"})
        for name in ("../secret", "..", ".", "", "/etc/passwd", "a/../../secret", "..\\secret", "inside\0", "inside\n", self.path("secret"),
                     ".hidden", "x" * 101):
            with self.subTest(name), self.assertRaises(BadInput):
                load(self.path("folder"), name)

    def test_texts_of_the_examples_are_as_the_maker_has_them(self):
        subprocess.run([sys.executable, os.path.join(HERE, "make_texts.py"), self.path("made")], check=True)
        for folder, _, names in os.walk(self.path("made")):
            for name in names:
                made = os.path.join(folder, name)
                kept = os.path.join(HERE, "texts", os.path.relpath(made, self.path("made")))
                self.assertEqual(self.bytes_of(made), self.bytes_of(kept), name)

    def test_wrong_settings(self):
        import control_room
        import delivery
        import web
        for words in ([], ["a", "b"], [self.path("none")], [self.write("bad", "title = 7 7")], [self.write("few", "title = 'x'")]):
            for make_app in (delivery.make_app, control_room.make_app):
                with contextlib.redirect_stderr(io.StringIO()) as said:
                    self.assertEqual(web.run(make_app, "listen", words), 1 if len(words) == 1 else 2)
                self.assertEqual(said.getvalue().count("\n"), 1, said.getvalue())


@needs_flask
class WrongSettings(WithStandIn):
    """Each setting has a kind. What is not of it is refused with the line of the file, before a port is opened."""

    def refusal(self, **changed):
        from settings import BadInput
        self.change_settings(**changed)
        with self.assertRaises(BadInput) as caught:
            self.settings()
        self.change_settings(**dict.fromkeys(changed, ""))
        return str(caught.exception)

    def test_values_of_another_kind(self):
        """The settings of the test have 15 lines that stay; the one that is tried is the 16th."""
        lines = len(self.read("settings.toml").splitlines())
        for name, values in {
                "show_score": ('"no"', '"false"', "0", "1"), "secure_cookies": ('"false"', "[]"), "connections": ("true", "0", "1.0", '"12"', "251"),
                "patience": ("true", '"5"', "0", "nan", "inf", "601"), "scale": ('["500", "100"]', "[500]", "[500, 0]", "[true, 1]", "500", "[0, inf]"),
                "title": ("7", '" "', '""'), "listen": ("8080", '"8080"', '":8080"', '"127.0.0.1:0"', '"127.0.0.1:65536"', '"127.0.0.1:x"', '"127.0.0.1:08"'),
                "bank": ("7", "[]"), "estimate": ('"wle"', "7", "[]"), "proxy": ("true",)}.items():
            kept = [line for line in self.read("settings.toml").splitlines(True) if line.partition(" = ")[0] == name]
            for value in values:
                with self.subTest(name=name, value=value):
                    said = self.refusal(**{name: value})
                    self.assertIn(f"settings.toml line {lines - len(kept) + 1}: {name} has to be ", said)
                    self.write("settings.toml", self.read("settings.toml") + "".join(kept))

    def test_names_that_are_none(self):
        self.assertIn("show_scores is no setting", self.refusal(show_scores="true"))
        self.assertIn("settings.toml: missing texts", self.refusal(texts=""))

    def test_kinds_that_are_taken(self):
        self.change_settings(scale="[500, 100]", patience="7", proxy='""', show_score="true", estimate='"mode"')
        found = self.settings()
        self.assertEqual((found.scale, found.patience, found.proxy, found.show_score, found.estimate), ((500.0, 100.0), 7.0, "", True, "mode"))

    def test_a_port_that_is_busy(self):
        import delivery
        import web
        with socket.create_server(("127.0.0.1", self.ports["listen"])), contextlib.redirect_stderr(io.StringIO()) as said:
            self.assertEqual(web.run(delivery.make_app, "listen", [self.settings_path]), 1)
        self.assertRegex(said.getvalue(), rf"\A127\.0\.0\.1:{self.ports['listen']} can't be listened at: .*in use\n\Z")


@needs_flask
class Passages(WithStandIn):
    example = "aggression"

    def test_a_passage_is_beside_its_items(self):
        client = self.begun(70)
        for _ in range(6):
            self.assertIn('<h2 id="passage">The lift</h2>', client.page)
            self.assertIn("You stand in a lift", client.page)
            self.assertEqual(self.ids_on(client.page), [])
            client.answer(1)
        self.assertIn('<h2 id="passage">The library</h2>', client.page)
        self.assertNotIn("The lift", client.page)
        self.assertEqual(self.recorded(70), [1] * 6)


@needs_flask
class AsProcess(Examination):
    """The application as its own process, with the server that it runs under."""

    def sign_ins(self, addresses):
        """The statuses of sign-ins with a wrong code, each with an address that the client claims to have."""
        statuses = []
        for address in addresses:
            connection = http.client.HTTPConnection("127.0.0.1", self.ports["listen"], timeout=LIMIT)
            connection.request("GET", "/", headers={"X-Forwarded-For": address})
            reply = connection.getresponse()
            token = re.search(r'name="csrf_token" value="([^"]*)"', reply.read().decode()).group(1)
            connection.request("POST", "/", urllib.parse.urlencode({"csrf_token": token, "code": "0000-0000-0000"}),
                               {"X-Forwarded-For": address, "Cookie": reply.headers["Set-Cookie"].partition(";")[0],
                                "Content-Type": "application/x-www-form-urlencoded"})
            statuses.append(connection.getresponse().status)
            connection.close()
        return statuses

    def test_an_address_that_a_client_claims_is_not_believed(self):
        self.start_pages()
        self.assertEqual(self.sign_ins(f"192.0.2.{number}" for number in range(21)), [403] * 20 + [429])

    def test_the_address_that_a_proxy_names_is_believed(self):
        self.change_settings(proxy='"127.0.0.1"')
        self.start_pages()
        self.assertEqual(self.sign_ins(["192.0.2.1"] * 21 + ["192.0.2.2"]), [403] * 20 + [429, 403])

    def test_connections_that_do_nothing(self):
        self.start_pages()
        idle = [socket.create_connection(("127.0.0.1", self.ports["listen"]), LIMIT) for _ in range(300)]
        for one in idle:
            self.addCleanup(one.close)
            one.sendall(b"GET / HT")
        self.assertEqual(fetch(self.ports["listen"], "/")[0], 200)
        self.assertEqual(stat.S_IMODE(os.stat(self.path("store")).st_mode), 0o600)


@needs_flask
@needs_program
class WithProgram(Examination):
    """The application over shadowd itself."""

    def app(self):
        from delivery import make_app
        return make_app(self.settings())

    def test_a_reply_that_is_lost_is_asked_for_again(self):
        self.start_server()
        door = LossyDoor(self.ports["server"])
        threading.Thread(target=door.run, daemon=True).start()
        self.addCleanup(door.listener.close)
        self.change_settings(server=f'"{door.address()}"')
        client = Client(self.app())
        client.begin(self.desk().issue(70))
        door.lose = 2
        client.answer(0)
        self.assertEqual((client.place(), door.lose), (2, 0))
        door.lose = 3
        self.assertEqual(client.answer(1).status_code, 503)
        self.assertIn("Your answer to item 2 is kept.", client.page)
        client.get()
        self.assertEqual((client.place(), door.lose), (3, 0))
        self.assertEqual(self.journal_sessions()[0].responses, [one.response for one in self.desk().given(70, True)])

    def test_the_score_is_that_of_the_tools(self):
        self.change_settings(show_score="true", scale="[500, 100]")
        server = self.start_server()
        client = Client(self.app())
        client.begin(self.desk().issue(70))
        for step in range(20):
            client.answer(step % 4)
        shown = re.search(r"<strong>([\d.]+)</strong>, with a standard error of <strong>([\d.]+)</strong>", client.page)
        self.kill(server)
        tool = [sys.executable, os.path.join(EXAMPLES, "..", "tools", "score.py"), self.bank, self.plan, self.settings().map,
                "--journal", self.path("journal"), "--scale", "500", "100", "--program", PROGRAM]
        done = subprocess.run(tool, capture_output=True, text=True, timeout=LIMIT, check=False)
        row = next(csv.DictReader(done.stdout.splitlines()), None)
        self.assertIsNotNone(row, done.stderr)
        self.assertAlmostEqual(float(shown.group(1)), float(row["scale"]), delta=0.006)
        self.assertAlmostEqual(float(shown.group(2)), 100 * float(row["posterior_sd"]), delta=0.011)

    def test_a_person_that_sits_twice(self):
        """The second test has another first item, and its record has the four items that the first was shown."""
        self.start_server()
        first, second = Client(self.app()), Client(self.app())
        first.begin(self.desk().issue(70))
        for _ in range(3):
            first.answer(0)
        self.assertEqual(self.desk().withhold(80, [70]), 4)
        second.begin(self.desk().issue(80))
        self.assertEqual(second.place(), 1)
        before, after = self.journal_sessions()
        self.assertEqual((len(before.items), after.without), (4, set(before.items)))
        self.assertFalse(set(after.items) & set(before.items))
        second.get()
        self.assertEqual((second.place(), len(self.journal_sessions())), (1, 2))

    def test_a_server_that_is_away(self):
        client = Client(self.app())
        self.assertEqual(client.begin(self.desk().issue(70)).status_code, 503)
        self.assertIn("The examination server does not answer at the moment.", client.page)
        self.start_server()
        client.get()
        self.assertEqual(client.place(), 1)

    def test_a_token(self):
        """The client sends the token of the file that the settings name, else that of the environment, else none."""
        from exam_server import ExamServer
        from settings import BadInput

        def sent(**changed):
            return ExamServer("127.0.0.1:1", 1, 1, dataclasses.replace(self.settings(), **changed).server_token()).fields.get("Authorization")

        self.assertIsNone(sent())
        os.environ["SHADOWD_TOKEN"] = "t" * 20
        self.addCleanup(os.environ.pop, "SHADOWD_TOKEN")
        self.assertEqual(sent(), "Bearer " + "t" * 20)
        self.assertEqual(sent(token=self.write("token", "u" * 30 + "\n")), "Bearer " + "u" * 30)
        for wrong in ("u" * 15, "two words of them", "u" * 1025):
            with self.assertRaises(BadInput):
                sent(token=self.write("token", wrong))
