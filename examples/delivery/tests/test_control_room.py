"""The control room beside an examination whose numbers are worked out by hand, and beside servers that are away or not well."""
import collections
import contextlib
import hashlib
import http.client
import http.server
import io
import json
import os
import re
import signal
import socket
import sqlite3
import subprocess
import sys
import threading
import unittest.mock

from common import (HERE, LIMIT, PROGRAM, STAFF, Client, Examination, StandIn, fetch, free_port, listens, needs_flask, needs_program,
                    signed_in, wait_until)


def handler(health, exposure):
    """A server that has these replies and nothing else."""
    class Handler(http.server.BaseHTTPRequestHandler):
        def log_message(self, *words):
            pass

        def do_GET(self):
            status, body = {"/health": health, "/exposure": exposure}[self.path]
            text = json.dumps(body).encode()
            self.send_response(status)
            self.send_header("Content-Length", str(len(text)))
            self.end_headers()
            self.wfile.write(text)
    return Handler


class InControlRoom(Examination):
    """The control room of the test's examination. What it does in the background is done when a test asks for it."""
    example = "aggression"  # 9 items a test

    def room(self, look=True):
        """The application, after it asked the server and audited the journal once."""
        from control_room import make_app
        app = make_app(self.settings())
        for act, _ in app.extensions["background"].values() if look else ():
            act()
        return app

    def staff(self, user="actor", password="q" * 16, app=None):
        """A browser of a user who has signed in."""
        client = Client(app or self.room(look=False))
        client.get("/sign-in")
        client.post("/sign-in", **client.hidden(), user=user, password=password)
        return client

    def page(self, path="/examination?renew=no"):
        client = self.staff(app=self.room())
        client.get(path)
        return client.reply.status_code, client.page


@needs_flask
@needs_program
class ControlRoom(InControlRoom):
    def figures(self, page):
        return dict(re.findall(r"<dt>([^<]*)</dt><dd>([^<]*)</dd>", page))

    def ask(self, path, body):
        with contextlib.closing(http.client.HTTPConnection("127.0.0.1", self.ports["server"], timeout=LIMIT)) as connection:
            connection.request("POST", path, json.dumps(body))
            return json.loads(connection.getresponse().read())

    def sit(self, booking, steps):
        """The items that a session was shown after so many answers."""
        place, shown = self.ask("/sessions", {"booking": booking}), []
        while place["state"] == "waiting":
            shown.append(place["item"])
            if place["step"] == steps:
                break
            place = self.ask(f"/sessions/{place['session']}/answers", {"step": place["step"], "response": place["step"] % 3})
        return shown

    def test_the_numbers(self):
        self.start_server()
        shown = [item for booking in (70, 71) for item in self.sit(booking, 9)]
        self.sit(72, 3)
        shown += self.sit(73, 1)
        self.assertEqual(self.ask("/sessions/3/close", None), {"session": 3, "state": "closed"})
        self.desk().issue(74)
        status, page = self.page()
        figures = self.figures(page)
        self.assertEqual([figures[name] for name in ("Open", "Complete", "Closed before the end", "Items served", "From a form proved best")],
                         ["1", "2", "1", str(9 + 9 + 4 + 2), str(9 + 9 + 4 + 2)])
        self.assertEqual((status, figures["Codes used"], figures["Answers on their way to it"]), (200, "0 of 1", "0"))
        self.assertIn(f"Each of the {4 + 24 + 9 + 9 + 3 + 1 + 1} records of a copy of the journal was judged", page)
        self.assertIn(f"The journal has {os.path.getsize(self.path('journal')):,} of 67,108,864 bytes, and 4 of 1000 sessions.", page)
        self.exposure(page, collections.Counter(shown))

    def exposure(self, page, shown):
        """The bars and the table have these counts of three finished sessions, and the bars these heights of 260."""
        with open(self.settings().map, encoding="utf-8") as file:
            names = [item["id"] for item in json.load(file)["items"]]
        wanted = {name: shown[number] for number, name in enumerate(names)}
        bars = re.findall(r'<rect class="(\w+)"[^>]* height="([\d.]+)"><title>(\w+): (\d+) of 3</title>', page)
        self.assertEqual({name: int(count) for _, _, name, count in bars}, wanted)
        for kind, height, _, count in bars:
            self.assertAlmostEqual(float(height), 260 * int(count) / 3, delta=0.006)
            self.assertEqual(kind, "above" if int(count) > 2 else "bar")
        self.assertEqual([int(count) for *_, count in bars], sorted(wanted.values(), reverse=True))
        rows = re.findall(r'<th scope="row">(\w+)</th><td>(\d+)</td><td>([\d.]+)</td>', page)
        self.assertEqual({name: (int(count), share) for name, count, share in rows}, {name: (count, f"{count / 3:.3f}") for name, count in wanted.items()})

    def test_servers_that_are_not_well(self):
        well = {"finished": 0, "rows": [[0, 0]] * 24}
        numbers = {"busy": 2, "entries": 7, "open": 3, "room": 5000}
        for health, said in (((404, {"error": "no-route"}), "The server answers."), ((200, numbers), "The server answers, and its last write succeeded."),
                             ((503, numbers), "reports a fault of its disk")):
            with self.subTest(said), http.server.ThreadingHTTPServer(("127.0.0.1", self.ports["server"]), handler(health, (200, well))) as server:
                thread = threading.Thread(target=server.serve_forever)
                thread.start()
                page = self.page()[1]
                server.shutdown()
                thread.join()
                self.assertIn(said, page)
                self.assertEqual("5,000 by the server" in page, health[0] != 404)
                self.assertEqual(self.figures(page).get("Workers busy"), None if health[0] == 404 else "2")
                self.assertIn("No session is finished yet.", page)
        self.assertIn("gives no reply that counts", self.page()[1])

    def test_whose_the_rate_is(self):
        """Of 6 sessions an item was shown in 5: above 2 of 3 of the sessions. With bands the rate is of visits, and nothing is compared with it."""
        rows = [[5, 6], [4, 6]] + [[2, 6]] * 22
        for bands in (False, True):
            with self.subTest(bands=bands):
                if bands:
                    self.with_plan(self.read("plan.txt") + "bands 10\n")
                page = self.beside(handler((200, {"busy": 0, "entries": 1, "open": 0, "room": 5000}), (200, {"finished": 6, "rows": rows})))
                self.assertEqual("The rate is 0.667 of the sessions. 1 of 24 items are above it." in page, not bands)
                self.assertEqual("The rate 0.667 of the plan is of the visits of a band." in page, bands)
                self.assertEqual((page.count('class="above"'), page.count('class="rate"'), ", beside the rate." in page), (0, 0, False) if bands else (1, 1, True))
                self.assertEqual(len(re.findall(r'<rect class="bar"[^>]*><title>', page)), 24 if bands else 23)

    def with_plan(self, text):
        """Another plan, whose digest the map has."""
        self.write("plan.txt", text)
        found = json.loads(self.read("map.json"))
        found["sha256"]["plan"] = hashlib.sha256(self.bytes_of("plan.txt")).hexdigest()
        self.write("map.json", json.dumps(found))

    def beside(self, replies):
        """The page beside a server that has these replies."""
        with http.server.ThreadingHTTPServer(("127.0.0.1", self.ports["server"]), replies) as server:
            thread = threading.Thread(target=server.serve_forever)
            thread.start()
            page = self.page()[1]
            server.shutdown()
            thread.join()
        return page

    def test_a_journal_that_is_refused(self):
        self.write("journal", "SHADOWJ9 is another format")
        page = self.page()[1]
        self.assertIn("A copy of the journal could not be audited.", page)
        os.unlink(self.path("journal"))
        self.assertIn("A copy of the journal could not be audited.", self.page()[1])

    def test_the_journal_is_only_read(self):
        self.start_server()
        self.sit(70, 2)
        before = self.bytes_of("journal")
        self.assertEqual(self.page()[0], 200)
        self.assertEqual(self.bytes_of("journal"), before)
        self.assertEqual(len(self.sit(70, 9)), 7)


@needs_flask
@needs_program
class Staff(InControlRoom):
    """Who is let in, and for what."""

    def test_staff_alone(self):
        app = self.room(look=False)
        for path in ("/", "/examination", "/log", "/find?booking=70", "/bookings/70", "/bookings/70/close", "/nowhere"):
            with self.subTest(path):
                reply = app.test_client().get(path)
                self.assertEqual((reply.status_code, reply.headers["Location"]), (303, "/sign-in"))
        for user, password in (("actor", ""), ("actor", "p" * 16), ("actor", "q" * 15), ("actor", "q" * 17), ("", "q" * 16), ("nobody", "q" * 16), ("Actor", "q" * 16)):
            with self.subTest(user=user, password=password):
                client = self.staff(user, password, app)
                self.assertEqual((client.reply.status_code, client.get("/").request.path), (403, "/sign-in"))
        self.assertEqual(self.staff("looker", "p" * 16, app).get("/").request.path, "/")

    def test_a_role_that_looks(self):
        self.desk().issue(70)
        client = self.staff("looker", "p" * 16)
        client.get("/bookings/70")
        self.assertNotIn("/bookings/70/new-code", client.page)
        token = client.hidden()["csrf_token"]
        for what in ("new-code", "pause", "go-on", "extra-time", "close"):
            self.assertEqual(client.get(f"/bookings/70/{what}").status_code, 403)
            reply = client.post(f"/bookings/70/{what}", csrf_token=token, booking="70", name="L", minutes="5")
            self.assertEqual((reply.status_code, "Nothing was changed." in client.page), (403, True))
        client.get("/log")
        self.assertIn("Nothing was done yet.", client.page)

    def test_a_wait_after_ten_wrong_passwords(self):
        """It is for one user from one address: another user, and the same one elsewhere, are let in."""
        from staff import Door, read_users
        door, now = Door(read_users(self.path("staff.toml")), lambda: now[0]), [0.0]
        for count in range(10):
            self.assertFalse(door.must_wait("actor", "192.0.2.1"), count)
            self.assertIsNone(door.user("actor", "x", "192.0.2.1"))
        self.assertEqual([door.must_wait(*one) for one in (("actor", "192.0.2.1"), ("actor", "192.0.2.2"), ("looker", "192.0.2.1"))], [True, False, False])
        now[0] = 59.9
        self.assertTrue(door.must_wait("actor", "192.0.2.1"))
        now[0] = 60
        self.assertFalse(door.must_wait("actor", "192.0.2.1"))
        self.assertEqual(door.user("actor", "q" * 16, "192.0.2.1").role, "act")

    def test_the_wait_on_the_page(self):
        app = self.room(look=False)
        self.assertEqual([self.staff("actor", "x", app).reply.status_code for _ in range(11)], [403] * 10 + [429])
        self.assertEqual(self.staff(app=app).reply.status_code, 429)
        self.assertEqual(self.staff("looker", "p" * 16, app).reply.status_code, 200)

    def test_a_cookie_after_a_change_of_the_password_or_the_role(self):
        client = self.staff()
        cookie = client.client.get_cookie("control").value if hasattr(client.client, "get_cookie") else \
            next(one.value for one in client.client.cookie_jar if one.name == "control")

        def status():
            return self.room(look=False).test_client(use_cookies=False).get("/log", headers={"Cookie": f"control={cookie}"}).status_code

        self.assertEqual(status(), 200)
        self.write("staff.toml", STAFF.replace('"act"', '"look"'))
        self.assertEqual(status(), 303)

    def test_the_command(self):
        """A user is changed and let in; another one stays. A short password changes nothing."""
        from staff import Door, read_users
        words = [sys.executable, os.path.join(HERE, "staff.py"), self.path("staff.toml")]
        for user, role, password, status in (("looker", "act", "another password", 0), ("bob", "act", "short", 1), ("Anna", "act", "a long password", 2),
                                             ("bob", "all", "a long password", 2)):
            done = subprocess.run([*words, user, role], input=password + "\n", capture_output=True, text=True, timeout=LIMIT, check=False)
            self.assertEqual(done.returncode, status, done.stderr)
        kept = self.read("staff.toml")
        self.assertEqual((os.stat(self.path("staff.toml")).st_mode & 0o077, "another password" in kept, "bob" in kept), (0, False, False))
        door = Door(read_users(self.path("staff.toml")))
        self.assertIsNone(door.user("looker", "p" * 16, ""))
        self.assertEqual([door.user(*words, "").role for words in (("looker", "another password"), ("actor", "q" * 16))], ["act", "act"])

    def test_files_of_users_that_are_refused(self):
        from settings import BadInput
        from staff import read_users
        good = STAFF.partition("[users.actor]")[0]
        for text in ("", "[users]\n", "users = 7\n", good.replace('"look"', '"all"'), good.replace("0000:", "000:"), good.replace("role", "roles"),
                     good + "more = 7\n", good.replace("looker", "'Looker'"), "a = 1\n" + good):
            with self.subTest(text), self.assertRaises(BadInput):
                read_users(self.write("users.toml", text))

    def test_settings_of_before(self):
        """Those with the password of one user, who looks alone; and those with none."""
        from settings import BadInput
        self.write("word", "w" * 16)
        self.change_settings(staff="", staff_password='"word"')
        client = self.staff("staff", "w" * 16)
        client.get("/bookings/70/new-code")
        self.assertEqual(client.reply.status_code, 403)
        self.change_settings(staff_password="")
        with self.assertRaisesRegex(BadInput, "needs a setting staff"):
            self.room()


@needs_flask
@needs_program
class Bookings(InControlRoom):
    """The list of bookings, which is drawn from the application's file alone."""

    def fill(self):
        """70 has a code, 71 signed in, 72 is open with two answers, one of them on its way, 73 is paused, 74 was closed, 75 is complete."""
        desk = self.desk()
        codes = {booking: desk.issue(booking) for booking in range(70, 76)}
        for booking in range(71, 76):
            desk.admit(codes[booking])
        for booking in range(72, 76):
            desk.begin(booking, 1800)
        for step in (0, 1):
            desk.show(72, step, step, desk.moment())
            desk.give(72, step, 0, 0)
        desk.settle(72, 0, 0)
        desk.pause(73)
        desk.ask_to_end(74, "time")
        desk.end(74, "closed")
        desk.end(75, "complete")
        return desk

    def rows(self, page):
        return [(int(booking), re.sub(r"<[^>]*>", "", state)) for booking, state in
                re.findall(r'<th scope="row"><a href="/bookings/(\d+)">\d+</a></th>\n<td class="word">(.*)</td>', page)]

    def test_a_line_for_each_booking(self):
        self.fill()
        client = self.staff()
        client.get("/?renew=no")
        self.assertEqual(self.rows(client.page), [(70, "code issued"), (71, "signed in"), (72, "open"), (73, "paused"), (74, "closed (time)"), (75, "complete")])
        self.assertIn("<td>1 of 9 (+1 on its way)</td>", client.page)
        self.assertEqual(len(re.findall(r"<td>(?:30:00|29:\d\d)</td>", client.page)), 2)

    def test_lines_that_are_chosen_and_ordered(self):
        self.fill()
        client = self.staff()
        for query, wanted in (("state=open", [72]), ("state=closed", [74]), ("text=5", [75]), ("text=7&down=1", [75, 74, 73, 72, 71, 70]),
                              ("order=answered&down=1&text=7", [72, 70, 71, 73, 74, 75]), ("order=state", [74, 70, 75, 72, 73, 71]),
                              ("order=left", [72, 73, 70, 71, 74, 75]),
                              ("order=quiet&down=1", [72, 70, 71, 73, 74, 75]), ("order=left&down=1", [73, 72, 70, 71, 74, 75]),
                              ("order=code", [71, 72, 73, 74, 75, 70]), ("order=begun", [72, 73, 74, 75, 70, 71]), ("order=extra", [70, 71, 72, 73, 74, 75]), ("state=open&text=70", []), ("page=2", [])):
            with self.subTest(query):
                client.get("/?" + query)
                self.assertEqual([booking for booking, _ in self.rows(client.page)], wanted)
        for query in ("order=rowid", "state=x", "text=a", "text=%25", "page=0", "page=9999999"):
            self.assertEqual(client.get("/?" + query).status_code, 404, query)

    def test_two_hundred_lines_a_page(self):
        desk = self.desk()
        with desk.together():
            for booking in range(1000, 1450):
                desk.issue(booking)
        client = self.staff()
        for page, first, count in ((1, 1000, 200), (2, 1200, 200), (3, 1400, 50), (4, None, 0)):
            client.get(f"/?page={page}&state=code+issued")
            rows = self.rows(client.page)
            self.assertEqual((len(rows), rows[0][0] if rows else None), (count, first))
        client.get("/?page=2&text=1")
        self.assertIn('href="/?text=1&amp;page=3"', client.page)

    def test_a_line_that_is_quiet(self):
        desk = self.fill()
        with desk.together() as file:
            file.execute("UPDATE answers SET given_at = strftime('%Y-%m-%dT%H:%M:%fZ', 'now', '-200 seconds')")
        client = self.staff()
        client.get("/?state=open")
        self.assertIn('<tr class="quiet-line">', client.page)
        self.assertRegex(client.page, r"3:2\d ago <strong>!</strong>")
        with desk.together() as file:
            file.execute("UPDATE answers SET given_at = strftime('%Y-%m-%dT%H:%M:%fZ', 'now', '-170 seconds')")
        client.get("/?state=open")
        self.assertNotIn("quiet-line", client.page)


@needs_flask
@needs_program
class Actions(InControlRoom):
    """What staff do: each is asked once more, and is in the log."""

    def setUp(self):
        super().setUp()
        from delivery import make_app
        self.change_settings(minutes="30")
        self.server = StandIn(9)
        self.pages = make_app(self.settings(), self.server)
        self.app = self.room(look=False)
        self.actor = self.staff(app=self.app)

    def begun(self, booking):
        client = Client(self.pages)
        client.begin(self.desk().issue(booking))
        self.assertEqual(client.place(), 1)
        return client

    def act(self, booking, what, /, **fields):
        """Opens the page that asks once more, and sends it."""
        self.actor.get(f"/bookings/{booking}/{what}")
        return self.actor.post(f"/bookings/{booking}/{what}", **{**self.actor.hidden(), "booking": booking, "name": "A. Proctor", **fields})

    def log(self):
        from roll import Roll
        return Roll(self.desk()).actions(1)[0]

    def test_a_new_code(self):
        first = self.begun(70)
        self.act(70, "new-code", note="another desk")
        code = re.search(r"<strong>([0-9A-Z-]{14})</strong>", self.actor.page).group(1)
        self.assertEqual(self.actor.reply.headers["Cache-Control"], "no-store")
        first.get()
        self.assertEqual(first.place(), 1)
        second = Client(self.pages)
        second.sign_in(code)
        self.assertEqual(second.place(), 1)
        first.get()
        self.assertIn("a newer code of your booking was used", first.page)
        (_, user, name, what, booking, before, after, note), = self.log()
        self.assertEqual((user, name, what, booking, note), ("actor", "A. Proctor", "new-code", 70, "another desk"))
        self.assertIn("code used at", before)
        self.assertIn("code unused", after)
        self.assertNotIn(code, str(self.log()))

    def test_the_first_code_of_a_booking(self):
        self.actor.get("/find?booking=99")
        self.assertIn("No code was issued for this booking.", self.actor.page)
        self.act(99, "new-code")
        client = Client(self.pages)
        client.sign_in(re.search(r"<strong>([0-9A-Z-]{14})</strong>", self.actor.page).group(1))
        self.assertIn("booking 99", client.page)
        self.assertEqual(self.log()[0][5], "not known")

    def test_pause_and_extra_time(self):
        client, desk = self.begun(70), self.desk()
        self.act(70, "pause")
        client.get()
        self.assertIn("Your test is paused", client.page)
        left = desk.clock(70).left(desk.now())
        self.act(70, "extra-time", minutes="15")
        self.assertAlmostEqual(desk.clock(70).left(desk.now()), left + 900, delta=0.5)
        self.act(70, "go-on")
        client.get()
        self.assertEqual(client.place(), 1)
        self.act(70, "extra-time", minutes="-5")
        self.assertEqual(desk.clock(70).extra, 600)
        self.assertEqual([row[3] for row in self.log()], ["extra-time", "go-on", "extra-time", "pause"])
        self.assertRegex(self.log()[2][6], r"paused, 0 answered, 4[45]:\d\d left, extra 15:00, code used at ")

    def test_extra_time_before_the_begin(self):
        desk = self.desk()
        code = desk.issue(70)
        self.act(70, "extra-time", minutes="30")
        client = Client(self.pages)
        client.sign_in(code)
        self.assertIn("You have 60 minutes", client.page)

    def test_a_close(self):
        """Over the stand-in: the control room's own client is exchanged for it."""
        client = self.begun(70)
        client.answer(0)
        with self.over_the_stand_in():
            self.act(70, "close", note="fire alarm")
        self.assertIn("The session of booking 70 is closed.", self.actor.page)
        client.answer(1)
        self.assertIn("Your test was ended by the staff", client.page)
        self.assertEqual((len(self.server.recorded[0]), self.server.closed), (1, {0}))
        self.assertEqual((self.log()[0][3], self.log()[0][7]), ("close", "fire alarm"))

    @contextlib.contextmanager
    def over_the_stand_in(self):
        with unittest.mock.patch("control_room.ExamServer", return_value=self.server):
            self.app = self.room(look=False)
        self.actor = self.staff(app=self.app)
        yield

    def test_a_close_while_the_server_is_away(self):
        """It is decided at once, and done by the application when the server is back."""
        client = self.begun(70)
        self.change_settings(patience="0.1")
        self.app = self.room(look=False)
        self.actor = self.staff(app=self.app)
        self.act(70, "close")
        self.assertIn("The end of booking 70 is decided", self.actor.page)
        self.assertEqual((self.server.closed, self.desk().ending(70)), (set(), ("staff", None)))
        self.pages.extensions["background"]["ending"][0]()
        self.assertEqual((self.server.closed, self.desk().ending(70)), ({0}, ("staff", "closed")))
        client.get()
        self.assertIn("Your test was ended by the staff", client.page)

    def test_what_is_not_done(self):
        """Another number, no name, minutes that are none, a form of another sign-in: nothing is changed, and nothing logged."""
        self.begun(70)
        before = self.desk().clock(70)
        for fields in ({"booking": "71"}, {"booking": ""}, {"name": " "}, {"name": "n" * 81}, {"note": "n" * 201}, {"minutes": "0"}, {"minutes": "601"},
                       {"minutes": "1.5"}, {"minutes": ""}, {"csrf_token": "x"}):
            with self.subTest(fields):
                reply = self.act(70, "extra-time", **{"minutes": "10", **fields})
                self.assertEqual(reply.status_code, 400)
        self.assertEqual((self.desk().clock(70), self.log()), (before, []))

    def test_states_in_which_it_makes_no_sense(self):
        client = self.begun(70)
        for _ in range(9):
            client.answer(0)
        for what in ("close", "pause", "go-on", "extra-time", "new-code"):
            self.act(70, what, minutes="5")
            self.assertIn("Booking 70 is complete. Nothing was changed.", self.actor.page)
        self.assertEqual((self.actor.get("/bookings/70/all").status_code, self.log()), (404, []))

    def test_the_log_is_append_only(self):
        self.desk().issue(70)
        self.act(70, "new-code")
        for change in ("DELETE FROM actions", "UPDATE actions SET user = 'another'"):
            with self.assertRaises(sqlite3.IntegrityError), self.desk().together() as file:
                file.execute(change)
        self.actor.get("/log")
        self.assertIn("A. Proctor", self.actor.page)

    def test_an_action_that_fails_is_not_in_the_log(self):
        self.begun(70)
        with unittest.mock.patch("booking_desk.Desk.pause", side_effect=sqlite3.OperationalError("disk I/O error")):
            self.assertEqual(self.act(70, "pause").status_code, 503)
        self.assertEqual(self.log(), [])

    def test_codes_of_the_command_line_are_in_the_log(self):
        import booking_desk
        with contextlib.redirect_stdout(io.StringIO()):
            self.assertEqual(booking_desk.main([self.settings_path, "80"]), 0)
        self.assertEqual(self.log()[0][1:5], ("command line", f"user {os.getuid()} of this machine", "new-code", 80))


@needs_flask
@needs_program
class Launcher(Examination):
    def launch(self, port, errors):
        environment = os.environ | {"SHADOWD": os.path.abspath(PROGRAM), "FOLDER": self.path("run"), "PORT": str(port)}
        command = subprocess.Popen(["bash", os.path.join(HERE, "run.sh")], env=environment, stdin=subprocess.DEVNULL,
                                   stdout=subprocess.PIPE, stderr=errors, text=True)
        self.addCleanup(command.stdout.close)
        self.addCleanup(command.kill)
        return command

    def test_a_port_that_is_busy(self):
        """One line, a status, and neither a code nor a folder with secrets of an examination that did not start."""
        for place in range(3):
            with socket.create_server(("127.0.0.1", 0)) as busy, open(self.path("errors"), "w+", encoding="utf-8") as errors:
                port = busy.getsockname()[1] - place
                command = self.launch(port, errors)
                said = command.communicate(timeout=LIMIT)[0]
                errors.seek(0)
                self.assertEqual((command.returncode, said, os.listdir(self.path("run"))), (1, "", []))
                self.assertRegex(errors.read(), rf"\Aport {port + place} of the three from {port} on can't be had: .*in use.*\n\Z")

    def test_all_of_it(self):
        """The command prints two addresses and three codes, starts again what ended, and leaves no process."""
        port = free_port()
        errors = open(self.path("errors"), "w+", encoding="utf-8")
        self.addCleanup(errors.close)
        command, lines = self.launch(port, errors), []
        while not lines or not lines[-1].startswith("Journal and codes:"):
            line = command.stdout.readline()
            self.assertTrue(line, lines)
            lines.append(line)
        said = "".join(lines)
        self.assertIn(f"http://127.0.0.1:{port}/\n", said)
        password = re.search(rf"http://127\.0\.0\.1:{port + 1}/   user staff, password (\S+)\n", said).group(1)
        self.assertEqual(re.findall(r"booking (\d+)     code [0-9A-Z-]{14}\n", said).__len__(), 3)
        wait_until(lambda: listens(port + 2), "shadowd listens")
        cookie = signed_in(port + 1, "staff", password)
        status, page, _ = fetch(port + 1, "/", cookie)
        self.assertEqual((status, re.findall(r">(100[0-9])</a>", page)), (200, ["1001", "1002", "1003"]))
        for name in ("secret", "staff_password", "staff.toml", "plan.txt", "settings.toml", "delivery.sqlite"):
            self.assertEqual(os.stat(os.path.join(self.path("run"), name)).st_mode & 0o077, 0, name)
        before = {name: self.read(f"run/{name}.pid") for name in ("shadowd", "delivery", "control_room")}
        for name, first in before.items():
            os.kill(int(first), signal.SIGKILL)
        for place, name in enumerate(("delivery", "control_room", "shadowd")):
            wait_until(lambda: self.read(f"run/{name}.pid") not in ("", before[name]) and listens(port + place), f"{name} is started again")
            self.assertIn(f"run.sh: {name} ended with status 137. It starts again in five seconds.\n", self.read("errors"))
        command.send_signal(signal.SIGTERM)
        command.wait(LIMIT)
        for one in range(3):
            wait_until(lambda: not listens(port + one), f"port {port + one} is free")
