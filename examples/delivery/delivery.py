#!/usr/bin/env python3
"""The delivery application: an examinee's browser talks to it, and it alone talks to shadowd.

usage: delivery.py SETTINGS

The session is that of the booking in the signed cookie. No form names a booking or a session.
"""
import collections
import hashlib
import hmac
import os
import sys
import time

from flask import Flask, Response, abort, flash, jsonify, redirect, render_template, request, session, url_for
from flask_wtf.csrf import CSRFProtect

import web
from booking_desk import Desk
from exam_server import Away, ExamServer, Refused
from item_texts import read_texts
from readers import mode, moments, posterior_sums, read_documents
from sittings import Sittings, log
from words import Words

WRONG_CODES, IN_SECONDS = 20, 60  # of one address
COOKIE_SECONDS = 12 * 3600
GRACE = 5  # seconds for an answer that was sent at the end of the time
EACH = 5  # seconds between two looks for tests whose time is over


def whole_number(text):
    if not (text.isascii() and text.isdigit() and len(text) < 6):
        raise ValueError(text)
    return int(text)


class Delivery:
    """The pages of one examination."""

    def __init__(self, settings, server):
        self.settings, self.say = settings, Words(settings.language)
        self.documents = read_documents(settings.bank, settings.plan, settings.map, settings.program)
        self.texts, self.length = read_texts(settings.texts, self.documents), self.documents.plan.length
        self.desk = Desk(settings.store, settings.secret_of("secret"))
        self.sittings = Sittings(self.desk, server, settings.patience)
        self.wrong_codes, self.logged = collections.deque(maxlen=10_000), {}

    def booking(self):
        """The booking of the signed cookie, whose seat has to be the last that was given."""
        booking, seat = session.get("booking"), session.get("seat", "")
        if booking is None:
            abort(redirect(url_for("entrance"), 303))
        held = self.desk.seat(booking)[0]
        if held is None or not hmac.compare_digest(seat, held):
            session.clear()
            flash(self.say("newer_code"))
            abort(redirect(url_for("entrance"), 303))
        return booking

    def entrance(self):
        return render_template("entrance.html")

    def sign_in(self):
        since = time.monotonic() - IN_SECONDS
        if sum(address == request.remote_addr and at > since for address, at in list(self.wrong_codes)) >= WRONG_CODES:
            return render_template("entrance.html", error=self.say("wrong_codes")), 429
        admitted = self.desk.admit(request.form.get("code", "")[:100])
        if admitted is None:
            self.wrong_codes.append((request.remote_addr, time.monotonic()))
            return render_template("entrance.html", error=self.say("wrong_code")), 403
        session.clear()  # and with it the CSRF token: a page of who had this browser before is refused from now on
        session.permanent = True
        session["booking"], session["seat"] = admitted
        return redirect(url_for("test"), 303)

    def sign_out(self):
        self.desk.take_seat(self.booking())  # so that a copy of the cookie is void, too
        session.clear()
        flash(self.say("signed_out"))
        return redirect(url_for("entrance"), 303)

    def contrast(self):
        """Changes between the usual colours and black on white, for this sign-in."""
        self.booking()
        session["contrast"] = not session.get("contrast")
        return redirect(url_for("test"), 303)

    def begin(self):
        self.desk.begin(self.booking(), 60 * self.settings.minutes)
        return redirect(url_for("test"), 303)

    def test(self):
        """The page of the place where the booking's session is."""
        booking = self.booking()
        if not self.desk.seat(booking)[1]:
            return self.welcome(booking)
        renew = request.args.get("renew") != "no"
        try:
            place = self.place(booking)
        except (Away, Refused) as fault:
            log(booking, fault)
            on_its_way = self.desk.given(booking, False)
            return render_template("away.html", on_its_way=on_its_way, refused=isinstance(fault, Refused), renew=renew), 503
        clock = self.desk.clock(booking)
        if place.state != "waiting":
            return self.last(booking, place.state)
        if clock.paused_at is not None:
            return render_template("paused.html", left=clock.left(self.desk.now()), renew=renew)
        return render_template("item.html", item=self.texts[place.item], step=place.step, left=clock.left(self.desk.now()))

    def welcome(self, booking):
        minutes = self.settings.minutes and (60 * self.settings.minutes + self.desk.clock(booking).extra) / 60
        return render_template("welcome.html", booking=booking, minutes=f"{minutes:g}" if minutes else "")

    def place(self, booking):
        """Where the booking's test is. One that is to end is closed: its time is over, or the staff have decided it."""
        ending = self.desk.ending(booking)
        if ending and ending.state != "complete":
            return self.sittings.close(booking, ending.why)
        if self.desk.clock(booking).is_over(self.desk.now()):
            return self.sittings.close(booking, "time")
        return self.sittings.place(booking)

    def last(self, booking, state):
        answers, ending = self.desk.given(booking, True), self.desk.ending(booking)
        return render_template("last.html", state=state, why=ending.why, answers=len(answers), score=self.score(answers))

    def answer(self):
        """Takes the answer to a step that was shown. The page after it sends the answer to shadowd."""
        booking = self.booking()
        step, option = (request.form.get(name, type=whole_number) for name in ("step", "option"))
        shown = self.desk.shown(booking, step)
        if shown is None:
            flash(self.say("not_of_your_test"))
        elif option is None or option >= len(self.texts[shown[0]].options):
            flash(self.say("choose_one"), "error")
        elif shown[1] is None and self.came_late(booking):
            flash(self.say("too_late" if self.desk.ending(booking) is None else "ended_before"))
        elif not self.desk.give(booking, step, option, self.texts[shown[0]].responses[option]) and shown[1] != option:
            flash(self.say("first_counts", number=step + 1))
        return redirect(url_for("test"), 303)

    def came_late(self, booking):
        """Whether an answer comes after the time, or after the end of the test was decided."""
        return self.desk.clock(booking).is_over(self.desk.now() - GRACE) or self.desk.ending(booking) is not None

    def clock(self):
        """The time that is left, for a page that is open: seconds, or null without a limit."""
        booking = self.booking()
        clock, ended = self.desk.clock(booking), self.desk.ending(booking) is not None
        state = "ended" if ended else "paused" if clock.paused_at is not None else "running"
        return jsonify(state=state, left=clock.left(self.desk.now()))

    def picture(self, step, place):
        """A picture of the item that was shown at a step, or of its passage."""
        shown = self.desk.shown(self.booking(), step)
        item = self.texts[shown[0]] if shown else abort(404)
        pictures = item.pictures + (item.passage.pictures if item.passage else [])
        if place >= len(pictures):
            abort(404)
        return Response(pictures[place].data, mimetype=pictures[place].kind)

    @staticmethod
    def no_network():
        """The page that a browser keeps for when there is no network."""
        return render_template("no_network.html")

    def worker(self):
        """The script that shows it. It is another one when that page is, so that browsers take the page anew."""
        with open(os.path.join(os.path.dirname(__file__), "static", "worker.js"), encoding="utf-8") as file:
            page = hashlib.sha256(self.no_network().encode()).hexdigest()
            return Response(f"{file.read()}// {page}\n", mimetype="text/javascript")

    def end_those_that_are_over(self):
        """Closes each test whose time is over, or whose end shadowd did not acknowledge; one that fails is tried at the next look."""
        for booking in self.desk.to_be_ended(GRACE):
            ending = self.desk.ending(booking)
            try:
                self.sittings.close(booking, ending.why if ending else "time")
            except Refused as refused:
                self.log_once(booking, refused)
            except Away as away:
                self.log_once(booking, away)
                return

    def log_once(self, booking, fault):
        if self.logged.get(booking) != str(fault):
            self.logged[booking] = str(fault)
            log(booking, fault)

    def score(self, answers):
        """The score and its standard error on the reported scale, if the agency shows them."""
        if not self.settings.show_score or [given.step for given in answers] != list(range(self.length)):
            return None
        bank, plan, found = self.documents.bank, self.documents.plan, self.documents.map
        sums = posterior_sums(bank, plan.prior, [given.item for given in answers], [given.response for given in answers])
        mean, deviation = moments(sums, found["theta"], found["log_unit"])
        theta = mean if self.settings.estimate == "eap" else found["theta"][mode(sums)]
        return self.settings.scale[0] + self.settings.scale[1] * theta, self.settings.scale[1] * deviation


def make_app(settings, server=None):
    client = server or ExamServer(settings.server, settings.connections, settings.patience, settings.server_token())
    app, pages = Flask(__name__), Delivery(settings, client)
    app.config.update(
        SECRET_KEY=settings.secret_of("secret"), PERMANENT_SESSION_LIFETIME=COOKIE_SECONDS, MAX_CONTENT_LENGTH=4096,
        SESSION_COOKIE_NAME="__Host-delivery" if settings.secure_cookies else "delivery", SESSION_COOKIE_HTTPONLY=True,
        SESSION_COOKIE_SECURE=settings.secure_cookies, SESSION_COOKIE_SAMESITE="Lax", WTF_CSRF_TIME_LIMIT=None)
    CSRFProtect(app)
    app.context_processor(lambda: {"title": settings.title, "length": pages.length, "say": pages.say, "language": settings.language})
    for rule, method, view in (("/", "GET", pages.entrance), ("/", "POST", pages.sign_in), ("/sign-out", "POST", pages.sign_out),
                               ("/begin", "POST", pages.begin), ("/test", "GET", pages.test), ("/test", "POST", pages.answer),
                               ("/contrast", "POST", pages.contrast), ("/clock", "GET", pages.clock),
                               ("/picture/<int(max=65535):step>/<int(max=65535):place>", "GET", pages.picture),
                               ("/no-network", "GET", pages.no_network), ("/worker.js", "GET", pages.worker)):
        app.add_url_rule(rule, view.__name__, view, methods=[method])
    app.extensions["background"] = {"ending": (pages.end_those_that_are_over, EACH)}
    return web.secured(app, "/test", pages.say)


if __name__ == "__main__":
    sys.exit(web.run(make_app, "listen", sys.argv[1:]))
