#!/usr/bin/env python3
"""The control room: pages for staff, with a line for each booking, and what they may do about it.

usage: control_room.py SETTINGS

The lines are from the application's own file. The server is asked, and a copy of its journal audited, in the background.
"""
import collections
import hmac
import os
import re
import shutil
import subprocess
import sys
import tempfile
import time

from flask import Flask, abort, flash, g, redirect, render_template, request, session, url_for
from flask_wtf.csrf import CSRFProtect

import web
from booking_desk import Desk
from exam_server import Away, ExamServer, Refused
from readers import Refused as Unread
from readers import read_documents, read_journal, sessions_of
from roll import LINES, ORDERS, QUIET, STATES, Choice, Roll, spell
from settings import BadInput
from sittings import Sittings
from staff import Door, User, kept, read_users
from words import Words

ASK, AUDIT, PATIENCE = 3, 60, 600  # seconds between two looks at the server, and two audits; seconds for an audit
COOKIE_SECONDS = 12 * 3600
OLD = 12  # seconds after which the last look at the server counts as none
MOST_MINUTES = 600  # of extra time at once

# What staff may do: its name on pages, and the states in which it makes sense.
ACTIONS = {
    "new-code": ("New code", ("", "code issued", "signed in", "open", "paused")),
    "pause": ("Pause", ("open",)),
    "go-on": ("Go on", ("paused",)),
    "extra-time": ("Extra time", ("code issued", "signed in", "open", "paused")),
    "close": ("Close", ("open", "paused")),
}


class Look:
    """What was last found in the background, and when."""

    def __init__(self):
        self.figures, self.at = None, None

    def found(self, figures):
        self.figures, self.at = figures, time.time()


class ControlRoom:
    """The pages of one examination."""

    def __init__(self, settings):
        self.settings = settings
        self.server = ExamServer(settings.server, 2, settings.patience, settings.server_token())
        documents = read_documents(settings.bank, settings.plan, settings.map, settings.program)
        self.names, self.length = [item["id"] for item in documents.map["items"]], documents.plan.length
        self.desk = Desk(settings.store, settings.secret_of("secret"))
        self.roll, self.sittings = Roll(self.desk), Sittings(self.desk, self.server, settings.patience)
        self.door = Door(users_of(settings))
        said = self.shadowd("check").stdout.splitlines()
        self.plan = dict(line.split(" ", 1) for line in said[1:])
        self.of_server, self.of_journal = Look(), Look()

    def shadowd(self, command, **environment):
        words = [self.settings.program, command, self.settings.bank, self.settings.plan]
        return subprocess.run(words, env=os.environ | environment, capture_output=True, text=True, timeout=PATIENCE, check=False)

    # ---------------------------------------------------------------- who may ask

    def staff_only(self):
        g.user = self.door.users.get(session.get("user", ""))
        if request.endpoint in ("sign_in", "static"):
            return None
        if g.user is None or not hmac.compare_digest(session.get("password", ""), mark_of(g.user)):
            session.clear()
            return redirect(url_for("sign_in"), 303)
        return None

    def sign_in(self):
        if request.method == "GET":
            return render_template("staff/sign_in.html")
        name, password, address = request.form.get("user", "")[:40], request.form.get("password", "")[:200], request.remote_addr
        if self.door.must_wait(name, address):
            return render_template("staff/sign_in.html", error="There were ten wrong passwords. Wait a minute, then try again."), 429
        user = self.door.user(name, password, address)
        if user is None:
            return render_template("staff/sign_in.html", error="This is not the password of this user."), 403
        session.clear()
        session.permanent = True
        session["user"], session["password"] = user.name, mark_of(user)
        return redirect(url_for("bookings"), 303)

    @staticmethod
    def sign_out():
        session.clear()
        return redirect(url_for("sign_in"), 303)

    # ---------------------------------------------------------------- what is found in the background

    def ask_server(self):
        """Its health, and the exposure of each item, the greatest first."""
        try:
            health = self.server.health()
            finished, shown = self.server.exposure()
        except Away as away:
            return self.of_server.found({"fault": str(away), "health": None, "finished": None})
        counts = sorted(zip(self.names, shown), key=lambda row: (-row[1], self.names.index(row[0])))
        return self.of_server.found({"fault": None, "health": health, "finished": finished, "counts": counts, **self.rate()})

    def rate(self):
        """The rate of the plan, and that of the sessions. With bands a rate is of the visits of a band, and no share of the sessions is held against it."""
        above, below = map(int, self.plan["rate"].split())
        return {"rate": above / below, "rate_of_sessions": None if "bands" in self.plan else above / below}

    def audit(self):
        """What a copy of the journal has: the verdict of an audit, its numbers, and the sessions by state."""
        self.of_journal.found(self.audited())

    def audited(self):
        with tempfile.TemporaryDirectory() as folder:
            copy = os.path.join(folder, "journal")
            try:
                shutil.copyfile(self.settings.journal, copy)
                said = self.shadowd("audit", SHADOWD_JOURNAL=copy)
                states = collections.Counter(self.state(one) for one in sessions_of(read_journal(copy)))
            except (OSError, Unread, subprocess.TimeoutExpired) as error:
                return {"journal_fault": str(error), "journal": None}
            size = os.path.getsize(copy)
        words = said.stdout.partition("\n")[0].split()
        if said.returncode:
            return {"journal_fault": " ".join(words) or said.stderr, "journal": None}
        return {"journal_fault": None, "journal": dict(zip(words[::2], map(int, words[1::2]))), "states": states,
                "size": size, "limit": int(self.plan["journal"]), "most": int(self.plan["sessions"])}

    def state(self, one):
        return "closed" if one.closed else "complete" if len(one.responses) == self.length else "open"

    def strip(self):
        """What is at the top of each page: whether the server answers, and the verdict of the last audit."""
        server, journal = self.of_server, self.of_journal
        old = server.at is not None and time.time() - server.at > OLD + 6 * self.settings.patience
        codes, used, on_their_way = self.desk.counts()
        return {"title": self.settings.title, "user": g.get("user"), "at": clock_of(time.time()), "server": server.figures, "server_old": old,
                "server_at": clock_of(server.at), "audit": journal.figures, "audit_at": clock_of(journal.at), "codes": codes, "used": used,
                "on_their_way": on_their_way, "length": self.length}

    # ---------------------------------------------------------------- pages

    def bookings(self):
        choice = choice_of(request.args)
        if choice is None:
            abort(404)
        lines, counts = self.roll.lines(choice)
        chosen = counts.get(choice.state, 0) if choice.state else sum(counts.values())
        return render_template(
            "staff/bookings.html", lines=lines, counts=counts, choice=choice, states=STATES, chosen=chosen,
            first=(choice.page - 1) * LINES, pages=pages_of(chosen), quiet=QUIET, link=link_of(choice),
            renew=request.args.get("renew") != "no")

    def find(self):
        """The page of the booking whose number was typed in."""
        text = request.args.get("booking", "").strip()
        if not re.fullmatch(r"[0-9]{1,19}", text) or int(text) >= 2**63:
            flash("A booking is a number.")
            return redirect(url_for("bookings"), 303)
        return redirect(url_for("booking", booking=int(text)), 303)

    def booking(self, booking):
        line = self.roll.line(booking)
        state = line.state if line else ""
        possible = [(what, name) for what, (name, states) in ACTIONS.items() if state in states]
        return render_template("staff/booking.html", booking=booking, line=line, possible=possible, log=self.roll.actions(1, booking)[0])

    def act(self, booking, what):
        """Asks once more, on a page of its own, and does it when booking and name were typed there."""
        if g.user.role != "act" or what not in ACTIONS:
            abort(403 if what in ACTIONS else 404)
        name, states = ACTIONS[what]
        line = self.roll.line(booking)
        if (line.state if line else "") not in states:
            flash(f"Booking {booking} is {line.state if line else 'not known'}. Nothing was changed.")
            return redirect(url_for("booking", booking=booking), 303)
        fault = self.fault_of_form(booking, what) if request.method == "POST" else None
        if request.method == "GET" or fault:
            page = render_template("staff/act.html", booking=booking, line=line, what=what, name=name, fault=fault,
                                   most=MOST_MINUTES)
            return page, 400 if fault else 200
        return self.acted(booking, what)

    @staticmethod
    def fault_of_form(booking, what):
        typed = request.form.get("booking", "").strip()
        if typed != str(booking):
            return f"You typed another booking than {booking}. Nothing was changed."
        if not 0 < len(request.form.get("name", "").strip()) <= 80:
            return "Type your name, in at most 80 letters. Nothing was changed."
        if len(request.form.get("note", "")) > 200:
            return "A remark has at most 200 letters. Nothing was changed."
        if what == "extra-time" and not minutes_of(request.form.get("minutes", "")):
            return f"Extra time is a whole number of minutes up to {MOST_MINUTES}, or below 0 to take it back. Nothing was changed."
        return None

    def acted(self, booking, what):
        name, note = request.form["name"].strip(), request.form.get("note", "").strip()
        log = self.roll.acting(g.user.name, name, what, booking, note)
        if what == "new-code":
            with log:
                code = self.desk.issue(booking)
            return render_template("staff/code.html", booking=booking, code=code)
        with log:
            if what == "pause":
                self.desk.pause(booking)
            elif what == "go-on":
                self.desk.resume(booking)
            elif what == "extra-time":
                self.desk.extend(booking, 60 * minutes_of(request.form["minutes"]))
            else:
                self.desk.ask_to_end(booking, "staff")
        flash(self.close(booking) if what == "close" else f"It is done for booking {booking}, and is in the log.")
        return redirect(url_for("booking", booking=booking), 303)

    def close(self, booking):
        try:
            place = self.sittings.close(booking, "staff")
        except (Away, Refused) as fault:
            return (f"The end of booking {booking} is decided, and no item is shown any more. The server did not close "
                    f"the session yet ({fault}); the application tries again by itself.")
        return f"The session of booking {booking} is {place.state}. Its answers are recorded."

    def log(self):
        page = request.args.get("page", 1, type=int)
        if not 0 < page < 10**6:
            abort(404)
        rows, count = self.roll.actions(page)
        return render_template("staff/log.html", rows=rows, count=count, page=page, pages=pages_of(count))

    def examination(self):
        return render_template("staff/examination.html", renew=request.args.get("renew") != "no", **(self.of_server.figures or {}),
                               **(self.of_journal.figures or {}))


def users_of(settings):
    """The users of the settings: those of a file, or one who looks alone."""
    if settings.staff:
        return read_users(settings.staff)
    if settings.staff_password:
        return {"staff": User("staff", "look", kept(settings.secret_of("staff_password")))}
    raise BadInput("the control room needs a setting staff, the file with its users")


def mark_of(user):
    """What a cookie has of a password, so that it is void after a change of that or of the role."""
    return hmac.new(user.password.encode(), user.role.encode(), "sha256").hexdigest()


def clock_of(moment):
    return "" if moment is None else time.strftime("%H:%M:%S", time.gmtime(moment))


def minutes_of(text):
    """The minutes of extra time that a text has, None if it is none."""
    found = re.fullmatch(r"\s*(-?[0-9]{1,3})\s*", text)
    return int(found.group(1)) if found and 0 < abs(int(found.group(1))) <= MOST_MINUTES else None


def choice_of(args):
    """The choice that the address of the roll has, None if it is none."""
    texts = {name: args[name] for name in ("state", "text", "order") if name in args}
    choice = Choice(**texts, down="down" in args, page=args.get("page", 1, type=int))
    is_one = choice.order in ORDERS and choice.state in ("", *STATES) and re.fullmatch(r"[0-9]{0,20}", choice.text)
    return choice if is_one and 0 < choice.page < 10**6 else None


def pages_of(count):
    """The number of pages of so many lines."""
    return max(1, -(-count // LINES))


def link_of(choice):
    """A function that gives the address of the roll with another choice of some of it."""
    def link(**changed):
        wanted = choice._replace(**{"page": 1, **changed})
        return url_for("bookings", **{name: value for name, value in wanted._asdict().items() if value != Choice._field_defaults[name]})
    return link


def make_app(settings):
    app, room = Flask(__name__), ControlRoom(settings)
    app.config.update(
        SECRET_KEY=hmac.new(settings.secret_of("secret").encode(), b"control room", "sha256").digest(), MAX_CONTENT_LENGTH=4096,
        PERMANENT_SESSION_LIFETIME=COOKIE_SECONDS, SESSION_COOKIE_NAME="__Host-control" if settings.secure_cookies else "control",
        SESSION_COOKIE_SECURE=settings.secure_cookies, SESSION_COOKIE_HTTPONLY=True, SESSION_COOKIE_SAMESITE="Strict", WTF_CSRF_TIME_LIMIT=None)
    CSRFProtect(app)
    app.before_request(room.staff_only)
    app.context_processor(room.strip)
    app.jinja_env.filters["spell"] = spell
    words = Words("en")
    app.context_processor(lambda: {"say": words, "base": "staff/base.html"})
    for rule, methods, view in (("/", ["GET"], room.bookings), ("/sign-in", ["GET", "POST"], room.sign_in), ("/sign-out", ["POST"], room.sign_out),
                                ("/find", ["GET"], room.find), ("/log", ["GET"], room.log), ("/examination", ["GET"], room.examination),
                                ("/bookings/<int(max=9223372036854775807):booking>", ["GET"], room.booking),
                                ("/bookings/<int(max=9223372036854775807):booking>/<what>", ["GET", "POST"], room.act)):
        app.add_url_rule(rule, view.__name__, view, methods=methods)
    app.extensions["background"] = {"server": (room.ask_server, ASK), "audit": (room.audit, AUDIT)}
    return web.secured(app, "/", words)


if __name__ == "__main__":
    sys.exit(web.run(make_app, "control_listen", sys.argv[1:]))
