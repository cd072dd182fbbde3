#!/usr/bin/env python3
"""The application's own file: one-time codes, who has the seat of a booking, what was shown and answered when, and the time that is left.

usage: booking_desk.py SETTINGS BOOKING .. [without BOOKING ..]      prints a new code for each booking

After `without` are earlier bookings of the same person. The test of each booking before it leaves out the items that those were shown.

An answer is written here before it is sent to shadowd, and marked after shadowd has acknowledged it. So it survives that
either of the two ends. Codes are kept as keyed digests. They are looked up by the digest, so the time shows nothing of a code.
"""
import contextlib
import hmac
import os
import secrets
import sqlite3
import sys
import threading
import time
from typing import NamedTuple

from roll import Roll
from settings import BadInput, read_settings

ALPHABET, LENGTH = "0123456789ABCDEFGHJKMNPQRSTVWXYZ", 12  # 60 bits, with no I, L, O or U
MISREAD = str.maketrans("OIL", "011", " -")
TABLES = """
PRAGMA journal_mode = WAL;
CREATE TABLE IF NOT EXISTS codes (digest TEXT PRIMARY KEY, booking INTEGER NOT NULL, used_at TEXT);
CREATE TABLE IF NOT EXISTS seats (booking INTEGER PRIMARY KEY, seat TEXT NOT NULL, begun_at TEXT);
CREATE TABLE IF NOT EXISTS answers (booking INTEGER, step INTEGER, item INTEGER NOT NULL, shown_at TEXT NOT NULL,
    option INTEGER, response INTEGER, given_at TEXT, kept_at TEXT, PRIMARY KEY (booking, step));
CREATE TABLE IF NOT EXISTS lists (booking INTEGER, item INTEGER, PRIMARY KEY (booking, item));
CREATE TABLE IF NOT EXISTS clocks (booking INTEGER PRIMARY KEY, extra REAL NOT NULL DEFAULT 0, ends_at REAL, paused_at REAL);
CREATE TABLE IF NOT EXISTS endings (booking INTEGER PRIMARY KEY, why TEXT NOT NULL, state TEXT, at TEXT NOT NULL);
"""
NOW = "strftime('%Y-%m-%dT%H:%M:%fZ')"


class Given(NamedTuple):
    """An answer that the examinee gave."""
    step: int
    item: int
    response: int


class Clock(NamedTuple):
    """The time of a booking, in seconds since 1970. `ends_at` is none without a limit or before the begin, `paused_at` while it runs."""
    extra: float = 0
    ends_at: float | None = None
    paused_at: float | None = None

    def left(self, now):
        """The seconds that are left, None without a limit."""
        return None if self.ends_at is None else max(0.0, self.ends_at - (self.paused_at or now))

    def is_over(self, now):
        return self.ends_at is not None and self.paused_at is None and self.ends_at <= now


class Ending(NamedTuple):
    """Why a test ended: `answered`, `time` or `staff`; and how it is by shadowd, `complete` or `closed`, None until that is known."""
    why: str
    state: str | None


class Desk:
    """`now` is the clock of the machine, in seconds since 1970."""

    def __init__(self, path, secret, now=time.time):
        self.path, self.key, self.own, self.now = path, secret.encode(), threading.local(), now
        os.close(os.open(path, os.O_CREAT | os.O_RDWR, 0o600))
        with self.opened() as file:
            file.executescript(TABLES)

    @contextlib.contextmanager
    def opened(self):
        """The connection of this thread, with one transaction, which is on the disk at the end of the block."""
        if not hasattr(self.own, "file"):
            self.own.file = sqlite3.connect(self.path, timeout=10)
        if self.own.file.in_transaction:  # a block within another one ends with that
            yield self.own.file
            return
        with self.own.file as file:
            yield file

    @contextlib.contextmanager
    def together(self):
        """One transaction of all blocks in this one."""
        with self.opened() as file:
            file.execute("BEGIN IMMEDIATE")
            yield file

    def digest(self, code):
        return hmac.new(self.key, b"code " + code.upper().translate(MISREAD).encode(), "sha256").hexdigest()

    def issue(self, booking):
        """A new code for a booking, as it is printed. A code that the booking has and did not use is void."""
        code = "".join(secrets.choice(ALPHABET) for _ in range(LENGTH))
        with self.opened() as file:
            file.execute("DELETE FROM codes WHERE booking = ? AND used_at IS NULL", (booking,))
            file.execute("INSERT INTO codes VALUES (?, ?, NULL)", (self.digest(code), booking))
        return "-".join(code[at:at + 4] for at in range(0, LENGTH, 4))

    def admit(self, code):
        """The booking of a code that was not used before, with its new seat, or None. The code is used then."""
        digest = self.digest(code)
        with self.opened() as file:
            used = file.execute(f"UPDATE codes SET used_at = {NOW} WHERE digest = ? AND used_at IS NULL", (digest,))
            if used.rowcount == 0:
                return None
            (booking,) = file.execute("SELECT booking FROM codes WHERE digest = ?", (digest,)).fetchone()
        return booking, self.take_seat(booking)

    def take_seat(self, booking):
        """A new seat of a booking. The seat before it is void."""
        seat = secrets.token_urlsafe(16)
        with self.opened() as file:
            file.execute("INSERT INTO seats VALUES (?, ?, NULL) ON CONFLICT (booking) DO UPDATE SET seat = excluded.seat",
                         (booking, seat))
        return seat

    def seat(self, booking):
        """The seat of a booking, if there is one, and whether its test has begun."""
        with self.opened() as file:
            found = file.execute("SELECT seat, begun_at FROM seats WHERE booking = ?", (booking,)).fetchone()
        return (found[0], found[1] is not None) if found else (None, False)

    def begin(self, booking, limit=0):
        """Begins the test of a booking, with a limit in seconds and the extra time that it has; 0 is no limit."""
        with self.opened() as file:
            begun = file.execute(f"UPDATE seats SET begun_at = {NOW} WHERE booking = ? AND begun_at IS NULL", (booking,)).rowcount
            if begun and limit:
                file.execute("INSERT INTO clocks (booking, ends_at) VALUES (?, ?) "
                             "ON CONFLICT (booking) DO UPDATE SET ends_at = excluded.ends_at + extra", (booking, self.now() + limit))

    def clock(self, booking):
        with self.opened() as file:
            found = file.execute("SELECT extra, ends_at, paused_at FROM clocks WHERE booking = ?", (booking,)).fetchone()
        return Clock(*found) if found else Clock()

    def extend(self, booking, seconds):
        """Gives a booking extra time, before its test begins or during it; a number below 0 takes it back."""
        with self.opened() as file:
            file.execute("INSERT INTO clocks (booking, extra) VALUES (?, ?) ON CONFLICT (booking) DO UPDATE SET "
                         "extra = extra + excluded.extra, ends_at = ends_at + excluded.extra", (booking, seconds))

    def pause(self, booking):
        """Stops the clock of a booking: what is left stays."""
        with self.opened() as file:
            file.execute("INSERT INTO clocks (booking, paused_at) VALUES (?, ?) ON CONFLICT (booking) DO UPDATE SET "
                         "paused_at = ifnull(paused_at, excluded.paused_at)", (booking, self.now()))

    def resume(self, booking):
        """Lets the clock of a booking run again, with what was left at the pause."""
        with self.opened() as file:
            file.execute("UPDATE clocks SET ends_at = ends_at + ? - paused_at, paused_at = NULL "
                         "WHERE booking = ? AND paused_at IS NOT NULL", (self.now(), booking))

    def ask_to_end(self, booking, why):
        """Notes why a test is to end, before shadowd is asked. What was noted first stays."""
        with self.opened() as file:
            file.execute(f"INSERT OR IGNORE INTO endings (booking, why, at) VALUES (?, ?, {NOW})", (booking, why))

    def end(self, booking, state):
        """Notes that a session is `complete` or `closed`. A close for which there is no other reason was one of the staff."""
        why = "answered" if state == "complete" else "staff"
        with self.opened() as file:
            file.execute(f"INSERT INTO endings (booking, why, state, at) VALUES (?1, ?2, ?3, {NOW}) ON CONFLICT (booking) DO UPDATE SET "
                         "state = ?3, why = CASE WHEN ?3 = 'complete' THEN 'answered' WHEN why = 'answered' THEN 'staff' ELSE why END "
                         "WHERE state IS NOT ?3", (booking, why, state))

    def ending(self, booking):
        with self.opened() as file:
            found = file.execute("SELECT why, state FROM endings WHERE booking = ?", (booking,)).fetchone()
        return Ending(*found) if found else None

    def to_be_ended(self, grace):
        """The bookings whose time is over since `grace` seconds, or whose end shadowd did not acknowledge yet."""
        with self.opened() as file:
            rows = file.execute("SELECT booking FROM clocks WHERE ends_at <= ? AND paused_at IS NULL AND booking NOT IN "
                                "(SELECT booking FROM endings) UNION SELECT booking FROM endings WHERE state IS NULL", (self.now() - grace,))
            return [booking for booking, in rows]

    def moment(self):
        """The time now, as the file has it."""
        with self.opened() as file:
            return file.execute(f"SELECT {NOW}").fetchone()[0]

    def show(self, booking, step, item, asked_at):
        """Notes that shadowd waits for an answer to this item, by a place that was asked for at this moment. An answer that is on its
        way stays, and one that was acknowledged since that moment."""
        with self.opened() as file:
            file.execute("DELETE FROM endings WHERE booking = ? AND why = 'answered'", (booking,))  # of a journal that is no more
            file.execute(f"INSERT INTO answers (booking, step, item, shown_at) VALUES (?, ?, ?, {NOW}) "
                         "ON CONFLICT (booking, step) DO UPDATE SET item = excluded.item, shown_at = excluded.shown_at, "
                         "option = NULL, response = NULL, given_at = NULL, kept_at = NULL "
                         "WHERE item != excluded.item OR kept_at < ?", (booking, step, item, asked_at))

    def shown(self, booking, step):
        """The item that was shown at a step and the option that was chosen, or None."""
        with self.opened() as file:
            return file.execute("SELECT item, option FROM answers WHERE booking = ? AND step = ?", (booking, step)).fetchone()

    def give(self, booking, step, option, response):
        """Takes an answer to the item of a step: whether it is the first, which alone counts."""
        with self.opened() as file:
            return file.execute(f"UPDATE answers SET option = ?, response = ?, given_at = {NOW} WHERE booking = ? AND step = ? "
                                "AND option IS NULL", (option, response, booking, step)).rowcount == 1

    def settle(self, booking, step, response):
        """Marks an answer as acknowledged, with the response that shadowd has. None takes the answer back."""
        change = f"kept_at = {NOW}" if response is not None else "option = NULL, given_at = NULL"
        with self.opened() as file:
            file.execute(f"UPDATE answers SET response = ?, {change} WHERE booking = ? AND step = ?", (response, booking, step))

    def given(self, booking, acknowledged):
        """The answers of a booking by step that shadowd has acknowledged, or those that are on their way to it."""
        with self.opened() as file:
            rows = file.execute("SELECT step, item, response FROM answers WHERE booking = ? AND given_at IS NOT NULL "
                                "AND (kept_at IS NOT NULL) = ? ORDER BY step", (booking, acknowledged))
            return [Given(*row) for row in rows]

    def withhold(self, booking, earlier):
        """The test of a booking leaves out the items that earlier bookings were shown; how many items its list has then."""
        with self.opened() as file:
            for one in earlier:
                file.execute("INSERT OR IGNORE INTO lists SELECT ?, item FROM answers WHERE booking = ?", (booking, one))
        return len(self.withheld(booking))

    def withheld(self, booking):
        """The items that the test of a booking leaves out."""
        with self.opened() as file:
            return [item for item, in file.execute("SELECT item FROM lists WHERE booking = ? ORDER BY item", (booking,))]

    def counts(self):
        """How many codes were issued, how many of them used, and how many answers are on their way."""
        with self.opened() as file:
            return file.execute("SELECT (SELECT count(*) FROM codes), (SELECT count(used_at) FROM codes), "
                                "(SELECT count(*) FROM answers WHERE given_at IS NOT NULL AND kept_at IS NULL)").fetchone()


def main(words):
    at = words.index("without") if "without" in words else len(words)
    bookings, earlier = words[1:at], words[at + 1:]
    numbers = all(word.isascii() and word.isdigit() and int(word) < 2**63 for word in bookings + earlier)
    if not bookings or not numbers or at < len(words) and not earlier:
        print(__doc__.split("\n\n")[1], file=sys.stderr)
        return 2
    try:
        settings = read_settings(words[0])
        desk = Desk(settings.store, settings.secret_of("secret"))
    except (BadInput, OSError) as error:
        print(error, file=sys.stderr)
        return 1
    roll = Roll(desk)
    for booking in map(int, bookings):
        if earlier and not desk.withhold(booking, map(int, earlier)):
            print(f"{booking}: the bookings {' '.join(earlier)} were shown no item", file=sys.stderr)
            return 1
        with roll.acting("command line", f"user {os.getuid()} of this machine", "new-code", booking, " ".join(words[at:])):
            code = desk.issue(booking)
        print(booking, code)
    return 0


if __name__ == "__main__":
    sys.exit(main(sys.argv[1:]))
