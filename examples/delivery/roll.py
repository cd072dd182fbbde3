"""The roll of an examination: one line for each booking, from the application's own file, and the log of what staff did."""
import contextlib
from typing import NamedTuple

STATES = ("code issued", "signed in", "open", "paused", "ending", "complete", "closed")
LINES = 200  # on a page
QUIET = 180  # seconds without an answer, after which the line is marked
TABLES = """
CREATE TABLE IF NOT EXISTS actions (at TEXT NOT NULL, user TEXT NOT NULL, name TEXT NOT NULL, what TEXT NOT NULL, booking INTEGER NOT NULL,
    before TEXT NOT NULL, after TEXT NOT NULL, note TEXT NOT NULL);
CREATE TRIGGER IF NOT EXISTS actions_stay BEFORE UPDATE ON actions BEGIN SELECT RAISE(ABORT, 'the log of actions is append only'); END;
CREATE TRIGGER IF NOT EXISTS actions_are_kept BEFORE DELETE ON actions BEGIN SELECT RAISE(ABORT, 'the log of actions is append only'); END;
CREATE INDEX IF NOT EXISTS codes_of_bookings ON codes (booking, used_at);
CREATE INDEX IF NOT EXISTS answers_of_bookings ON answers (booking, kept_at, given_at);
"""
ROLL = """
SELECT b.booking,
    CASE WHEN e.state = 'complete' THEN 'complete' WHEN e.state = 'closed' THEN 'closed' WHEN e.booking IS NOT NULL THEN 'ending'
         WHEN s.begun_at IS NULL THEN iif(s.booking IS NULL, 'code issued', 'signed in')
         WHEN c.paused_at IS NOT NULL THEN 'paused' ELSE 'open' END AS state,
    e.why AS why, d.unused AS unused, d.used_at AS used_at, s.begun_at AS begun_at, ifnull(a.answered, 0) AS answered,
    ifnull(a.on_its_way, 0) AS on_its_way, unixepoch('now') - unixepoch(ifnull(a.last, s.begun_at)) AS quiet,
    ifnull(c.extra, 0) AS extra, c.ends_at - ifnull(c.paused_at, ?1) AS left
FROM (SELECT booking FROM codes UNION SELECT booking FROM seats) b
LEFT JOIN (SELECT booking, sum(used_at IS NULL) AS unused, max(used_at) AS used_at FROM codes GROUP BY booking) d ON d.booking = b.booking
LEFT JOIN seats s ON s.booking = b.booking
LEFT JOIN clocks c ON c.booking = b.booking
LEFT JOIN endings e ON e.booking = b.booking
LEFT JOIN (SELECT booking, count(kept_at) AS answered, count(given_at) - count(kept_at) AS on_its_way, max(given_at) AS last
           FROM answers GROUP BY booking) a ON a.booking = b.booking
"""
ORDERS = {"booking": "booking", "state": "state", "code": "used_at", "begun": "begun_at", "answered": "answered",
          "quiet": "iif(state = 'open', quiet, NULL)", "left": "iif(state IN ('open', 'paused'), left, NULL)", "extra": "extra"}


class Line(NamedTuple):
    """A booking. Times are texts in UTC, `quiet`, `extra` and `left` are seconds; `left` is None without a limit or before the begin."""
    booking: int
    state: str
    why: str | None
    unused: int
    used_at: str | None
    begun_at: str | None
    answered: int
    on_its_way: int
    quiet: float | None
    extra: float
    left: float | None

    @property
    def is_quiet(self):
        return self.state == "open" and self.quiet is not None and self.quiet > QUIET

    @property
    def has_ended(self):
        return self.state in ("ending", "complete", "closed")


class Choice(NamedTuple):
    """Which lines of the roll: those of a state whose booking has these digits, in an order, from the first line of a page."""
    state: str = ""
    text: str = ""
    order: str = "booking"
    down: bool = False
    page: int = 1


def spell(seconds):
    """A span of time as minutes and seconds, or hours and minutes."""
    whole, sign = abs(round(seconds)), "-" if seconds < 0 else ""
    return f"{sign}{whole // 3600} h {whole // 60 % 60:02} min" if whole >= 6000 else f"{sign}{whole // 60}:{whole % 60:02}"


class Roll:
    def __init__(self, desk):
        self.desk = desk
        with desk.opened() as file:
            file.executescript(TABLES)

    def lines(self, choice):
        """The lines of a choice, and how many bookings there are by state among those that have its digits."""
        order = f"{ORDERS[choice.order]} {'DESC' if choice.down else 'ASC'}"
        found = f"SELECT * FROM ({ROLL}) WHERE CAST(booking AS TEXT) LIKE '%' || ?2 || '%'"
        with self.desk.opened() as file:
            counts = dict(file.execute(f"SELECT state, count(*) FROM ({found}) GROUP BY state", (self.desk.now(), choice.text)))
            rows = file.execute(f"{found} AND ?3 IN ('', state) ORDER BY {order} NULLS LAST, booking LIMIT ?4 OFFSET ?5",
                                (self.desk.now(), choice.text, choice.state, LINES, (choice.page - 1) * LINES))
            return [Line(*row) for row in rows], counts

    def line(self, booking):
        """The line of a booking, or None."""
        with self.desk.opened() as file:
            found = file.execute(f"SELECT * FROM ({ROLL}) WHERE booking = ?2", (self.desk.now(), booking)).fetchone()
        return Line(*found) if found else None

    def summary(self, booking):
        """How a booking is, in words for the log."""
        line = self.line(booking)
        if line is None:
            return "not known"
        left = "no limit" if line.left is None else f"{spell(line.left)} left"
        ended = f" ({line.why})" if line.why else ""
        code = "code unused" if line.unused else f"code used at {line.used_at[11:19]}" if line.used_at else "no code"
        return f"{line.state}{ended}, {line.answered} answered, {left}, extra {spell(line.extra)}, {code}"

    @contextlib.contextmanager
    def acting(self, user, name, what, booking, note):
        """Writes to the log, in one transaction with what is done in the block, how the booking was before and after it."""
        with self.desk.together() as file:
            before = self.summary(booking)
            yield
            file.execute("INSERT INTO actions VALUES (strftime('%Y-%m-%dT%H:%M:%fZ'), ?, ?, ?, ?, ?, ?, ?)",
                         (user, name, what, booking, before, self.summary(booking), note))

    def actions(self, page, booking=None):
        """The log, the newest first, of one booking or of all; and how many entries it has."""
        with self.desk.opened() as file:
            chosen = "FROM actions WHERE ?1 IS NULL OR booking = ?1"
            rows = file.execute(f"SELECT at, user, name, what, booking, before, after, note {chosen} ORDER BY rowid DESC LIMIT ?2 OFFSET ?3",
                                (booking, LINES, (page - 1) * LINES)).fetchall()
            return rows, file.execute(f"SELECT count(*) {chosen}", (booking,)).fetchone()[0]
