"""The adapter's own file: sections, sessions with their bookings, and by step the item that was given and the response to it."""
import contextlib
import json
import os
import secrets
import sqlite3
import threading
from typing import NamedTuple

TABLES = """
PRAGMA journal_mode = WAL;
CREATE TABLE IF NOT EXISTS sections (id TEXT PRIMARY KEY, examination TEXT NOT NULL, configuration TEXT NOT NULL,
    deleted INTEGER NOT NULL DEFAULT 0);
CREATE TABLE IF NOT EXISTS sessions (id TEXT PRIMARY KEY, section TEXT NOT NULL, examination TEXT NOT NULL,
    booking INTEGER NOT NULL, without TEXT NOT NULL, session INTEGER, state TEXT NOT NULL DEFAULT 'waiting',
    deleted INTEGER NOT NULL DEFAULT 0, UNIQUE (examination, booking));
CREATE TABLE IF NOT EXISTS steps (id TEXT, step INTEGER, item INTEGER NOT NULL, response INTEGER, PRIMARY KEY (id, step));
"""


class Sitting(NamedTuple):
    """A session of a player: its section, its booking and list at shadowd, the number that it has there, and its state, which is
    `waiting`, `complete` or `closed`."""
    id: str
    section: str
    examination: str
    booking: int
    without: list
    session: int | None
    state: str


class Step(NamedTuple):
    step: int
    item: int
    response: int | None


class Records:
    def __init__(self, path):
        self.path, self.own = path, threading.local()
        os.close(os.open(path, os.O_CREAT | os.O_RDWR, 0o600))
        with self.opened() as file:
            file.executescript(TABLES)

    @contextlib.contextmanager
    def opened(self):
        """The connection of this thread, with one transaction, which is on the disk at the end of the block."""
        if not hasattr(self.own, "file"):
            self.own.file = sqlite3.connect(self.path, timeout=10)
        with self.own.file as file:
            yield file

    def add_section(self, examination, configuration):
        identifier = secrets.token_hex(16)
        with self.opened() as file:
            file.execute("INSERT INTO sections (id, examination, configuration) VALUES (?, ?, ?)", (identifier, examination, configuration))
        return identifier

    def section(self, identifier):
        """The examination and the configuration of a section, or None."""
        with self.opened() as file:
            return file.execute("SELECT examination, configuration FROM sections WHERE id = ? AND NOT deleted", (identifier,)).fetchone()

    def delete_section(self, identifier):
        with self.opened() as file:
            file.execute("UPDATE sections SET deleted = 1 WHERE id = ?", (identifier,))

    def add_sitting(self, section, examination, first_booking, without):
        """A new session of a player, with the next booking of its examination."""
        identifier = secrets.token_hex(16)
        with self.opened() as file:
            file.execute("INSERT INTO sessions (id, section, examination, booking, without) SELECT ?1, ?2, ?3, "
                         "max(?4, ifnull((SELECT max(booking) + 1 FROM sessions WHERE examination = ?3), 0)), ?5",
                         (identifier, section, examination, first_booking, json.dumps(without)))
        return self.sitting(section, identifier)

    def sitting(self, section, identifier):
        """The session of a section with this identifier, or None."""
        with self.opened() as file:
            found = file.execute("SELECT id, section, examination, booking, without, session, state FROM sessions "
                                 "WHERE id = ? AND section = ? AND NOT deleted", (identifier, section)).fetchone()
        return Sitting(*found)._replace(without=json.loads(found[4])) if found else None

    def delete_sitting(self, identifier):
        with self.opened() as file:
            file.execute("UPDATE sessions SET deleted = 1 WHERE id = ?", (identifier,))

    def note(self, identifier, place, answered=None):
        """Notes, in one transaction, a response that shadowd has acknowledged and the place of the session after it."""
        with self.opened() as file:
            if answered is not None:
                file.execute("UPDATE steps SET response = ? WHERE id = ? AND step = ?", (answered.response, identifier, answered.step))
            if place.state == "waiting":
                file.execute("INSERT INTO steps (id, step, item) VALUES (?, ?, ?) ON CONFLICT (id, step) DO UPDATE SET item = excluded.item "
                             "WHERE response IS NULL", (identifier, place.step, place.item))
            file.execute("UPDATE sessions SET state = ?, session = ? WHERE id = ?", (place.state, place.session, identifier))

    def steps(self, identifier):
        with self.opened() as file:
            return [Step(*row) for row in file.execute("SELECT step, item, response FROM steps WHERE id = ? ORDER BY step", (identifier,))]
