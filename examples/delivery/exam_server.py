"""The client of shadowd: each request may be sent again, and a reply that was lost is asked for again."""
import http.client
import json
import threading
import time
from typing import NamedTuple

TRIES, PAUSE = 3, 0.2


class Away(Exception):
    """No reply that counts. What was asked may be recorded or not, and is to be asked again."""


class Refused(Exception):
    """A rule of the examination refused the request."""

    def __init__(self, error, value=None):
        super().__init__(f"{error} {value}")
        self.error, self.value = error, value


class Place(NamedTuple):
    """Where a session is: `waiting` at a step with its item, `complete` or `closed`."""
    session: int
    state: str
    step: int = 0
    item: int = 0


class ExamServer:
    """`connections` requests are under way at a time; others wait here, and not in the server's queue. With a token each has it."""

    def __init__(self, address, connections, patience, token=""):
        self.address, self.room, self.patience = address, threading.BoundedSemaphore(connections), patience
        self.fields = {"Connection": "close", **({"Authorization": f"Bearer {token}"} if token else {})}

    def begin(self, booking, without=()):
        """Starts the session of a booking, or finds it. Its examinee never gets the items of `without`."""
        return self.place("/sessions", {"booking": booking, **({"without": list(without)} if without else {})})

    def answer(self, session, step, response, booking):
        """Records the response to the item of a step. If it is recorded already, the reply is the place now.

        `Refused` with `other-booking` or `no-session`: the server has lost this session of the booking, which has to begin again.
        """
        return self.place(f"/sessions/{session}/answers", {"step": step, "response": response, "booking": booking})

    def close(self, session, booking):
        """Closes a session before its end. `Refused` with `is-closed` if it has ended, else as for an answer."""
        return self.place(f"/sessions/{session}/close", {"booking": booking})

    def exposure(self):
        """The number of finished sessions, and by item in how many of them it was shown."""
        found = self.ask("GET", "/exposure")[1]
        return found["finished"], [row[0] for row in found["rows"]]

    def health(self):
        """Whether the server is well, with the numbers that it gives; None if it has no such route."""
        status, found = self.once("GET", "/health", None)
        return None if status == 404 else (status == 200, found)

    def place(self, path, body):
        for _ in range(TRIES):
            status, found = self.ask("POST", path, body)
            if status not in (200, 201):
                raise Refused(found.get("error"), found.get("value"))
            if found["state"] != "pending":
                return Place(**{name: found[name] for name in Place._fields if name in found})
            time.sleep(PAUSE)  # another caller is moving the session on
        raise Away("the session stays pending")

    def ask(self, method, path, body=None):
        for left in reversed(range(TRIES)):
            try:
                status, found = self.once(method, path, body)
                if status in (200, 201, 404, 409, 422):
                    return status, found
                raise Away(f"{status} {found}")
            except Away:
                if not left:
                    raise
                time.sleep(PAUSE)

    def once(self, method, path, body):
        """Status and body of one try, on a connection of its own."""
        if not self.room.acquire(timeout=self.patience):
            raise Away("too many requests at a time")
        connection = http.client.HTTPConnection(self.address, timeout=self.patience)
        try:
            connection.request(method, path, None if body is None else json.dumps(body), self.fields)
            reply = connection.getresponse()
            return reply.status, dict(json.loads(reply.read()))
        except (OSError, http.client.HTTPException, ValueError, TypeError) as error:
            raise Away(f"{type(error).__name__}: {error}") from error
        finally:
            connection.close()
            self.room.release()
