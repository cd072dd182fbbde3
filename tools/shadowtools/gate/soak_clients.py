"""The clients of soak.py. Each names its booking in each answer and each closing, and notes each request with what came of it."""
import random
import socket
import threading
import time
from dataclasses import dataclass
from typing import Any, Callable, Dict, List, Optional, Tuple

from shadowtools.gate import exam_client
from shadowtools.gate.exam_client import Connection, Lost
from shadowtools.gate.kill_follow import Wrong

LIMIT = 90  # seconds for each wait
PAUSE = 0.25  # seconds at most between two requests of a client, in a run of no more than QUICK minutes
QUICK = 30  # minutes in which the clients begin fewer sessions than a plan may have; in a longer run they wait longer
AGAIN = 0.05  # seconds before a request is sent again
RANGE = 1_000_000_000  # bookings of a client
GONE = {"no-session", "other-booking", "wrong-step"}  # refusals after a take-over: the client begins again
HEALTH = exam_client.request_bytes("GET", "/health")
EXPOSURE = exam_client.request_bytes("GET", "/exposure")
GIVEN_UP = "given up"  # the body of an exchange whose reply was not read
SLOW = 40  # pieces of a message that is sent slowly, and is whole before a limit of time


class Over(Exception):
    """The load has ended."""


@dataclass(frozen=True)
class Asked:
    """A request. `session`, `step` and `response` are None where it has none."""
    kind: str
    booking: int
    session: Optional[int] = None
    step: Optional[int] = None
    response: Optional[int] = None

    def message(self) -> bytes:
        if self.kind == "begin":
            return exam_client.begin(self.booking)
        if self.kind == "answer":
            return exam_client.answer(self.session, self.step, self.response, self.booking)
        if self.kind == "close":
            return exam_client.close(self.session, self.booking)
        return exam_client.request_bytes("GET", f"/sessions/{self.session}") if self.kind == "look" else HEALTH


@dataclass(frozen=True)
class Exchange:
    """A request to the leader of an epoch, and what came of it: the status is 0 where no response came. The times are those at which its
    connection was made, it was sent, and the response was read or the connection was lost."""
    client: str
    asked: Asked
    epoch: int
    opened: float
    sent: float
    ended: float
    status: int
    body: Any

    @property
    def error(self) -> Optional[str]:
        return self.body.get("error") if isinstance(self.body, dict) else None


class Place:
    """Where the leader is, which the clients ask before each connection: the epoch, which each take-over ends, and the address."""

    def __init__(self, token: str, minutes: float = 0) -> None:
        self.pause = PAUSE * max(1, minutes / QUICK)
        self.token, self.log, self.over, self.cut = token, [], threading.Event(), threading.Event()
        self.epoch, self.address, self.follower = 0, None, None

    def leads(self, address: Tuple[str, int], epoch: int) -> None:
        self.address, self.epoch = address, epoch

    def rest(self, seconds: float) -> None:
        if self.over.wait(seconds):
            raise Over


class Client(threading.Thread):
    """Sessions one after another, over one connection as long as it is there."""

    KIND = "plain"

    def __init__(self, place: Place, number: int, seed: int) -> None:
        super().__init__(daemon=True)
        self.place, self.draw, self.fault = place, random.Random(seed), None
        self.booking, self.connection, self.epoch, self.opened = RANGE * (number + 1), None, 0, 0.0

    def run(self) -> None:
        try:
            while not self.place.over.is_set():
                self.turn()
                self.pause()
        except Over:
            pass
        except Exception as fault:  # any failure of a client ends the soak
            self.fault = f"a {self.KIND} client: {fault!r}"
        self.leave()

    def turn(self) -> None:
        self.session(self.next_booking())

    def pause(self) -> None:
        self.place.rest(self.draw.random() * self.place.pause)

    def next_booking(self) -> int:
        self.booking += 1
        return self.booking

    # ------------------------------------------------------------ requests

    def leave(self) -> None:
        if self.connection:
            self.connection.close()
        self.connection = None

    def connected(self) -> Connection:
        if self.connection is None:
            address = self.place.address
            if address is None:
                raise Lost
            self.epoch = self.place.epoch
            self.opened = time.monotonic()
            self.connection = Connection(address, LIMIT)
        return self.connection

    def note(self, asked: Asked, sent: float, status: int, body: Any) -> Exchange:
        exchange = Exchange(self.KIND, asked, self.epoch, self.opened, sent, time.monotonic(), status, body)
        self.place.log.append(exchange)
        return exchange

    def ask(self, asked: Asked) -> Optional[Exchange]:
        """One try. None where there is no leader to connect to."""
        try:
            connection = self.connected()
        except Lost:
            self.leave()
            return None
        sent = time.monotonic()
        try:
            status, body = connection.ask(exam_client.bearing(asked.message(), self.place.token))
        except Lost:
            self.leave()
            status, body = 0, None
        return self.note(asked, sent, status, body)

    def reply(self, asked: Asked) -> Exchange:
        """The reply, of this leader or the next: a request without one, or that the disk failed, is sent again."""
        until = time.monotonic() + LIMIT
        while time.monotonic() < until:
            exchange = self.ask(asked)
            if exchange and exchange.status not in (0, 503):
                return exchange
            self.place.rest(AGAIN)
        raise Wrong(f"no reply in {LIMIT} s to {asked}")

    # ------------------------------------------------------------ sessions

    def begun(self, booking: int) -> Dict[str, Any]:
        """The place of a booking's session."""
        exchange = self.reply(Asked("begin", booking))
        if exchange.status not in (200, 201):
            raise Wrong(f"{exchange}")
        return exchange.body

    def session(self, booking: int) -> None:
        place = self.begun(booking)
        while place["state"] in ("waiting", "pending"):
            self.pause()
            place = self.answered(booking, place) if place["state"] == "waiting" else self.begun(booking)

    def answered(self, booking: int, place: Dict[str, Any]) -> Dict[str, Any]:
        """The place after an answer. Where another leader lacks the session or its last answers, the booking begins again."""
        return self.after(booking, self.reply(self.answer_at(booking, place)))

    def answer_at(self, booking: int, place: Dict[str, Any]) -> Asked:
        return Asked("answer", booking, place["session"], place["step"], self.draw.randrange(2))

    def after(self, booking: int, exchange: Exchange) -> Dict[str, Any]:
        if exchange.status == 200:
            return exchange.body
        if exchange.error in GONE | self.taken():
            return self.begun(booking)
        raise Wrong(f"{exchange}")

    def taken(self) -> set:
        """The refusals that this client may get beside those after a take-over."""
        return set()


class Retrying(Client):
    """Each request on a connection of its own. Some are given up before the reply is read, and some are sent again after it."""

    KIND = "retrying"

    def ask(self, asked: Asked) -> Optional[Exchange]:
        if self.draw.random() < 0.2:
            self.give_up(asked)
        exchange = super().ask(asked)
        self.leave()
        return exchange

    def give_up(self, asked: Asked) -> None:
        try:
            connection = self.connected()
        except Lost:
            self.leave()
            return
        sent = time.monotonic()
        try:
            connection.socket.sendall(exam_client.bearing(asked.message(), self.place.token))
            time.sleep(self.draw.random() * 0.01)
        except OSError:
            pass  # it may have been sent in part
        self.note(asked, sent, 0, GIVEN_UP)
        self.leave()

    def answered(self, booking: int, place: Dict[str, Any]) -> Dict[str, Any]:
        asked = self.answer_at(booking, place)
        found = self.after(booking, self.reply(asked))
        return self.after(booking, self.reply(asked)) if self.draw.random() < 0.3 else found

    def taken(self) -> set:
        return {"is-closed"}


class Twin(Client):
    """Two connections answer each step of a session at the same moment, each as it likes: one of the two is recorded."""

    KIND = "twin"

    def __init__(self, place: Place, number: int, seed: int) -> None:
        super().__init__(place, number, seed)
        self.other = Client(place, number, seed + 1)
        self.other.KIND = self.KIND

    def answered(self, booking: int, place: Dict[str, Any]) -> Dict[str, Any]:
        asked, others = self.answer_at(booking, place), self.other.answer_at(booking, place)
        beside = threading.Thread(target=self.other.ask, args=(others,), daemon=True)
        beside.start()
        found = self.reply(asked)
        beside.join(LIMIT)
        return self.after(booking, found)

    def taken(self) -> set:
        return {"other", "is-closed"}

    def leave(self) -> None:
        super().leave()
        self.other.leave()


class Closing(Client):
    """Closes its sessions, before an answer or after one."""

    KIND = "closing"

    def turn(self) -> None:
        booking = self.next_booking()
        place = self.begun(booking)
        if self.draw.random() < 0.5 and place["state"] == "waiting":
            place = self.answered(booking, place)
        exchange = self.reply(Asked("close", booking, place["session"]))
        if exchange.status != 200 and exchange.error not in GONE | {"is-closed"}:
            raise Wrong(f"{exchange}")


class Looking(Client):
    """Looks at the health, and at sessions of others."""

    KIND = "looking"

    def turn(self) -> None:
        self.ask(Asked("health", 0))
        known = [one for one in self.place.log[-50:] if one.asked.session is not None and one.epoch == self.epoch]
        if known:
            one = self.draw.choice(known).asked
            self.ask(Asked("look", one.booking, one.session))


class Late(Client):
    """Begins a session whose records the follower never gets, and sends its answer and its closing to the next leader, once somebody has
    the number there. Then it begins again, and takes its session to the end."""

    KIND = "late"
    TURN = 20  # seconds for a number to be given out again

    def __init__(self, place: Place, number: int, seed: int) -> None:
        super().__init__(place, number, seed)
        self.holds_old = False

    def turn(self) -> None:
        if self.place.cut.wait(AGAIN):
            self.holds_old = True
            self.keep_old(self.next_booking())
            self.holds_old = False

    def keep_old(self, booking: int) -> None:
        epoch, place = self.place.epoch, self.begun(booking)
        if self.epoch == epoch:
            self.stay_away(epoch)
            self.await_number(booking, place["session"])
            for asked in (self.answer_at(booking, place), Asked("close", booking, place["session"])):
                self.after_late(self.reply(asked))
        self.session(booking)

    def stay_away(self, epoch: int) -> None:
        while self.place.epoch == epoch:
            self.place.rest(AGAIN)

    def await_number(self, booking: int, session: int) -> None:
        until = time.monotonic() + self.TURN
        while time.monotonic() < until and self.reply(Asked("look", booking, session)).status != 200:
            self.place.rest(AGAIN)

    def after_late(self, exchange: Exchange) -> None:
        if exchange.status != 200 and exchange.error not in GONE | {"is-closed", "other"}:
            raise Wrong(f"{exchange}")


class Slow(Client):
    """Sends each message in pieces, in less time than a message may take."""

    KIND = "slow"

    def ask(self, asked: Asked) -> Optional[Exchange]:
        try:
            connection = self.connected()
        except Lost:
            self.leave()
            return None
        data = exam_client.bearing(asked.message(), self.place.token)
        size, sent = len(data) // SLOW + 1, time.monotonic()
        try:
            for at in range(0, len(data), size):
                connection.socket.sendall(data[at:at + size])
                time.sleep(0.05)
            status, body = connection.ask(b"")
        except (Lost, OSError):
            self.leave()
            status, body = 0, None
        return self.note(asked, sent, status, body)


# ---------------------------------------------------------------- clients without a request

def stays(draw: random.Random, token: str) -> bytes:
    """A message that asks to close the connection, by a client that does not close it."""
    return exam_client.bearing(HEALTH, token).replace(b"\r\n\r\n", b"\r\nConnection: close\r\n\r\n", 1)


def in_head(draw: random.Random, token: str) -> bytes:
    return HEALTH[:draw.randrange(1, len(HEALTH))]


def in_body(draw: random.Random, token: str) -> bytes:
    return exam_client.bearing(exam_client.begin(7), token)[:-draw.randrange(1, 12)]


def unread(draw: random.Random, token: str) -> bytes:
    return exam_client.bearing(EXPOSURE, token) * 2000


def silent(draw: random.Random, token: str) -> bytes:
    return b""


AT_FOLLOWER = "silent at the follower"
BURDENS = {"stays after Connection: close": stays, "stops within a head": in_head, "stops within a body": in_body, "reads nothing": unread, "silent": silent}


class Burden(threading.Thread):
    """Holds so many connections of each kind that dawdles, and some silent ones at the follower. Each ends after a while, and another comes."""

    EACH = 6
    MOST_AT_FOLLOWER = 4
    LONGEST = 8  # seconds

    def __init__(self, place: Place, seed: int) -> None:
        super().__init__(daemon=True)
        self.place, self.draw, self.fault, self.seen = place, random.Random(seed), None, {name: 0 for name in [*BURDENS, AT_FOLLOWER]}
        self.held: List[Tuple[float, str, socket.socket]] = []

    def run(self) -> None:
        while not self.place.over.wait(0.1):
            self.turn()
        self.drop(lambda until, kind: True)

    def turn(self) -> None:
        now = time.monotonic()
        self.drop(lambda until, kind: until <= now)
        for name, bytes_of in BURDENS.items():
            if sum(kind == name for _, kind, _ in self.held) < self.EACH:
                self.hold(name, self.place.address, bytes_of(self.draw, self.place.token))
        if sum(kind == AT_FOLLOWER for _, kind, _ in self.held) < self.MOST_AT_FOLLOWER:
            self.hold(AT_FOLLOWER, self.place.follower, b"")

    def hold(self, name: str, address: Optional[Tuple[str, int]], data: bytes) -> None:
        if address is None:
            return
        try:
            one = socket.create_connection(address, 1)
            one.setblocking(False)
        except OSError:
            return
        self.held.append((time.monotonic() + self.draw.random() * self.LONGEST, name, one))
        self.seen[name] += 1
        try:
            one.send(data)
        except OSError:
            pass  # it takes a part of what is sent, or has ended

    def drop(self, is_over: Callable[[float, str], bool]) -> None:
        for until, kind, one in self.held:
            if is_over(until, kind):
                one.close()
        self.held = [held for held in self.held if not is_over(*held[:2])]


KINDS = [Client, Client, Client, Retrying, Twin, Closing, Looking, Late, Late, Slow]


def clients_of(place: Place, draw: random.Random) -> List[Client]:
    return [kind(place, number, draw.randrange(1 << 30)) for number, kind in enumerate(KINDS)]
