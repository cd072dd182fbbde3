"""The cases of torture.py that speak HTTP: one connection after another, byte for byte, and many at
once.

What each message gets is decided by `message_model` and `reply_model`, which share nothing with the
product.
"""
import json
import os
import socket
import struct
import threading
import time

from shadowtools.gate import exam_client
from shadowtools.checkers import message_model
from shadowtools.checkers import reply_model
from shadowtools.gate import torture_draws as draws
from shadowtools.agency.drivers import Server
from shadowtools.checkers.message_model import Fault
from shadowtools.checkers.reply_model import Missing, Surprise
from shadowtools.gate.torture_cases import LIMIT, Exam, demand, shown

WORKERS, MOST_WORKERS = 12, 16


def connect(address):
    connection = socket.create_connection(address, LIMIT)
    connection.setsockopt(socket.IPPROTO_TCP, socket.TCP_NODELAY, 1)
    return connection


def exchange(address, parts, pause):
    """Writes the parts, ends the writing, and reads to the end: what was read, and whether the
    connection was reset."""
    said = b""
    with connect(address) as connection:
        try:
            for part in parts:
                connection.sendall(part)
                time.sleep(pause)
            connection.shutdown(socket.SHUT_WR)
        except OSError:
            pass  # the server has ended the connection; what it wrote is read below
        try:
            while more := connection.recv(65536):
                said += more
        except TimeoutError as late:
            raise Surprise(f"no end of a connection in {LIMIT} s; so far {shown(said)}") from late
        except OSError:
            return said, True
    return said, False


# ---------------------------------------------------------------- one connection after another

def stream(draw, lines, hostile, token=b""):
    """The bytes of a connection that asks for these requests, and for the health between them."""
    data = b""
    for line in lines:
        data += draws.health(draw, token) if draw.random() < 0.1 else b""
        data += draws.message(draw, line, token)
    return draws.damaged(draw, data) if draw.random() < hostile else data


class Responses:
    """What a connection was answered, beside the model. `token` is that of the server, empty if it has none."""

    def __init__(self, exam, model, said, limited, token=b""):
        self.exam, self.model, self.left, self.limited, self.token = exam, model, said, limited, token

    def next_of(self, message):
        """The response that a message has to get."""
        asked = message_model.asked(message, self.token)
        if isinstance(asked, str):
            return message_model.error(asked, message.close)
        if asked.kind == "health":
            return message_model.response(*self.health(), message.close)
        try:
            status, body = reply_model.response_of(self.model.reply(asked))
        except Missing as missing:
            status, body = 507, {"error": "journal-full"}
            if self.limited and b'{"error":"disk"}' in self.left[:200]:
                status, body = 503, {"error": "disk"}
            else:
                body["value"] = self.full(missing)
        return message_model.response(status, body, message.close)

    def health(self):
        """The status and the body of a look at the health after the requests so far. How many workers are busy is taken from the
        response. With a full disk it may be that of a disk that fails."""
        found = exam_client.split_reply(self.left)
        if self.limited and found and found[0][0] == 503:
            return 503, {"error": "disk"}
        busy = found[0][1].get("busy") if found and isinstance(found[0][1], dict) else None
        demand(is_busy(busy), f"for the health: {shown(self.left)}")
        return 200, {"busy": busy, **health_after(self.model, self.model.taken)}

    def full(self, missing):
        """The length that a refusal for a full journal names, if it may be that."""
        found = exam_client.split_reply(self.left)
        value = found[0][1].get("value") if found else None
        demand(isinstance(value, int) and value > self.exam.rules.journal,
               f"no entry for a request, and the response is {shown(self.left)}")
        size = reply_model.length_of(self.model.records[:self.model.taken])
        least = size + 5 + missing.least
        demand(value == least if missing.exact else value >= least,
               f"full at {value}, where the journal has {size} bytes")
        return value

    def judge(self, data, reset):
        """All responses of a connection that got these bytes."""
        for one in message_model.messages(data):
            if isinstance(one, Fault):
                wanted = [b"" if word is None else message_model.error(word, True)
                          for word in one.words]
                demand(self.left in wanted or reset
                       and any(text.startswith(self.left) for text in wanted),
                       f"for bytes that are no message wanted {one.words}, got {shown(self.left)}")
                return
            text = self.next_of(one)
            demand(self.left.startswith(text),
                   f"for {one} wanted {shown(text)}, got {shown(self.left)}")
            self.left = self.left[len(text):]
        demand(self.left == b"", f"after the last response: {shown(self.left)}")


def is_busy(value):
    """Whether so many workers may serve a connection, of which one asks."""
    return isinstance(value, int) and not isinstance(value, bool) and 1 <= value <= MOST_WORKERS


def health_after(model, count):
    """The numbers of a look at the health after so many records of a journal that were taken."""
    return {"entries": count, "open": model.opens[count],
            "room": model.rules.journal - reply_model.length_of(model.records[:count])}


def messages(case):
    """Connections one after another to a server that ends after the last."""
    draw = case.draw
    exam, token = Exam(case, *draws.any_exam(draw, 0.02)), draws.token(draw)
    exam.assemble()
    lines = list(draws.requests(draw, draw.randrange(1, 60), exam.problem.plan.length))
    streams = []
    while lines and len(streams) < 15:
        count = draw.choice([1, 2, 5, len(lines)])
        streams.append(stream(draw, lines[:count], 0.3, token))
        lines = lines[count:]
    spoken, pause = [draws.pieces(draw, data) for data in streams], draw.choice([0, 0, 0.0002])
    case.write("streams.json", json.dumps([data.decode("latin-1") for data in streams]).encode())
    limited = draw.random() < 0.2
    program = full_disk(case, draw.randrange(1, 6)) if limited else case.program
    if exam.halt and b"base" not in exam.plan.lines:
        exam.serve_nobody()
        return
    server = Server(program, *map(case.path, exam.words), case.path("journal"), len(streams),
                    token.decode("ascii"))
    try:
        answers = [exchange(server.address, parts, pause) for parts in spoken]
        said = server.end(LIMIT)
    finally:
        server.process.kill()
    case.write("answers.json", json.dumps([text.decode("latin-1") for text, _ in answers]).encode())
    judge_messages(exam, streams, answers, (server.process.returncode, said), limited, token)
    exam.serve_nobody()
    exam.audit()


def full_disk(case, blocks):
    """The program with a journal of at most so many blocks of 512 bytes: a write beyond fails."""
    text = f"#!/bin/sh\ntrap '' XFSZ\nulimit -f {blocks}\nexec '{case.program}' \"$@\"\n"
    name = case.path(case.write("limited.sh", text.encode()))
    os.chmod(name, 0o700)
    return name


def judge_messages(exam, streams, answers, end, limited, token):
    """The responses of all connections, the journal that is left, and the end of the server."""
    records, kept = reply_model.records_of(exam.case.read("journal") or b"")
    model = reply_model.Model(exam.rules, records)
    for data, (text, reset) in zip(streams, answers):
        Responses(exam, model, text, limited, token).judge(data, reset)
    demand(model.taken == len(records),
           f"the journal has {len(records) - model.taken} entries that no request adds")
    demand(end == (0, reply_model.summary(model.history)[0]),
           f"serve ended with status and line {end}")
    demand(limited or exam.case.read("journal") == kept, "the journal has bytes after its end")


# ---------------------------------------------------------------- many connections at once

class Caller(threading.Thread):
    """A client with connections that were drawn before: each is written in pieces, and read to its
    end or left early.

    A connection that is lost at a kill is not asked again. `heard` has the bytes of each
    connection, what it was answered, and whether all of it must have been answered, since it was
    read to its end and no kill came between."""

    def __init__(self, crowd, plans):
        super().__init__(daemon=True)
        self.crowd, self.plans, self.heard, self.fault = crowd, plans, [], None

    def run(self):
        try:
            for parts, way in self.plans:
                since = self.crowd.lives
                said = self.speak(parts, way)
                self.heard.append((b"".join(parts), said, way == "whole" and since is not None
                                   and since == self.crowd.lives))
        except Exception as fault:  # raised again by `drive`
            self.fault = fault

    def speak(self, parts, way):
        """What a connection was answered. `way` is how it ends: `whole`, `leave` after some pieces,
        `reset`, or `mute` without reading."""
        try:
            if way == "whole":
                return exchange(self.crowd.address, parts, 0)[0]
            with connect(self.crowd.address) as connection:
                for part in parts[:1 + len(parts) // 2] if way == "leave" else parts:
                    connection.sendall(part)
                connection.settimeout(0.1)
                said = connection.recv(65536) if way == "reset" else b""
                if way != "leave":
                    connection.setsockopt(socket.SOL_SOCKET, socket.SO_LINGER,
                                          struct.pack("ii", 1, 0))
                return said
        except OSError:
            time.sleep(0.01)  # the server is gone, ends the connection, or waits for more
            return b""


class Crowd:
    """A server that callers speak to, and that is killed and started again meanwhile. `lives`
    counts its starts, and is None while it is down."""

    def __init__(self, case, exam, token):
        self.case, self.exam, self.starts, self.token = case, exam, 0, token.decode("ascii")
        self.address = self.server = self.lives = None

    def start(self):
        words = [self.case.path(name) for name in (*self.exam.words, "journal")]
        try:
            self.server = exam_client.Server([self.case.program], *words, workers=WORKERS,
                                             wait=LIMIT, token=self.token)
        except RuntimeError as fault:
            raise Surprise(f"serve did not start again: {fault}") from fault
        self.address, self.starts = self.server.address, self.starts + 1
        self.lives = self.starts

    def drive(self, callers, pauses):
        """Starts the callers, kills and starts the server after each pause, and waits for them."""
        for caller in callers:
            caller.start()
        for pause in pauses:
            time.sleep(pause)
            self.lives = None
            self.server.kill()
            self.start()
        for caller in callers:
            caller.join(LIMIT * 3)
            demand(not caller.is_alive(), "a caller waits for ever")
            if caller.fault:
                raise Surprise(f"a caller: {caller.fault!r}")
        self.server.kill()


def plans_of(draw, begun, length, token):
    """The connections of a caller: what is written, in pieces, and how each ends."""
    lines = list(draws.requests(draw, draw.randrange(10, 40), length, begun))
    plans = []
    while lines:
        count = draw.choice([1, 2, 4, 9])
        data = stream(draw, lines[:count], 0.1, token)
        plans.append((draws.pieces(draw, data),
                      draw.choice(["whole"] * 6 + ["leave", "reset", "mute"])))
        lines = lines[count:]
    return plans


def crowd(case):
    """Callers go on with sessions that are begun, with the same ones too; the server is killed."""
    draw = case.draw
    exam = Exam(case, *draws.any_exam(draw, 0.02))
    exam.assemble()
    if exam.halt:
        return
    begun, length, token = draw.randrange(1, 12), exam.problem.plan.length, draws.token(draw)
    exam.replay("".join(f"begin {k + 1}\n" for k in range(begun)).encode())
    plans = [plans_of(draw, begun, length, token) for _ in range(draw.randrange(2, 11))]
    pauses = [draw.random() * 0.3 for _ in range(draw.choice([0, 0, 1, 2, 4]))]
    scene = Crowd(case, exam, token)
    scene.start()
    callers = [Caller(scene, one) for one in plans]
    try:
        scene.drive(callers, pauses)
    finally:
        scene.server.kill()
        case.write("heard.txt",
                   "\n".join(repr(one) for caller in callers for one in caller.heard).encode())
    exam.replay(b"")
    exam.audit()
    Facts(exam, token).judge(callers)


class Facts:
    """What the replies of many callers claim, beside the journal that was left: each claim holds of
    it whenever it was made. `token` is that of the server, empty if it has none."""

    def __init__(self, exam, token=b""):
        self.token = token
        records, _ = reply_model.records_of(exam.case.read("journal"))
        self.model = reply_model.Model(exam.rules, records)
        self.model.take_first(len(records))
        self.sessions, self.started, self.items = self.model.history.sessions, [], len(exam.items)

    def judge(self, callers):
        for caller in callers:
            for data, said, whole in caller.heard:
                self.connection(list(message_model.messages(data)), said, whole)
        demand(len(set(self.started)) == len(self.started), "a session was started twice")

    def connection(self, asked, said, whole):
        """Each whole response of a connection, in the order of its messages; `whole` is whether all
        must be there."""
        for message in asked:
            found = exam_client.split_reply(said)
            if found is None:
                silent = isinstance(message, Fault) and None in message.words and said == b""
                demand(silent or not whole, f"no response to {message}, but {shown(said)}")
                return
            (status, body), rest = found
            request = Fault if isinstance(message, Fault) else message_model.asked(message, self.token)
            text = said[:len(said) - len(rest)]
            if request is Fault:
                demand(any(word and text == message_model.error(word, True)
                           for word in message.words), f"for no message: {shown(text)}")
            elif isinstance(request, str):
                demand(text == message_model.error(request, message.close),
                       f"for {message}: {shown(text)}")
            else:
                demand(text == message_model.response(status, body, message.close),
                       f"for {message}: {shown(text)}")
                demand(self.holds(request, status, body),
                       f"{request} was answered {status} {body}; the journal has it otherwise")
            said = rest
        demand(said == b"", f"more than the responses: {shown(said)}")

    def holds(self, request, status, body):
        """Whether a response holds of the journal."""
        if request.kind == "exposure":
            return status == 200 and self.counts(body)
        if request.kind == "health":
            return status == 200 and self.is_healthy(body)
        if "error" in body:
            fits = reply_model.STATUS.get(body["error"]) == status
            return fits and self.refused(request, body["error"], body.get("value"))
        number = body["session"]
        if request.kind == "begin":
            if status == 201:
                self.started.append(number)
            booking, *listed = request.numbers
            right = self.model.bookings.get(booking) == number and listed in ([], [self.sessions[number].without])
        else:
            right = status == 200 and request.numbers[0] == number
        if request.kind == "answer":
            step, response = request.numbers[1:3]
            right = right and self.sessions[number].responses[step:step + 1] == [response]
        if request.kind == "close":
            right = right and body["state"] == "closed"
        return right and not self.is_other(request) and self.placed(body)

    def is_other(self, request):
        """Whether a request names another booking than that of its session."""
        named = request.numbers[{"answer": 3, "close": 1}.get(request.kind, 9):]
        return bool(named) and self.model.bookings.get(named[0]) != request.numbers[0]

    def placed(self, body):
        """Whether a session was at this place at some time."""
        number, state = body["session"], body["state"]
        session = self.sessions[number]
        if state == "waiting":
            step = body["step"]
            mark = bool(self.model.marks.get((number, step)))
            return session.shown[step:step + 1] == [body["item"]] and mark == body["proved"]
        if state == "pending":
            return body["step"] <= len(session.responses)
        return self.model.place(number).state == state

    def refused(self, request, word, value):
        """Whether a refusal was right at some time."""
        if word == "sessions-full":
            return value == len(self.sessions) == self.model.rules.sessions
        if word == "journal-full":
            return value > self.model.rules.journal
        if word == "no-session":
            return value <= min(request.numbers[0], len(self.sessions))
        if request.kind == "begin":
            booking, *listed = request.numbers
            return bool(listed) and self.list_refused(booking, *listed, word, value)
        session = self.sessions[request.numbers[0]]
        if word == "other-booking" or self.is_other(request):
            return word == "other-booking" and self.is_other(request) and value is None
        if word == "is-closed":
            return self.model.place(request.numbers[0]).state == value
        step, response = request.numbers[1:3]
        if word == "other":
            return session.responses[step] == value != response
        if word == "bad-response":
            return self.model.rules.categories[session.shown[step]] == value <= response
        return word == "wrong-step" and value <= min(step, len(session.responses))

    def list_refused(self, booking, listed, word, value):
        """Whether the refusal of a list was right."""
        if word == "other-list":
            return self.model.bookings.get(booking) == value and self.sessions[value].without != listed
        if word == "no-item":
            return value == self.items and any(item >= value for item in listed)
        return word == "no-form" and value is None and self.model.lacks_form(listed)

    def is_healthy(self, body):
        """Whether the numbers are those of a beginning of the journal."""
        busy, count = body.get("busy"), body.get("entries")
        return (is_busy(busy) and isinstance(count, int) and 0 <= count <= self.model.taken
                and body == {"busy": busy, **health_after(self.model, count)})

    def counts(self, body):
        """Whether the counts were those at some time: none is above that of the end."""
        last = self.model.exposure()
        pairs = zip(body["rows"], last.rows)
        return (body["finished"] <= last.finished and len(body["rows"]) == self.items
                and all(was[0] <= now[0] and was[1] <= now[1]
                        and was[0] <= was[1] <= body["finished"] for was, now in pairs))
