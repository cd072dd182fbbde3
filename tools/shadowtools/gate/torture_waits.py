"""The cases of torture.py in which connections fall silent: others have their replies beside them, and
each of them ends.
"""
import socket
import threading
import time

from shadowtools.checkers.reply_model import Surprise
from shadowtools.gate import exam_client
from shadowtools.gate import torture_draws as draws
from shadowtools.gate import torture_http
from shadowtools.gate.torture_cases import LIMIT, Exam, demand

IDLE = 1  # seconds that a connection may wait for a message here
LONGEST = 120  # seconds for all that a client asks, and for a silent connection to end


def silent_bytes(draw):
    """What a connection sends before it falls silent: nothing, a part of a message, whole messages, or more than it reads the
    responses to."""
    message = exam_client.begin(draw.randrange(100))
    way = draw.choice(["nothing", "part", "whole", "whole and part", "deaf"])
    if way == "deaf":
        return exam_client.request_bytes("GET", "/exposure") * draw.choice([100, 20_000])
    whole = message * draw.randrange(1, 4) if way.startswith("whole") else b""
    part = message[:draw.randrange(1, len(message))] if way.endswith("part") else b""
    return whole + part


def fall_silent(address, data):
    """A connection that sends as much of the data as the server takes at once."""
    made = torture_http.connect(address)
    made.setblocking(False)
    try:
        while data:
            data = data[made.send(data):]
    except (BlockingIOError, ConnectionError):
        pass
    return made


def drip(connection):
    """Sends a byte in each half second, until the server ends the connection."""
    try:
        while True:
            connection.sendall(b"A")
            time.sleep(0.5)
    except OSError:
        pass


def await_end(connection):
    """Waits until the server has ended the connection."""
    connection.settimeout(LONGEST)
    try:
        while connection.recv(65536):
            pass
    except TimeoutError as late:
        raise Surprise(f"a silent connection has no end in {LONGEST} s") from late
    except OSError:
        pass
    connection.close()


def ask(address, plans):
    """A caller that writes its connections one after another, each to its end; the longest time of one."""
    heard, longest = [], 0.0
    for parts in plans:
        begun = time.monotonic()
        said, _ = torture_http.exchange(address, parts, 0)
        longest = max(longest, time.monotonic() - begun)
        heard.append((b"".join(parts), said, True))
    return heard, longest


class Heard:
    """What a caller heard, as `Facts` reads it."""

    def __init__(self, heard):
        self.heard = heard


def waits(case):
    """Silent connections, up to twice as many as workers, and a caller beside them."""
    draw = case.draw
    exam = Exam(case, *draws.any_exam(draw, 0.02))
    exam.assemble()
    if exam.halt:
        return
    workers = draw.randrange(1, 5)
    lines = list(draws.requests(draw, draw.randrange(5, 30), exam.problem.plan.length))
    plans = [draws.pieces(draw, torture_http.stream(draw, lines[k:k + 5], 0)) for k in range(0, len(lines), 5)]
    files = [case.path(name) for name in (*exam.words, "journal")]
    server = exam_client.Server([case.program], *files, workers=workers, wait=LIMIT, idle=IDLE)
    try:
        silent = [fall_silent(server.address, silent_bytes(draw)) for _ in range(draw.randrange(1, 2 * workers + 1))]
        slow = fall_silent(server.address, b"GET /sessions/0 HTTP/1.1\r\n")
        slow.setblocking(True)
        threading.Thread(target=drip, args=[slow], daemon=True).start()
        heard, longest = ask(server.address, plans)
        demand(longest < LONGEST, f"a client waited {longest:.0f} s")
        for connection in silent + [slow]:
            await_end(connection)
    except socket.timeout as late:
        raise Surprise("a client waits") from late
    finally:
        server.kill()
    exam.replay(b"")
    exam.audit()
    torture_http.Facts(exam).judge([Heard(heard)])
