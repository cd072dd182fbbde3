#!/usr/bin/env python3
"""Measures how soon `shadowd serve` replies to a crowd of clients that keep their connections open. See serve.md.

usage: crowd.py PROGRAM FOLDER [--clients 500] [--every 20] [--seconds 60] [--workers 16] [--silent 0] [--kind nothing] [--texts BANK PLAN]
       crowd.py PROGRAM FOLDER --vanished 6 [--workers 4] [--idle 10] [--texts BANK PLAN]
       crowd.py PROGRAM FOLDER --lines [--seconds 60] [--texts BANK PLAN]

Each client sends an answer every so many seconds. Beside them so many silent connections of one kind are open: that send `nothing`,
`half-head`, `half-body`, that are `idle` after a reply, or that do not read (`deaf`). --vanished has so many connections of a machine that goes away without a
word, a network namespace whose link is cut (it needs root), and one client beside them that asks all the time. --lines does each of these and ends with
status 1 where a client waits longer than a second beside nobody and beside connections that are silent between messages, or longer than the limits of all those
that stop within one. Without --texts the bank and the plan are those of the drill.
"""
import argparse
import collections
import os
import selectors
import shutil
import socket
import subprocess
import sys
import tempfile
import time

from problems import Draws
from serve import texts_of

sys.path.insert(0, os.path.join(os.path.dirname(os.path.abspath(__file__)), "..", "tools"))
from exam_client import Connection, Server, answer, begin, request_bytes, split_reply  # noqa: E402

SILENT = {
    "nothing": b"",
    "half-head": b"POST /sess",
    "half-body": b"POST /sessions HTTP/1.1\r\nContent-Length: 14\r\n\r\n{",
    "idle": request_bytes("GET", "/sessions/0"),
    "deaf": request_bytes("GET", "/exposure") * 20_000,
}
# The seconds that a connection of each kind may hold its worker, until the server has ended it. A worker waits for its own one after another.
HOLDS = {"nothing": 0, "idle": 0, "half-head": 6, "half-body": 6, "deaf": 6}


class Seat:
    """A connection that takes whole sessions, one request at a time."""

    def __init__(self, address, bookings, draw, chosen):
        self.address, self.chosen, self.socket = address, chosen, None
        self.bookings, self.draw, self.kept, self.sent = bookings, draw, b"", 0.0

    def send(self, message):
        self.sent = time.perf_counter()
        if self.socket is None:
            self.socket = socket.create_connection(self.address)
            self.socket.setsockopt(socket.IPPROTO_TCP, socket.TCP_NODELAY, 1)
            self.chosen.register(self.socket, selectors.EVENT_READ, self)
        self.socket.sendall(message)

    def reply(self):
        """Reads what is there: the reply, if it is whole."""
        more = self.socket.recv(65536)
        if not more:
            raise RuntimeError("the server closed a connection")
        found = split_reply(self.kept + more)
        if not found:
            self.kept += more
            return None
        reply, self.kept = found
        return reply

    def go_on(self, place):
        """Sends the request that follows this place: an answer, or the begin of the next session."""
        if place is not None and place["state"] == "waiting":
            self.send(answer(place["session"], place["step"], self.draw.next() % 2))
        else:
            self.send(begin(next(self.bookings)))


def silent(address, kind):
    """A connection that sends the text of its kind, as far as the server takes it, and then nothing."""
    made = socket.create_connection(address)
    made.setblocking(False)
    try:
        made.send(SILENT[kind])
    except BlockingIOError:
        pass
    return made


def share(times, part):
    """The time in milliseconds that this part of the times do not exceed."""
    return sorted(times)[min(len(times) - 1, int(len(times) * part))] * 1e3 if times else 0.0


class Crowd:
    """Clients that each have one session at a time, and send a request every so many seconds."""

    def __init__(self, address, clients, every):
        self.every, self.chosen, self.times = every, selectors.DefaultSelector(), []
        draws, bookings, begun = Draws(7), iter(range(10**9)), time.monotonic()
        seats = [Seat(address, bookings, draws, self.chosen) for _ in range(clients)]
        self.due = collections.deque((begun + every * k / clients, seat, None) for k, seat in enumerate(seats))

    def send_due(self):
        """Sends what is due: the first request of a new client, or the next one of a client that has its reply."""
        while self.due and self.due[0][0] <= time.monotonic():
            _, seat, place = self.due.popleft()
            seat.go_on(place)

    def run(self, seconds):
        """The times to the replies, and how many clients have none at the end."""
        until = time.monotonic() + seconds
        while time.monotonic() < until:
            self.send_due()
            for key, _ in self.chosen.select(0.01):
                seat = key.data
                reply = seat.reply()
                if reply is None:
                    continue
                status, place = reply
                if status not in (200, 201):
                    raise RuntimeError(f"status {status}: {place}")
                now = time.perf_counter()
                self.times.append(now - seat.sent)
                self.due.append((time.monotonic() + self.every - (now - seat.sent), seat, place))
        waiting = len(self.chosen.get_map()) - sum(seat.socket is not None for _, seat, _ in self.due)
        return self.times, waiting


def crowd(asked, texts, folder, count, kind):
    """One row: the crowd beside so many silent connections. Whether each client had its reply in time."""
    journal = f"{folder}/journal"
    server = Server([os.path.abspath(asked.program)], *texts, journal, asked.workers)
    try:
        kept = [silent(server.address, kind) for _ in range(count)]
        times, waiting = Crowd(server.address, asked.clients, asked.every).run(asked.seconds)
        for one in kept:
            one.close()
    finally:
        server.kill()
        os.remove(journal)
    beside = f"{count} of kind {kind}" if count else "nobody"
    print(f"| {beside} | {len(times)} | {share(times, 0.5):.1f} | {share(times, 0.99):.1f} | {max(times) * 1e3:.0f} "
          f"| {sum(t > 1 for t in times)} | {waiting} | {os.getloadavg()[0]:.1f} |", flush=True)
    most = 1 + count * HOLDS[kind]
    return max(times) <= most and waiting <= asked.clients / asked.every * most  # those that asked last may still wait


def title(asked):
    print(f"{asked.clients} clients, a request every {asked.every} s each, {asked.workers} workers, {asked.seconds} s each\n")
    print("| Beside them | Replies | Median ms | 99 % ms | Longest ms | Above a second | Without a reply at the end | Load |")
    print("|---|---|---|---|---|---|---|---|", flush=True)


# ---------------------------------------------------------------- a machine that vanishes

CLIENT = """
import socket, sys, time
made = [socket.create_connection(("{host}", {port}), 10) for _ in range({count})]
for one in made:
    one.sendall({whole!r})
    one.recv(65536)
for one in made[::2]:
    one.sendall({part!r})
print("ready", flush=True)
time.sleep(3600)
"""


class Machine:
    """A network namespace with a link to this one, and a process in it that holds connections."""

    def __init__(self):
        self.name = f"shadowd{os.getpid()}"
        self.here, self.there = f"sh{os.getpid()}", f"st{os.getpid()}"
        self.host, self.process = "10.77.0.1", None

    def system(self, *words, inside=False):
        front = ["ip", "netns", "exec", self.name] if inside else []
        subprocess.run([*front, *words], check=True)

    def __enter__(self):
        self.system("ip", "netns", "add", self.name)
        self.system("ip", "link", "add", self.here, "type", "veth", "peer", "name", self.there)
        self.system("ip", "link", "set", self.there, "netns", self.name)
        self.system("ip", "addr", "add", self.host + "/24", "dev", self.here)
        self.system("ip", "link", "set", self.here, "up")
        self.system("ip", "addr", "add", "10.77.0.2/24", "dev", self.there, inside=True)
        self.system("ip", "link", "set", self.there, "up", inside=True)
        return self

    def __exit__(self, *fault):
        if self.process:
            self.process.kill()
            self.process.wait()
        self.system("ip", "link", "del", self.here)
        self.system("ip", "netns", "del", self.name)

    def connect(self, port, count):
        """Opens connections that have a reply; half of them have sent a part of the next message, too."""
        text = CLIENT.format(host=self.host, port=port, count=count, whole=request_bytes("GET", "/sessions/0"), part=b"GET /sess")
        self.process = subprocess.Popen(["ip", "netns", "exec", self.name, sys.executable, "-c", text], stdout=subprocess.PIPE)
        if self.process.stdout.readline() != b"ready\n":
            raise RuntimeError("the connections were not made")

    def vanish(self):
        """Cuts the link: from now on nothing comes from there, no end of a connection either."""
        self.system("ip", "link", "set", self.there, "down", inside=True)

    @staticmethod
    def held():
        """How many connections to that machine this one still holds."""
        with open("/proc/net/tcp", encoding="ascii") as file:
            return sum(fields[2].startswith("02004D0A:") and fields[3] == "01" for fields in map(str.split, file))


def vanished(asked, texts, folder, count, workers):
    """A line on a machine that vanishes. Whether the client beside it had each reply within the limit, and its connections ended in time."""
    if os.geteuid() != 0 or shutil.which("ip") is None:
        print("a machine that vanishes: passed over, it needs root and iproute2")
        return True
    with Machine() as machine:
        server = Server([os.path.abspath(asked.program)], *texts, f"{folder}/journal", workers, idle=asked.idle, listen=machine.host + ":0")
        try:
            machine.connect(server.address[1], count)
            machine.vanish()
            begun, times, ended = time.monotonic(), [], None
            until = begun + asked.idle + HOLDS["half-head"] * count + 15  # where one worker has all of them
            while ended is None and time.monotonic() < until:
                since = time.monotonic()
                connection = Connection(server.address, 60)
                connection.ask(request_bytes("GET", "/sessions/0"))
                connection.close()
                times.append(time.monotonic() - since)
                ended = ended or (time.monotonic() - begun if machine.held() == 0 else None)
                time.sleep(0.1)
        finally:
            server.kill()
            os.remove(f"{folder}/journal")
    print(f"\n{count} connections of a machine that vanished, {workers} workers, SHADOWD_IDLE {asked.idle}: {len(times)} replies to another client, "
          f"median {share(times, 0.5):.1f} ms, longest {max(times) * 1e3:.0f} ms; the connections "
          + (f"ended within {ended:.0f} s" if ended else "did not end"), flush=True)
    return max(times) <= 1 + HOLDS["half-head"] and ended is not None


def lines(asked, texts, folder):
    """Each line that is to hold; whether all do."""
    title(asked)
    found = [crowd(asked, texts, folder, 0, "nothing")]
    found += [crowd(asked, texts, folder, asked.workers, kind) for kind in SILENT]
    found += [vanished(asked, texts, folder, 6, 4), vanished(asked, texts, folder, asked.workers * 2, asked.workers)]
    print(f"{found.count(True)} passed, {found.count(False)} failed")
    return all(found)


def words_of():
    words = argparse.ArgumentParser(description="Measures how soon a crowd of clients has its replies.")
    words.add_argument("program")
    words.add_argument("folder")
    for name, default in (("clients", 500), ("every", 20), ("seconds", 60), ("workers", 16), ("silent", 0), ("idle", 10), ("vanished", 0)):
        words.add_argument(f"--{name}", type=int, default=default)
    words.add_argument("--kind", choices=SILENT, default="nothing")
    words.add_argument("--lines", action="store_true")
    words.add_argument("--texts", nargs=2, metavar=("BANK", "PLAN"))
    return words.parse_args()


def main():
    asked = words_of()
    with tempfile.TemporaryDirectory(dir=asked.folder) as folder:
        texts = texts_of(folder, asked)
        if asked.lines:
            return 0 if lines(asked, texts, folder) else 1
        if asked.vanished:
            vanished(asked, texts, folder, asked.vanished, asked.workers)
        else:
            title(asked)
            crowd(asked, texts, folder, asked.silent, asked.kind)
    return 0


if __name__ == "__main__":
    sys.exit(main())
