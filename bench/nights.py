#!/usr/bin/env python3
"""Measures what clients and operators do to a server at night. See nights.md.

usage: nights.py PROGRAM [slow burst end steady silent lines room] [--seconds 20] [--kinds KIND ..] [--folder FOLDER] [--hold]

slow    64 clients of each kind that dawdle, beside 4 that are quick: how long the quick ones wait
burst   800 connections at one moment, each with one request
end     160 requests are in flight when the end is asked for by SHADOWD_END, and at SIGTERM
steady  200 clients send the next request as soon as they have a response, and the end is asked for
silent  64 silent connections are at `follow` before `stream` comes
lines   nobody reads standard error, which is full, while the disk is full and works in turn: how long 4 clients wait for each reply
room    the disk is full, and begins go on in a reserve of 256 KiB until it is used up: on ext4 over a loop device, or a tmpfs; needs root

--hold  then says of each row whether it is within what was aimed at; the last line is 'N passed, M failed', and one that fails gives status 1
"""
import argparse
import collections
import contextlib
import http.client
import json
import os
import re
import resource
import select
import signal
import socket
import subprocess
import sys
import tempfile
import threading
import time

from many import BANK, PLAN

sys.path.insert(0, os.path.join(os.path.dirname(os.path.abspath(__file__)), "..", "tools"))
from shadowtools.gate.soak_site import DISKS, Disk, disk_kind  # noqa: E402

BODY = b'{"booking":99}'
HEAD = b"POST /sessions HTTP/1.1\r\nHost: x\r\nContent-Length: %d\r\n\r\n" % len(BODY)
HEALTH = b"GET /health HTTP/1.1\r\nHost: x\r\nConnection: close\r\n\r\n"
CLIENTS, WORKERS, QUICK, BURST, FLIGHT, SILENT, STEADY = 64, 4, 4, 800, 160, 64, 200
RESERVE = 4 * 65536
GIVEN_UP = 30  # seconds for an end that is asked for


def spread(values):
    """Median, 99th percentile and greatest, in milliseconds."""
    values = sorted(values)
    return [1000 * values[min(len(values) - 1, int(part * len(values)))] for part in (0.5, 0.99, 1.0)]


def line_of(values):
    return "median %.1f ms, 99th %.1f ms, greatest %.1f ms" % tuple(spread(values))


def free_port():
    with socket.create_server(("127.0.0.1", 0)) as holder:
        return holder.getsockname()[1]


class Night:
    """A folder with a bank and a plan, and the program."""

    def __init__(self, program, folder=None):
        self.program, self.folder = os.path.abspath(program), tempfile.mkdtemp(prefix="nights.", dir=folder)
        self.files, self.running = [os.path.abspath(BANK), os.path.join(self.folder, "plan.txt")], []
        with open(self.files[1], "w", encoding="ascii") as file:
            file.write(PLAN)

    def start(self, command, journal, errors=None, **settings):
        """A process that goes on; standard error goes to a file, unless another one is given."""
        environment = {"PATH": os.environ["PATH"], "SHADOWD_JOURNAL": os.path.join(self.folder, journal), **settings}
        with open(os.path.join(self.folder, "errors"), "a", encoding="utf-8") as file:
            process = subprocess.Popen([self.program, command, *self.files], env=environment, stdout=subprocess.DEVNULL, stderr=errors or file,
                                       restore_signals=False)
        self.running.append(process)
        return process

    def serve(self, journal="journal", **settings):
        """A server that answers, and its port."""
        port = free_port()
        process = self.start("serve", journal, SHADOWD_LISTEN=f"127.0.0.1:{port}", SHADOWD_WORKERS=str(WORKERS), **settings)
        while ask(port, "GET", "/health", limit=5)[0] != 200:
            if process.poll() is not None:
                raise SystemExit(f"the server ended with {process.returncode}: see {self.folder}/errors")
            time.sleep(0.05)
        return process, port

    def end(self):
        for process in self.running:
            if process.poll() is None:
                process.kill()
            process.wait()


def ask(port, method, path, body=None, limit=60.0):
    """The status and the value of the response to one message on a connection of its own; status 0 where none came."""
    connection = http.client.HTTPConnection("127.0.0.1", port, timeout=limit)
    try:
        connection.request(method, path, None if body is None else json.dumps(body), {"Connection": "close"})
        response = connection.getresponse()
        return response.status, json.loads(response.read() or b"null")
    except (OSError, http.client.HTTPException) as fault:
        return 0, type(fault).__name__
    finally:
        connection.close()


def bytewise(client, data, over):
    for byte in data:
        client.sendall(bytes([byte]))
        if over.wait(1):
            return


def flood(client, over):
    client.setsockopt(socket.SOL_SOCKET, socket.SO_RCVBUF, 1024)
    client.settimeout(2)
    for _ in range(4000):
        client.sendall(b"GET /exposure HTTP/1.1\r\nHost: x\r\n\r\n")
    over.wait(30)


def send_and_wait(data):
    def way(client, over):
        client.sendall(data)
        over.wait(30)
    return way


def body_bytewise(client, over):
    client.sendall(HEAD)
    bytewise(client, BODY, over)
    over.wait(1)


KINDS = {
    "nobody": None,
    "a byte a second": lambda client, over: bytewise(client, HEAD, over),
    "stops within a head": send_and_wait(HEAD[:40]),
    "stops within a body": send_and_wait(HEAD + BODY[:5]),
    "a body, a byte a second": body_bytewise,
    "does not close": send_and_wait(HEALTH),
    "reads nothing": flood,
}


def dawdle(port, way, over):
    while not over.is_set():
        try:
            with socket.create_connection(("127.0.0.1", port), 5) as client:
                way(client, over)
        except OSError:
            over.wait(0.2)


def quick(port, number, end, waits):
    booking = 100_000 * (number + 1)
    while time.monotonic() < end:
        booking, start = booking + 1, time.monotonic()
        status, _ = ask(port, "POST", "/sessions", {"booking": booking})
        waits.append(time.monotonic() - start)
        if status != 201:
            print("  a quick client got", status)
        time.sleep(0.05)


def slow(night, asked):
    """The waits of the quick clients beside each kind: begins, which the disk syncs."""
    found = {}
    for kind in asked.kinds or KINDS:
        server, port = night.serve(journal=kind.replace(" ", "."))
        over, waits, way = threading.Event(), [], KINDS[kind]
        for _ in range(CLIENTS if way else 0):
            threading.Thread(target=dawdle, args=(port, way, over), daemon=True).start()
        time.sleep(2)
        end = time.monotonic() + asked.seconds
        others = [threading.Thread(target=quick, args=(port, number, end, waits)) for number in range(QUICK)]
        for thread in others:
            thread.start()
        for thread in others:
            thread.join()
        over.set()
        server.kill()
        server.wait()
        found[kind] = spread(waits)
        print(f"slow: {CLIENTS} clients, {kind}; {WORKERS} workers; {len(waits)} begins of {QUICK} others: {line_of(waits)}", flush=True)
    return found


def burst(night, _asked):
    """When each of many connections is made and has its response."""
    found = {}
    for route in ("health", "begin"):
        server, port = night.serve(journal="burst." + route)
        clients, poll, begun = {}, select.epoll(), time.monotonic()
        for number in range(BURST):
            client = socket.socket()
            client.setblocking(False)
            client.connect_ex(("127.0.0.1", port))
            clients[client.fileno()] = (client, number)
            poll.register(client.fileno(), select.EPOLLOUT)
        got, connected, waits = collections.Counter(), [], []
        while len(waits) < BURST and time.monotonic() - begun < 60:
            for place, event in poll.poll(1):
                client, number = clients[place]
                if event & select.EPOLLOUT:
                    connected.append(time.monotonic() - begun)
                    body = b'{"booking":%d}' % number
                    client.sendall(HEALTH if route == "health" else
                                   b"POST /sessions HTTP/1.1\r\nHost: x\r\nConnection: close\r\nContent-Length: %d\r\n\r\n%s" % (len(body), body))
                    poll.modify(place, select.EPOLLIN)
                else:
                    got[client.recv(4096)[9:12].decode() or "none"] += 1
                    waits.append(time.monotonic() - begun)
                    poll.unregister(place)
                    client.close()
        server.kill()
        server.wait()
        found[route] = (dict(got), max(connected), max(waits))
        print(f"burst: {BURST} connections, {route}: {dict(got)}; connected: {line_of(connected)}; responses: {line_of(waits)}", flush=True)
    return found


def asked_end(path):
    """Asks for the end by a connection, and waits for it."""
    with socket.socket(socket.AF_UNIX) as operator:
        operator.connect(path)
        try:
            operator.recv(1)
        except ConnectionResetError:
            pass


def end(night, _asked):
    """What becomes of requests that are in flight at an end."""
    found = {}
    for way in ("asked", "SIGTERM"):
        path = os.path.join(night.folder, "end")
        server, port = night.serve(journal="end." + way, SHADOWD_END=path)
        sessions = [ask(port, "POST", "/sessions", {"booking": booking})[1]["session"] for booking in range(FLIGHT)]
        got, gate = collections.Counter(), threading.Barrier(FLIGHT + 1)

        def client(session, port=port, got=got, gate=gate):
            gate.wait()
            status, value = ask(port, "POST", f"/sessions/{session}/answers", {"step": 0, "response": 1}, limit=20)
            got[status or value] += 1

        threads = [threading.Thread(target=client, args=(session,)) for session in sessions]
        for thread in threads:
            thread.start()
        gate.wait()
        time.sleep(0.03)
        begun = time.monotonic()
        if way == "SIGTERM":
            server.send_signal(signal.SIGTERM)
        elif os.path.exists(path):
            asked_end(path)
        else:
            print("end: this program has no socket of SHADOWD_END; it is killed", flush=True)
            server.kill()
        status, took = server.wait(), time.monotonic() - begun
        for thread in threads:
            thread.join()
        found[way] = (dict(got), status, took)
        print(f"end, {way}: {FLIGHT} requests in flight got {dict(got)}; status {status} after {1000 * took:.0f} ms", flush=True)
    return found


def without_pause(port, over, got):
    """One request after another on one connection, until it is ended."""
    with contextlib.suppress(OSError), socket.create_connection(("127.0.0.1", port), 60) as client:
        while not over.is_set():
            client.sendall(b"GET /health HTTP/1.1\r\nHost: x\r\n\r\n")
            if not client.recv(4096):
                return
            got.append(time.monotonic())


def steady(night, _asked):
    """How long a server that has a message at each moment goes on after it is asked to end."""
    path = os.path.join(night.folder, "end")
    server, port = night.serve(journal="steady", SHADOWD_END=path)
    over, got = threading.Event(), []
    threads = [threading.Thread(target=without_pause, args=(port, over, got), daemon=True) for _ in range(STEADY)]
    for thread in threads:
        thread.start()
    time.sleep(2)
    begun = time.monotonic()
    asks = threading.Thread(target=asked_end, args=(path,), daemon=True)
    asks.start()
    ended, later = None, 0
    while ended is None and time.monotonic() - begun < GIVEN_UP:
        time.sleep(0.1)
        ended = server.poll()
        later += time.monotonic() - begun > 1 and ask(port, "GET", "/health", limit=5)[0] == 200
    took = time.monotonic() - begun
    over.set()
    server.kill()
    server.wait()
    state = "goes on" if ended is None else f"ended with {ended}"
    print(f"steady: {STEADY} clients without a pause: the server {state} {took:.1f} s after it was asked to end; {sum(at > begun for at in got)} responses "
          f"since, {later} on connections made more than a second after that", flush=True)
    return ended, took, later


def silent(night, _asked):
    """How long `stream` needs to reach a follower at which others are silent, and what ends."""
    server, port = night.serve(journal="leader")
    for booking in range(20):
        ask(port, "POST", "/sessions", {"booking": booking})
    size, place, copy = os.path.getsize(os.path.join(night.folder, "leader")), free_port(), os.path.join(night.folder, "copy")
    follower = night.start("follow", "copy", SHADOWD_LISTEN=f"127.0.0.1:{place}")
    time.sleep(1)
    strangers = [socket.create_connection(("127.0.0.1", place)) for _ in range(SILENT)]
    time.sleep(0.5)
    begun = time.monotonic()
    stream = night.start("stream", "leader", SHADOWD_LISTEN=f"127.0.0.1:{port}", SHADOWD_FOLLOWER=f"127.0.0.1:{place}")
    ended = None
    while not (os.path.exists(copy) and os.path.getsize(copy) >= size) and ended is None and time.monotonic() - begun < 100:
        ended = follower.poll()
        with contextlib.suppress(OSError), socket.create_connection(("127.0.0.1", place), 1):  # one more, which says nothing and ends
            time.sleep(0.1)
    took, is_whole = time.monotonic() - begun, os.path.exists(copy) and os.path.getsize(copy) >= size
    print(f"silent: {SILENT} connections that say nothing: the copy was {'' if is_whole else 'not '}whole after {took:.2f} s; follow "
          f"{'goes on' if ended is None else f'ended with {ended}'}", flush=True)
    for process in (stream, follower, server):
        process.kill()
    for stranger in strangers:
        stranger.close()
    return took, is_whole, ended


def fill(pipe):
    """Fills a pipe that nobody reads."""
    os.set_blocking(pipe, False)
    for piece in (4096, 1):
        with contextlib.suppress(BlockingIOError):
            while True:
                os.write(pipe, b"x" * piece)
    os.set_blocking(pipe, True)


def asking(port, number, end, waits, got):
    """Begins a session, looks at one and at the health, again and again."""
    booking = 100_000 * (number + 1)
    while time.monotonic() < end:
        booking += 1
        for method, path, body in (("POST", "/sessions", {"booking": booking}), ("GET", "/sessions/0", None), ("GET", "/health", None)):
            start = time.monotonic()
            got[ask(port, method, path, body, limit=20)[0]] += 1
            waits.append(time.monotonic() - start)


def lines(night, asked):
    """The waits of clients while lines find no reader, and what is read of them once there is one."""
    reader, writer = os.pipe()
    folder = os.path.join(*(letter * 200 for letter in "abcd"))  # so that a line has some 900 bytes
    os.makedirs(os.path.join(night.folder, folder))
    server, port = night.serve(journal=os.path.join(folder, "lines"), errors=writer)
    ask(port, "POST", "/sessions", {"booking": 0})
    fill(writer)
    waits, got, end = [], collections.Counter(), time.monotonic() + asked.seconds
    others = [threading.Thread(target=asking, args=(port, number, end, waits, got)) for number in range(QUICK)]
    for thread in others:
        thread.start()
    while any(thread.is_alive() for thread in others):  # no file may grow, or each may
        for most in (0, resource.RLIM_INFINITY):
            resource.prlimit(server.pid, resource.RLIMIT_FSIZE, (most, resource.RLIM_INFINITY))
            time.sleep(0.002)
    told = b""
    while select.select([reader], [], [], 2)[0]:
        told += os.read(reader, 65536)
    server.kill()
    server.wait()
    os.close(writer)
    os.close(reader)
    dropped = sum(map(int, re.findall(rb"shadowd: (\d+) lines were dropped here", told)))
    print(f"lines: nobody reads them for {asked.seconds:g} s; {QUICK} clients: {dict(got)}; {line_of(waits)}; then {told.count(b'shadowd: ')} lines, "
          f"{dropped} dropped", flush=True)
    return got[0], max(waits), dropped


def timed_begin(port, booking):
    start = time.monotonic()
    status, _ = ask(port, "POST", "/sessions", {"booking": booking})
    return status, time.monotonic() - start


def begins_in_reserve(port, first):
    """The waits of begins that are done, until one is refused."""
    waits = []
    while True:
        status, wait = timed_begin(port, first + len(waits))
        if status != 201:
            return waits
        waits.append(wait)


def room(night, _asked):
    """What begins cost on a full disk, and how much of the reserve they use."""
    kind = disk_kind(None)
    if kind == Disk.KIND:
        print("skipped: room: no root")
        return None
    disk = DISKS[kind](os.path.join(night.folder, "disk"))
    try:
        server, port = night.serve(journal="disk/journal", SHADOWD_RESERVE=str(RESERVE))
        journal = os.path.join(disk.folder, "journal")
        time.sleep(3)  # until the reserve is written
        before = [timed_begin(port, booking)[1] for booking in range(200)]
        disk.fill([], journal)
        size, waits = os.path.getsize(journal), begins_in_reserve(port, 1000)
        used = os.path.getsize(journal) - size
        server.kill()
        server.wait()
    finally:
        disk.close()
    print(f"room: {kind}; begins: {line_of(before)}; on the full disk {len(waits)}: {line_of(waits or [0])}; {used} bytes of {RESERVE} were used", flush=True)
    return used


# ---------------------------------------------------------------- what was aimed at

def held_slow(found):
    alone = found.get("nobody")
    return {f"beside 64 of `{kind}` the 99th percentile is within 100 ms of that beside nobody": spread_of[1] <= alone[1] + 100
            for kind, spread_of in found.items() if alone and kind != "nobody"}


def held_burst(found):
    (health, connected, last), (begins, begin_connected, _) = found["health"], found["begin"]
    return {f"{BURST} connections are made within 0.3 s": max(connected, begin_connected) <= 0.3,
            f"{BURST} of them have their response to GET /health within 1 s": health == {"200": BURST} and last <= 1,
            f"each of {BURST} begins is done": begins == {"201": BURST}}


def held_end(found):
    got, status, took = found["asked"]
    return {f"{FLIGHT} requests in flight are answered at an end that is asked for": got == {200: FLIGHT},
            "the server ends with 0 within 5 s": status == 0 and took <= 5}


def held_steady(found):
    ended, took, later = found
    return {f"the server ends with 0 within 5 s beside {STEADY} clients without a pause": ended == 0 and took <= 5,
            "no connection is taken a second after the end is asked for": later == 0}


def held_silent(found):
    took, is_whole, ended = found
    return {f"the stream is in within 2 s beside {SILENT} silent connections, and follow goes on": is_whole and took <= 2 and ended is None}


def held_lines(found):
    without_reply, longest, dropped = found
    return {"each reply comes within 5 s while nobody reads the lines": without_reply == 0 and longest <= 5, "lines were dropped, and counted": dropped > 0}


def held_room(used):
    return {} if used is None else {"begins go on in nine tenths of the reserve": used >= 0.9 * RESERVE}


ROWS = {"slow": slow, "burst": burst, "end": end, "steady": steady, "silent": silent, "lines": lines, "room": room}
HELD = {"slow": held_slow, "burst": held_burst, "end": held_end, "steady": held_steady, "silent": held_silent, "lines": held_lines, "room": held_room}


def main():
    reader = argparse.ArgumentParser(usage=__doc__)
    reader.add_argument("program")
    reader.add_argument("rows", nargs="*", choices=[*ROWS, []])
    reader.add_argument("--seconds", type=float, default=20)
    reader.add_argument("--kinds", nargs="+", choices=KINDS)
    reader.add_argument("--folder")
    reader.add_argument("--hold", action="store_true")
    asked = reader.parse_args()
    night = Night(asked.program, asked.folder)
    print(f"{asked.program}; {os.cpu_count()} processors, load {os.getloadavg()[0]:.1f}; folder {night.folder}", flush=True)
    held = {}
    try:
        for name in asked.rows or ROWS:
            held.update(HELD[name](ROWS[name](night, asked)))
    finally:
        night.end()
    print(f"load {os.getloadavg()[0]:.1f}")
    if not asked.hold:
        return
    for what, holds in held.items():
        print(f"{'holds' if holds else 'DOES NOT HOLD'}: {what}")
    print(f"{sum(held.values())} passed, {len(held) - sum(held.values())} failed")
    sys.exit(not all(held.values()))


if __name__ == "__main__":
    main()
