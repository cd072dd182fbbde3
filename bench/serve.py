#!/usr/bin/env python3
"""Measures `shadowd serve` on a loopback socket. See serve.md.

usage: serve.py PROGRAM FOLDER [--connections 1 2 4 8 16 60 200] [--sessions 200] [--close] [--through nginx | haproxy]
       serve.py PROGRAM FOLDER --all | --kinds | --size     [--texts BANK PLAN] [--token TOKEN]

PROGRAM is the built program of crates/shadowd; the journal is written in FOLDER, and so are the records of the loop beside it. With --close each
request has a connection of its own. With --through the requests go through a proxy, in the set-up of docs/OPERATING.md. --all measures
directly and by each proxy that is installed, with connections that stay open and with one a request. --kinds measures where the time of a request goes,
--size memory at 1,000 open sessions of the greatest bank. Without --texts the bank and the plan are those of the drill. The client is `load.c`, which gcc
compiles first; each row has the part of a processor that it used.
"""
import argparse
import collections
import os
import shutil
import subprocess
import sys
import tempfile
import time

from problems import Draws, drill

HERE = os.path.dirname(os.path.abspath(__file__))
sys.path.insert(0, os.path.join(HERE, "..", "tools"))
from exam_client import Connection, Server, answer, bearing, begin  # noqa: E402
from proxies import PROXIES, start  # noqa: E402

WORKERS = 16
SYNCED_RECORDS = 500  # of the loop beside each measurement
TICK = os.sysconf("SC_CLK_TCK")

# What the client found: times in microseconds, `client` as the part of a processor that it used.
Found = collections.namedtuple("Found", "replies answered faults seconds median p95 p99 longest connect connect_p99 client")


class Load:
    """The client, compiled in a folder."""

    def __init__(self, folder, token):
        if shutil.which("gcc") is None:
            sys.exit("serve.py needs gcc for its client: apt-get install gcc libc6-dev")
        self.program, self.token = os.path.join(folder, "load"), [token] if token else []
        subprocess.run(["gcc", "-O2", "-o", self.program, os.path.join(HERE, "load.c")], check=True)

    def run(self, port, connections, count, close, *kind):
        """So many sessions or requests over so many connections. `kind` is `sessions` and the first booking, or method, path and body."""
        words = [self.program, str(port), str(connections), str(count), "close" if close else "keep", *kind, *self.token]
        done = subprocess.run(words, stdout=subprocess.PIPE, check=True, text=True)
        return Found(*map(float, done.stdout.split()[1::2]))


def seconds_of_two_syncs(path, record):
    """The time of a record on this disk: it is written and synced, and then a byte."""
    file, at, begun = os.open(path, os.O_RDWR | os.O_CREAT), 9, time.perf_counter()
    for _ in range(SYNCED_RECORDS):
        os.pwrite(file, b"\0" * record, at)
        os.fsync(file)
        os.pwrite(file, b"\1", at - 1)
        os.fsync(file)
        at += record
    took = (time.perf_counter() - begun) / SYNCED_RECORDS
    os.close(file)
    os.remove(path)
    return took


def entries_of(journal):
    """The number of records of a journal: 8 bytes, and then gate, length and payload of each."""
    count, at, size = 0, 8, os.path.getsize(journal)
    with open(journal, "rb") as file:
        while at < size:
            file.seek(at)
            head = file.read(5)
            if head[:1] != b"\1":
                break
            count, at = count + 1, at + 5 + int.from_bytes(head[1:], "big")
    return count, at


def processor_of(process):
    """The seconds of processor that a process took: its own, and those of the system for it."""
    with open(f"/proc/{process.pid}/stat", encoding="ascii") as file:
        fields = file.read().rpartition(")")[2].split()
    return int(fields[11]) / TICK, int(fields[12]) / TICK


# ---------------------------------------------------------------- speed

class Way:
    """How requests reach the server: directly or through a proxy, over connections that stay open or one a request."""

    def __init__(self, through, close):
        self.through, self.close = through, close

    def __str__(self):
        return f"{self.through or 'directly'}, {'a connection a request' if self.close else 'connections that stay open'}"


def measure(program, texts, folder, load, connections, sessions, way):
    """One row of a table."""
    journal, proxy = f"{folder}/journal", None
    server = Server(program, *texts, journal, WORKERS)
    try:
        port = server.address[1]
        if way.through:
            proxy, port = start(way.through, folder, port)
        found = load.run(port, connections, sessions, way.close, "sessions", "0")
    finally:
        if proxy:
            proxy.terminate()
            proxy.wait()
        server.kill()
    entries, size = entries_of(journal)
    os.remove(journal)
    allowed = found.replies / (entries * seconds_of_two_syncs(f"{folder}/records", size // entries))
    rate = found.replies / found.seconds
    print(f"| {connections} | {rate:.0f} | {found.answered / found.seconds:.0f} | {found.median / 1e3:.2f} | {found.p95 / 1e3:.2f} "
          f"| {found.p99 / 1e3:.2f} | {found.longest / 1e3:.0f} | {found.faults:.0f} | {allowed:.0f} | {rate / allowed:.0%} | {found.client:.0%} |", flush=True)


def speed(program, texts, folder, load, asked, way):
    print(f"\n{way}: {asked.sessions} sessions, {WORKERS} workers, {os.cpu_count()} processors, load {os.getloadavg()[0]:.1f} before\n")
    print("| Connections | Requests a second | Items answered a second | Median ms | 95 % ms | 99 % ms | Longest ms | Sent again | The disk's syncs allow "
          "| Part of it | Client's processor |")
    print("|---|---|---|---|---|---|---|---|---|---|---|")
    for connections in asked.connections:
        measure(program, texts, folder, load, connections, max(asked.sessions, connections), way)
    print(f"\nload {os.getloadavg()[0]:.1f} after")


def ways(asked):
    """The ways to measure."""
    if not asked.all:
        return [Way(asked.through, asked.close)]
    for name in PROXIES:
        if shutil.which(name) is None:
            print(f"{name}: not installed, passed over")
    through = [None, *(name for name in PROXIES if shutil.which(name))]
    return [Way(name, close) for name in through for close in (False, True)]


# ---------------------------------------------------------------- where the time of a request goes

KINDS = [("a connection, and a path that is no route", True, ("GET", "/nothing", "")), ("a path that is no route", False, ("GET", "/nothing", "")),
         ("the place of a session", False, ("GET", "/sessions/0", "")), ("a booking that is known", False, ("POST", "/sessions", '{"booking":0}')),
         ("an answer that is recorded", False, ("POST", "/sessions/0/answers", '{"step":0,"response":%d}')),
         ("the counts of exposure", False, ("GET", "/exposure", ""))]


def kinds(program, texts, folder, load, asked):
    """The time of each kind of request over one connection, and the server's processor for one."""
    server = Server(program, *texts, f"{folder}/journal", WORKERS)
    print(f"one connection, {asked.sessions * 10} requests of each kind, load {os.getloadavg()[0]:.1f}\n")
    print("| Request | Median us | 99 % us | Until connected us | Server's processor us | System's for it us |")
    print("|---|---|---|---|---|---|")
    try:
        kind_row(server, load, "begins and answers that add entries", False, asked.sessions, ("sessions", "0"))
        connection = Connection(server.address)
        recorded = [connection.ask(bearing(answer(0, 0, value), asked.token)) for value in range(2)]
        right = next(value for value, (status, _) in enumerate(recorded) if status == 200)
        for name, close, (method, path, body) in KINDS:
            kind_row(server, load, name, close, asked.sessions * 10, (method, path, body % right if "%d" in body else body))
    finally:
        server.kill()
    entries, size = entries_of(f"{folder}/journal")
    took = seconds_of_two_syncs(f"{folder}/records", size // entries)
    print(f"\ntwo syncs of a record of {size // entries} bytes: {took * 1e6:.0f} us; the sessions have {entries} records")


def kind_row(server, load, name, close, count, kind):
    before = processor_of(server.process)
    found = load.run(server.address[1], 1, count, close, *kind)
    own, system = ((now - then) / found.replies * 1e6 for now, then in zip(processor_of(server.process), before))
    print(f"| {name} | {found.median:.0f} | {found.p99:.0f} | {found.connect:.0f} | {own:.0f} | {system:.0f} |", flush=True)


# ---------------------------------------------------------------- memory

def texts_in(folder, bank, plan):
    names = f"{folder}/bank.csv", f"{folder}/plan.txt"
    for name, text in zip(names, (bank, plan)):
        with open(name, "w", encoding="ascii") as file:
            file.write(text)
    return names


def texts_of(folder, asked):
    """The bank and the plan: those that are named, or those of the drill."""
    if asked.texts:
        return asked.texts
    problem = drill(7, 200)
    plan = "".join(line for line in problem.plan.splitlines(True) if not line.startswith("sessions ")) + "sessions 65536\n"
    return texts_in(folder, problem.bank, plan)


def greatest():
    """A bank of 512 items, 61 grid points and 8 quantities, each item with 5 categories, and a plan for it."""
    draws = Draws(512)
    names = ["item", "stimulus", "categories"] + [f"q{k}" for k in range(8)] + [f"i{g}" for g in range(61)]
    names += [f"l{r}_{g}" for r in range(5) for g in range(61)]
    lines = [",".join(names)]
    for item in range(512):
        place, height = draws.between(0, 60), draws.between(2000, 10000)
        info = [max(0, height - 120 * abs(g - place)) for g in range(61)]
        likely = [-(50 + 8 * abs(g - place - 12 * (r - 2))) for r in range(5) for g in range(61)]
        row = [item, 1 + item // 8, 5, *(draws.between(30, 120) for _ in range(8)), *info, *likely]
        lines.append(",".join(map(str, row)))
    plan = ["length 40", "prior " + " ".join(str(-(g - 30)**2) for g in range(61)), "budget 1", "sessions 65536", "stimuli 0 64"]
    plan += [f"stimulus {s} 1 8" for s in range(1, 65)]
    return "\n".join(lines) + "\n", "\n".join(plan) + "\n"


def memory_of(process):
    """The memory of a process in kilobytes, now and at its greatest."""
    with open(f"/proc/{process.pid}/status", encoding="ascii") as file:
        said = dict(line.split(":", 1) for line in file)
    return [int(said[name].split()[0]) for name in ("VmRSS", "VmHWM")]


def size(program, folder, token):
    texts = texts_in(folder, *greatest())
    server = Server(program, *texts, f"{folder}/journal", WORKERS)
    try:
        empty, _ = memory_of(server.process)
        connection = Connection(server.address)
        for booking in range(1000):
            status, place = connection.ask(bearing(begin(booking), token))
            if status != 201:
                raise RuntimeError(f"status {status}: {place}")
        now, most = memory_of(server.process)
    finally:
        server.kill()
    print(f"512 items, 61 grid points, 5 categories: {empty} kB with no session, {now} kB at 1,000 open sessions, at most {most} kB")


def words_of():
    words = argparse.ArgumentParser(description="Measures the server on a loopback socket.")
    words.add_argument("program")
    words.add_argument("folder")
    words.add_argument("--connections", type=int, nargs="+", default=[1, 2, 4, 8, 16, 60, 200])
    words.add_argument("--sessions", type=int, default=200)
    words.add_argument("--through", choices=PROXIES)
    words.add_argument("--texts", nargs=2, metavar=("BANK", "PLAN"))
    words.add_argument("--token", default="")
    for name in ("close", "all", "kinds", "size"):
        words.add_argument(f"--{name}", action="store_true")
    return words.parse_args()


def main():
    asked = words_of()
    program = [os.path.abspath(asked.program)]
    if asked.token:
        os.environ["SHADOWD_TOKEN"] = asked.token
    with tempfile.TemporaryDirectory(dir=asked.folder) as folder:
        if asked.size:
            size(program, folder, asked.token)
            return
        texts, load = texts_of(folder, asked), Load(folder, asked.token)
        if asked.kinds:
            kinds(program, texts, folder, load, asked)
            return
        for way in ways(asked):
            speed(program, texts, folder, load, asked, way)


if __name__ == "__main__":
    main()
