#!/usr/bin/env python3
"""Streams the journal of a server under load to a follower that judges nothing; then ships and streams a part of it to `follow`. See stream.md.

usage: stream.py PROGRAM [--clients N] [--seconds N] [--records N] [--folder FOLDER]

PROGRAM is the built program of crates/shadowd; the journals are written in FOLDER (the folder of temporary files without it).
"""
import argparse
import http.client
import json
import os
import re
import socket
import subprocess
import sys
import tempfile
import threading
import time

TOP = os.path.dirname(os.path.dirname(os.path.abspath(__file__)))
sys.path.insert(0, os.path.join(TOP, "tools"))
sys.path.insert(0, os.path.join(TOP, "tools", "tests"))
from fake_follower import Follower, frames, records  # noqa: E402

BANK = os.path.join(TOP, "crates", "shadowd", "data", "bank.csv")
PLAN = "length 3\nprior -10 0 -10\ncount 1 1 0-1\ncount 0 1 2 5\nsessions 65536\njournal 536870912\n"


def free_port():
    with socket.create_server(("127.0.0.1", 0)) as holder:
        return holder.getsockname()[1]


def ask(connection, method, path, body=None):
    connection.request(method, path, None if body is None else json.dumps(body))
    response = connection.getresponse()
    data = response.read()
    if response.status // 100 != 2:
        sys.exit(f"{path}: {response.status} {data!r}")
    return json.loads(data)


def client(port, number, stop, waits):
    """Whole sessions over one connection until the stop; the seconds that each answer took."""
    connection, booking = http.client.HTTPConnection("127.0.0.1", port, timeout=60), 100_000 * number
    while not stop.is_set():
        booking += 1
        session = ask(connection, "POST", "/sessions", {"booking": booking})["session"]
        for step, response in enumerate((1, 0, 1)):
            begin = time.monotonic()
            ask(connection, "POST", f"/sessions/{session}/answers", {"step": step, "response": response})
            waits.append(time.monotonic() - begin)
    connection.close()


def counted(path):
    with open(path, "rb") as file:
        return len(records(file.read()))


def at(values, part):
    return sorted(values)[min(len(values) - 1, int(part * len(values)))]


def load(port, clients, seconds, sample):
    """The answers' seconds, and the samples taken each fifth of a second."""
    stop, waits, samples = threading.Event(), [], []
    threads = [threading.Thread(target=client, args=(port, number + 1, stop, waits)) for number in range(clients)]
    for thread in threads:
        thread.start()
    end = time.monotonic() + seconds
    while time.monotonic() < end:
        time.sleep(0.2)
        samples.append(sample())
    stop.set()
    for thread in threads:
        thread.join()
    return waits, samples


def serve(program, plan, settings, port):
    server = subprocess.Popen([program, "serve", BANK, plan], env=settings, stderr=subprocess.DEVNULL)
    while True:
        try:
            socket.create_connection(("127.0.0.1", port), 1).close()
            return server
        except OSError:
            time.sleep(0.05)


def run(program, folder, plan, options, streams):
    """One server under load, with a stream beside it or not. Its journal's path."""
    journal, port = os.path.join(folder, f"journal{int(streams)}"), free_port()
    follower = Follower()
    settings = dict(os.environ, SHADOWD_JOURNAL=journal, SHADOWD_LISTEN=f"127.0.0.1:{port}", SHADOWD_WORKERS=str(options.clients + 2),
                    SHADOWD_FOLLOWER=f"127.0.0.1:{follower.port}")
    server = serve(program, plan, settings, port)
    stream = subprocess.Popen([program, "stream", BANK, plan], env=settings, stderr=subprocess.DEVNULL) if streams else None
    begin = time.monotonic()
    waits, lags = load(port, options.clients, options.seconds, lambda: counted(journal) - len(follower.payloads))
    spent, total = time.monotonic() - begin, counted(journal)
    print(f"{'with' if streams else 'without'} a stream: {total} records in {spent:.1f} s, {total / spent:.0f} a second; "
          f"an answer: median {1000 * at(waits, .5):.1f} ms, 95th percentile {1000 * at(waits, .95):.1f} ms")
    if stream:
        print(f"  lag in records, of {len(lags)} samples: median {at(lags, .5)}, 95th percentile {at(lags, .95)}, 99th {at(lags, .99)}, greatest {max(lags)}")
        end = time.monotonic()
        while len(follower.payloads) < total:
            time.sleep(0.01)
        print(f"  the follower had all {time.monotonic() - end:.2f} s after the last answer")
        stream.kill()
        used = os.wait4(stream.pid, 0)[2]
        print(f"  the stream took {used.ru_utime + used.ru_stime:.2f} s of a processor")
        with open(journal, "rb") as file:
            assert follower.journal() == file.read()
    server.kill()
    server.wait()
    follower.stop()
    return journal


def syncs(folder, seconds=3):
    """How many syncs of a file a second, each after a write of 100 bytes at its end."""
    count, begin = 0, time.monotonic()
    with open(os.path.join(folder, "syncs"), "wb", buffering=0) as file:
        while time.monotonic() < begin + seconds:
            file.write(b"\0" * 100)
            os.fsync(file.fileno())
            count += 1
    return count / (time.monotonic() - begin)


def follow(program, plan, journal):
    """A follower of this journal that judges, and its address."""
    follower = subprocess.Popen([program, "follow", BANK, plan], env=dict(os.environ, SHADOWD_JOURNAL=journal, SHADOWD_LISTEN="127.0.0.1:0"),
                                stdout=subprocess.DEVNULL, stderr=subprocess.PIPE, text=True)
    while line := follower.stderr.readline():
        if found := re.search(r"following on (\S+),", line):
            return follower, found[1]
    sys.exit("the follower does not listen")


def held(path):
    """The bytes of a file, none if it is not there."""
    if not os.path.exists(path):
        return b""
    with open(path, "rb") as file:
        return file.read()


def carry(program, folder, plan, journal, command):
    """The seconds in which `ship`, or `stream` beside a server that nobody asks, gives all records of a journal to `follow`."""
    port, copy, whole = free_port(), os.path.join(folder, f"{command}.journal"), held(journal)
    follower, address = follow(program, plan, copy)
    settings = dict(os.environ, SHADOWD_JOURNAL=journal, SHADOWD_LISTEN=f"127.0.0.1:{port}", SHADOWD_FOLLOWER=address)
    server = serve(program, plan, settings, port) if command == "stream" else None
    begin = time.monotonic()
    carrier = subprocess.Popen([program, command, BANK, plan], env=settings, stdout=subprocess.DEVNULL, stderr=subprocess.DEVNULL)
    while len(held(copy)) < len(whole) or held(copy) != whole:
        if carrier.poll() not in (None, 0) or follower.poll() is not None:
            sys.exit(f"{command} ended with {carrier.poll()}, follow with {follower.poll()}")
        time.sleep(0.005)
    spent = time.monotonic() - begin
    for process in (carrier, server, follower):
        if process:
            process.kill()
            process.wait()
    return spent


def carry_each(program, folder, plan, journal, options):
    """`ship` and `stream` to `follow`, of the first records of a journal, and the disk's syncs before and after."""
    part, first = os.path.join(folder, "part.journal"), records(held(journal))[:options.records]
    with open(os.open(part, os.O_WRONLY | os.O_CREAT, 0o600), "wb") as file:
        file.write(frames(first))
    before = syncs(folder)
    spent = {command: carry(program, folder, plan, part, command) for command in ("ship", "stream")}
    after = syncs(folder)
    for command, seconds in spent.items():
        print(f"{command} to follow: {len(first)} records in {seconds:.2f} s, {len(first) / seconds:.0f} a second")
    print(f"  the disk: {before:.0f} syncs a second before, {after:.0f} after; a record is two of the follower's")


def command():
    parser = argparse.ArgumentParser(usage=__doc__)
    parser.add_argument("program")
    parser.add_argument("--clients", type=int, default=8)
    parser.add_argument("--seconds", type=int, default=20)
    parser.add_argument("--records", type=int, default=4000)
    parser.add_argument("--folder")
    options = parser.parse_args()
    print(f"load of the machine: {os.getloadavg()[0]:.1f} on {os.cpu_count()} processors")
    with tempfile.TemporaryDirectory(dir=options.folder) as folder:
        program, plan = os.path.abspath(options.program), os.path.join(folder, "plan.txt")
        with open(plan, "w", encoding="ascii") as file:
            file.write(PLAN)
        for streams in (False, True):
            journal = run(program, folder, plan, options, streams)
        carry_each(program, folder, plan, journal, options)
    print(f"load of the machine after it: {os.getloadavg()[0]:.1f}")


command()
