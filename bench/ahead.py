#!/usr/bin/env python3
"""Measures what `shadowd serve BANK PLAN AHEAD` takes off the wait for the next item, and what it costs. See ahead.md.

usage: ahead.py PROGRAM FOLDER [--ahead 256] [--clients 8] [--think 50] [--sessions 4] [--workers 16] [--only TEXT] [--short]

PROGRAM is the built program of crates/shadowd; the journals are written in FOLDER. Each client takes so many sessions, and thinks so many milliseconds
before each answer. Each bank is served without AHEAD and with it, with a connection a request and with connections that stay open. --only takes the
banks whose names have this text, --short one bank of each kind, with one session a client.
"""
import argparse
import heapq
import itertools
import os
import selectors
import socket
import sys
import tempfile
import time
from collections import namedtuple

import problems
from serve import texts_in

sys.path.insert(0, os.path.join(os.path.dirname(os.path.abspath(__file__)), "..", "tools"))
from exam_client import Connection, Server, answer, begin, request_bytes, split_reply  # noqa: E402

LOOKS = 500  # the looks whose processor time is taken off
SLOW = 0.005  # an answer that takes so many seconds without AHEAD is a slow one

# The seconds to each reply that has a next item, by booking and step, the server's processor in seconds, and the items served
Found = namedtuple("Found", "served processor items")


def banks(short):
    """The drills, bank L, the larger banks and those of passages."""
    made = [problems.drill(7, 200), problems.drill(100, 200), problems.twelve_categories()]
    sizes = [(256, 30, 30, 0), (256, 30, 30, 4), (512, 36, 60, 0), (512, 36, 60, 24)]
    made += [problems.Larger(items + stimuli, items, length, rows, stimuli).problem(0) for items, length, rows, stimuli in sizes]
    passages = [(200, 20, 16), (400, 60, 40), (512, 60, 64)]
    made += [problems.Passages(items + rows, items, rows, stimuli).problem(0) for items, rows, stimuli in passages]
    return [made[0], made[3], made[7]] if short else made


def response(booking, step):
    """The response of a booking at a step: the same in each run."""
    return problems.Draws(1000 * booking + step).next() % 2


def processor_of(process):
    """The seconds of processor that all threads of a process took."""
    folder, total = f"/proc/{process.pid}/task", 0
    for thread in os.listdir(folder):
        with open(f"{folder}/{thread}/schedstat", encoding="ascii") as file:
            total += int(file.read().split()[0])
    return total / 1e9


class Client:
    """An examinee after another: so many sessions, one request at a time."""

    def __init__(self, address, bookings, close):
        self.address, self.bookings, self.close = address, bookings, close
        self.socket, self.kept, self.sent, self.is_answer = None, b"", 0.0, False
        self.booking, self.place = None, None

    def send(self, chosen):
        """Sends the answer to the item that it has, or begins its next session. Whether there was anything to send."""
        if self.place and self.place["state"] == "waiting":
            session, step = self.place["session"], self.place["step"]
            self.is_answer, message = True, answer(session, step, response(self.booking, step))
        else:
            self.booking = next(self.bookings, None)
            if self.booking is None:
                return False
            self.is_answer, message = False, begin(self.booking)
        if self.close:
            message = message.replace(b"Host: exam\r\n", b"Host: exam\r\nConnection: close\r\n", 1)
        self.sent = time.perf_counter()
        if self.socket is None:
            self.socket = socket.create_connection(self.address, 60)
            self.socket.setsockopt(socket.IPPROTO_TCP, socket.TCP_NODELAY, 1)
            chosen.register(self.socket, selectors.EVENT_READ, self)
        self.socket.sendall(message)
        return True

    def receive(self, chosen):
        """The seconds to the reply, if it is whole."""
        more = self.socket.recv(65536)
        if not more:
            raise RuntimeError("the server closed a connection before its reply")
        found, now = split_reply(self.kept + more), time.perf_counter()
        if not found:
            self.kept += more
            return None
        (status, self.place), self.kept = found
        if status not in (200, 201):
            raise RuntimeError(f"status {status}: {self.place}")
        if self.close:
            chosen.unregister(self.socket)
            self.socket.close()
            self.socket = None
        return now - self.sent


def examine(address, asked, close):
    """The seconds to each reply that has a next item, by booking and step; the items served."""
    served, items, order, each = {}, 0, itertools.count(), asked.sessions
    with selectors.DefaultSelector() as chosen:
        clients = [Client(address, iter(range(k * each, (k + 1) * each)), close) for k in range(asked.clients)]
        begun = time.perf_counter()
        due = [(begun + asked.think / 1e3 * k / asked.clients, next(order), client) for k, client in enumerate(clients)]
        heapq.heapify(due)
        while due or chosen.get_map():
            while due and due[0][0] <= time.perf_counter():
                client = heapq.heappop(due)[2]
                if not client.send(chosen) and client.socket is not None:
                    chosen.unregister(client.socket)
                    client.socket.close()
            wait = max(0.0, due[0][0] - time.perf_counter()) if due else 60
            for key, _ in chosen.select(wait) if chosen.get_map() else ():
                client = key.data
                took = client.receive(chosen)
                if took is None:
                    continue
                waits = client.place["state"] == "waiting"
                items += waits
                if client.is_answer and waits:
                    served[client.booking, client.place["step"]] = took
                heapq.heappush(due, (time.perf_counter() + asked.think / 1e3, next(order), client))
            if due and not chosen.get_map():
                time.sleep(max(0.0, due[0][0] - time.perf_counter()))
    return served, items


def processor_of_a_look(server):
    """The server's processor for a request that records nothing, in seconds."""
    connection, before = Connection(server.address), processor_of(server.process)
    for _ in range(LOOKS):
        connection.ask(request_bytes("GET", "/sessions/0"))
    connection.close()
    return (processor_of(server.process) - before) / LOOKS


def measure(program, texts, folder, asked, ahead, close):
    """What one run finds, and the processor of a look."""
    journal = f"{folder}/journal"
    server = Server(program, *texts, journal, asked.workers, ahead=ahead)
    try:
        before = processor_of(server.process)
        served, items = examine(server.address, asked, close)
        time.sleep(0.2)  # until what is prepared last is there
        found = Found(served, processor_of(server.process) - before, items)
        return found, processor_of_a_look(server)
    finally:
        server.kill()
        os.remove(journal)


def part(times, share):
    """The time in milliseconds that this share of the times do not exceed."""
    return sorted(times)[min(len(times) - 1, int(len(times) * share))] * 1e3


def taken_off(found, without):
    """Of the answers that are slow without AHEAD, the share that takes less than half of that time."""
    slow = [key for key, took in without.served.items() if took > SLOW and key in found.served]
    return f"{sum(found.served[key] < without.served[key] / 2 for key in slow) / len(slow):.0%} of {len(slow)}" if slow else "none slow"


def row(name, ahead, found, step, without):
    """One row of the table. `step` is the processor of a step. `without` is what the run without AHEAD found, and its processor of a step."""
    times = list(found.served.values())
    less = taken_off(found, without[0]) if without else ""
    print(f"| {name} | {ahead or 'none'} | {len(times)} | {part(times, 0.5):.2f} | {part(times, 0.95):.1f} | {part(times, 0.99):.1f} "
          f"| {max(times) * 1e3:.0f} | {less} | {step * 1e3:.2f} | {step / without[1] if without else 1:.2f} |", flush=True)


def table(program, folder, asked, close):
    print(f"\n{'A connection a request' if close else 'Connections that stay open'}: {asked.clients} clients that think {asked.think} ms, {asked.sessions} sessions "
          f"each, {asked.workers} workers, {os.cpu_count()} processors, load {os.getloadavg()[0]:.1f} before\n")
    print("| Bank | AHEAD | Answers | Median ms | 95 % ms | 99 % ms | Longest ms | Slow ones halved | Processor a step ms | Beside none |")
    print("|---|---|---|---|---|---|---|---|---|---|", flush=True)
    for problem in banks(asked.short):
        if asked.only not in problem.name:
            continue
        texts, without = texts_in(folder, problem.bank, problem.plan), None
        for ahead in (None, asked.ahead):
            found, look = measure(program, texts, folder, asked, ahead, close)
            step = found.processor / found.items - look
            row(problem.name, ahead, found, step, without)
            without = without or (found, step)
    print(f"\nload {os.getloadavg()[0]:.1f} after")


def words_of():
    words = argparse.ArgumentParser(description="Measures forms that are ready before the answer.")
    words.add_argument("program")
    words.add_argument("folder")
    for name, number in (("ahead", 256), ("clients", 8), ("think", 50), ("sessions", 4), ("workers", 16)):
        words.add_argument(f"--{name}", type=int, default=number)
    words.add_argument("--only", default="")
    words.add_argument("--short", action="store_true")
    return words.parse_args()


def main():
    asked = words_of()
    if asked.short:
        asked.sessions = 1
    program = [os.path.abspath(asked.program)]
    with tempfile.TemporaryDirectory(dir=asked.folder) as folder:
        for close in (True, False):
            table(program, folder, asked, close)


if __name__ == "__main__":
    main()
