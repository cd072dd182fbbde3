"""Kills `shadowd serve` under load, and reads each acknowledged answer back from the journal.

    serve_load.py PROGRAM [--requests N] [--kills K] [--clients C] [--seed S] [--folder FOLDER]

C clients in threads take whole sessions of the example's bank over connections that stay open, until N requests are answered. Meanwhile the
server is killed K times by SIGKILL, at random moments, and started again over the same journal. A client whose connection is lost makes
a new one and sends its last request again. At the end `shadowd replay` reads the journal:

- each booking that was acknowledged has the session that was acknowledged;
- each acknowledged answer is recorded: another response to the same step is refused, with the response that was acknowledged;
- each item was shown in as many finished sessions as the clients were shown it;
- none of this changes a byte of the journal.

The last line is 'N passed, M failed'. FOLDER is where the journal is written, by default the folder of temporary files.
"""
import argparse
import collections
import os
import random
import shutil
import subprocess
import sys
import tempfile
import threading
import time

from shadowtools.gate.exam_client import Connection, Lost, Server, answer, begin
from shadowtools.command import as_command
from shadowtools.places import DATA

WORKERS = 16


class Load:
    """What the clients share: where the server is, how much was acknowledged, and what was."""

    def __init__(self, requests, kills):
        self.wanted = requests
        self.kills_left = kills
        self.lock = threading.Lock()
        self.replies = 0
        self.lost = 0
        self.sessions = {}  # booking -> session
        self.answers = {}  # (session, step) -> response
        self.shown = collections.Counter()
        self.faults = []
        self.address = None

    def goes_on(self):
        return (self.replies < self.wanted or self.kills_left > 0) and not self.faults

    def fault(self, text):
        with self.lock:
            self.faults.append(text)


class Client:
    """Whole sessions, one after another, over one connection at a time."""

    def __init__(self, load, number, seed):
        self.load, self.number = load, number
        self.draw = random.Random(seed)
        self.connection = None

    def ask(self, message):
        """The reply; the request is sent again where its connection is lost."""
        until = time.monotonic() + 900
        while time.monotonic() < until:
            try:
                if self.connection is None:
                    self.connection = Connection(self.load.address)
                reply = self.connection.ask(message)
                with self.load.lock:
                    self.load.replies += 1
                return reply
            except Lost:
                self.connection = None
                with self.load.lock:
                    self.load.lost += 1
                time.sleep(0.02)
        raise RuntimeError("no reply in a quarter of an hour")

    def session(self, booking):
        """A session from its begin to its end."""
        status, place = self.ask(begin(booking))
        session = place["session"]
        if status not in (200, 201) or place.get("step") != 0:
            raise RuntimeError(f"begin {booking}: {status} {place}")
        self.load.sessions[booking] = session
        while place["state"] == "waiting":
            step, response = place["step"], self.draw.randrange(2)
            self.load.shown[(session, place["item"])] += 1
            status, place = self.ask(answer(session, step, response, booking))
            if status != 200 or (place["state"] == "waiting" and place["step"] != step + 1):
                raise RuntimeError(f"answer {session} {step} {response}: {status} {place}")
            self.load.answers[session, step] = response
        if place["state"] != "complete":
            raise RuntimeError(f"session {session}: {place}")

    def run(self):
        count = 0
        try:
            while self.load.goes_on():
                self.session(1_000_000 * (self.number + 1) + count)
                count += 1
        except Exception as fault:  # any failure of a client ends the trial
            self.load.fault(f"client {self.number}: {fault}")
        if self.connection:
            self.connection.close()


def replay(program, folder, journal, requests):
    """The lines of these requests over the journal."""
    script = os.path.join(folder, "script.txt")
    with open(script, "w", encoding="ascii") as file:
        file.write("".join(request + "\n" for request in requests))
    words = [*program, "replay", f"{folder}/bank.csv", f"{folder}/plan.txt", script]
    done = subprocess.run(words, env=dict(os.environ, SHADOWD_JOURNAL=journal), stdout=subprocess.PIPE, check=False)
    if done.returncode != 0:
        raise RuntimeError(f"replay ended with status {done.returncode}: {done.stdout[-200:]!r}")
    return done.stdout.decode("ascii").splitlines()


def read_back(program, folder, journal, load):
    """The number of acknowledged facts that the journal has, and the lines on those that it lacks."""
    replay(program, folder, journal, [])  # recovers what the last kill left
    with open(journal, "rb") as file:
        before = file.read()
    asked, wanted = [], []
    for booking, session in sorted(load.sessions.items()):
        asked.append(f"begin {booking}")
        wanted.append(f"session {session} complete")
    for (session, step), response in sorted(load.answers.items()):
        asked.append(f"answer {session} {step} {1 - response}")
        wanted.append(f"refused other {response}")
    lines = replay(program, folder, journal, [*asked, "exposure"])
    shown = collections.Counter(item for _, item in load.shown)
    wanted.append(f"exposure finished {len(load.sessions)}")
    rows = lines[len(wanted):]
    faults = [f"{request}: {line!r}, wanted {want!r}" for request, line, want in zip([*asked, "exposure"], lines, wanted) if line != want]
    for item, row in enumerate(rows):
        if row.split()[:4] != ["item", str(item), "shown", str(shown[item])]:
            faults.append(f"{row!r}, but the clients were shown item {item} {shown[item]} times")
    with open(journal, "rb") as file:
        if file.read() != before:
            faults.append("reading back changed the journal")
    if len(lines) < len(wanted) or not rows:
        faults.append(f"{len(lines)} lines for {len(wanted)} requests")
    return len(wanted) + len(rows) + 1 - len(faults), faults


def drive(program, folder, journal, load, asked):
    """Runs the clients, and kills the server the stated number of times meanwhile."""
    draw = random.Random(asked.seed)
    server = Server(program, f"{folder}/bank.csv", f"{folder}/plan.txt", journal, WORKERS)
    load.address = server.address
    clients = [threading.Thread(target=Client(load, k, asked.seed + k).run) for k in range(asked.clients)]
    for client in clients:
        client.start()
    share = asked.requests / (asked.kills + 1)
    for kill in range(asked.kills):
        goal = share * (kill + 0.5 + draw.random())
        while load.replies < goal and not load.faults:
            time.sleep(0.001)
        server.kill()
        server = Server(program, f"{folder}/bank.csv", f"{folder}/plan.txt", journal, WORKERS)
        load.address = server.address
        load.kills_left -= 1
    for client in clients:
        client.join()
    server.kill()


def main(words):
    parser = argparse.ArgumentParser(description="Kills the server under load, and reads each acknowledged answer back.")
    parser.add_argument("program")
    parser.add_argument("--requests", type=int, default=20_000)
    parser.add_argument("--kills", type=int, default=10)
    parser.add_argument("--clients", type=int, default=8)
    parser.add_argument("--seed", type=int, default=7)
    parser.add_argument("--folder")
    asked = parser.parse_args(words)
    if asked.clients >= WORKERS:
        parser.error(f"each client holds a worker, and one more connection is needed: at most {WORKERS - 1} clients")
    program = [os.path.abspath(asked.program)]
    load = Load(asked.requests, asked.kills)
    with tempfile.TemporaryDirectory(dir=asked.folder) as folder:
        shutil.copy(os.path.join(DATA, "bank.csv"), folder)
        with open(os.path.join(DATA, "plan.txt"), encoding="ascii") as plan, open(f"{folder}/plan.txt", "w", encoding="ascii") as copy:
            copy.write(plan.read() + "sessions 65536\njournal 536870912\n")
        begun = time.monotonic()
        drive(program, folder, f"{folder}/journal", load, asked)
        took = time.monotonic() - begun
        print(f"{load.replies} replies in {took:.1f} s to {asked.clients} clients, {len(load.sessions)} sessions, {len(load.answers)} answers; "
              f"{asked.kills} kills, {load.lost} tries without a reply")
        passed, faults = (0, load.faults) if load.faults else read_back(program, folder, f"{folder}/journal", load)
    for fault in faults[:20]:
        print(fault)
    print(f"{passed} passed, {len(faults)} failed")
    return 1 if faults or not passed else 0


command = as_command(main)


if __name__ == "__main__":
    sys.exit(command())
