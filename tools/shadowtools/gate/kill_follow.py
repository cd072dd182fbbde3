"""Kills a follower and a shipper at random moments, and takes over with the follower's file.

    kill_follow.py PROGRAM [--follower N] [--leader M] [--seed S] [--sessions K]

A leader's journal has K sessions of the example's bank and plan, in turns. `follow` and `ship` run as two processes on the loopback address, and
all bytes between them go through this tool. In a trial one of the two is killed after a random number of haves: the follower N times in all, the
shipper M times. After each kill the follower's file has to be a beginning of the leader's, with at least as many records as the greatest have that the
follower ever wrote, and the leader's file has to be as it was. In about every third trial the examination is taken over with a copy of
that file: `audit` finds these records, and `replay` begins the next session. If the follower has all records, the next trial begins with
none. At the end a trial without a kill makes the files equal. Of each of the two some kills have to come while records are shipped; else it
fails. The last line is 'N passed, M failed', of the kills; it stops at the first failure.
"""
import argparse
import collections
import os
import random
import re
import shutil
import socket
import subprocess
import sys
import tempfile
import threading
import time

from shadowtools.command import as_command
from shadowtools.gate.kill_replay import run, script_of
from shadowtools.places import DATA

LIMIT = 120  # seconds for each wait
HEADER = 8  # bytes of a journal before its first gate
HAVE = 9  # bytes of a have: 2, and the count
ENDS = {0, 14, 19, 20}  # statuses of a shipper or a follower whose other side may have been killed


class Wrong(Exception):
    """What was seen is not what has to be."""


def records_of(data):
    """How many records a journal of the second version has: gates that are open, each with a length and a payload."""
    count, at = 0, HEADER
    while at < len(data) and data[at] == 1:
        at += 5 + int.from_bytes(data[at + 1:at + 5], "big")
        count += 1
    return count


def end_of(data):
    """The place of the first closed gate of a journal; it is after the end of a file whose last record is cut."""
    at = HEADER
    while at < len(data) and data[at] == 1:
        at += 5 + int.from_bytes(data[at + 1:at + 5], "big")
    return at


def front_of(data):
    """The bytes of a journal up to its first closed gate."""
    return data[:end_of(data)]


class Relay:
    """Carries the bytes between a shipper, or a stream, and the follower at a port, and notes the greatest have."""

    def __init__(self):
        self.listener = socket.create_server(("127.0.0.1", 0))
        self.port, self.target, self.most, self.haves, self.fault = self.listener.getsockname()[1], None, 0, 0, None
        threading.Thread(target=self.serve, daemon=True).start()

    def serve(self):
        while True:
            near, _ = self.listener.accept()
            try:
                far = socket.create_connection(("127.0.0.1", self.target), LIMIT)
            except OSError:
                near.close()
                continue
            threading.Thread(target=self.carry, args=(near, far, None), daemon=True).start()
            threading.Thread(target=self.carry, args=(far, near, bytearray()), daemon=True).start()

    def carry(self, source, target, haves):
        """Carries what one side sends, and its end; the haves are read from what the follower sends."""
        try:
            while data := source.recv(4096):
                if haves is not None:
                    haves += data
                    self.note(haves)
                target.sendall(data)
        except OSError:
            pass
        for side in (source, target):
            try:
                side.shutdown(socket.SHUT_RD if side is source else socket.SHUT_WR)
            except OSError:
                pass

    def note(self, haves):
        while len(haves) >= HAVE:
            if haves[0] != 2:
                self.fault = f"the follower wrote {bytes(haves[:HAVE]).hex()}, which is no have"
                raise Wrong(self.fault)
            self.most, self.haves = max(self.most, int.from_bytes(haves[1:HAVE], "big")), self.haves + 1
            del haves[:HAVE]


class Sides:
    """A leader's journal and a follower's, in a folder with their bank and plan."""

    def __init__(self, program, folder, draw):
        self.program, self.folder, self.draw, self.seen = program, folder, draw, collections.Counter()
        self.texts = [os.path.join(folder, name) for name in ("bank.csv", "plan.txt")]
        for path in self.texts:
            shutil.copy(os.path.join(DATA, os.path.basename(path)), path)
        self.leader, self.follower = (os.path.join(folder, name) for name in ("leader.journal", "follower.journal"))
        self.relay, self.following = Relay(), None

    def data(self, path):
        if not os.path.exists(path):
            return b""
        with open(path, "rb") as file:
            return file.read()

    def start(self, command, journal, **settings):
        return subprocess.Popen([self.program, command, *self.texts], env=dict(os.environ, SHADOWD_JOURNAL=journal, **settings),
                                stdin=subprocess.DEVNULL, stdout=subprocess.PIPE, stderr=subprocess.PIPE, text=True)

    def follow(self):
        """Starts the follower, if it does not run, and waits until it listens."""
        if self.following and self.following.poll() is None:
            return
        self.following = self.start("follow", self.follower, SHADOWD_LISTEN="127.0.0.1:0")
        while line := self.following.stderr.readline():
            if found := re.search(r"following on 127\.0\.0\.1:(\d+),", line):
                self.relay.target = int(found[1])
                return
        raise Wrong(f"the follower ended with {self.following.wait(LIMIT)} before it listened")

    def end(self, process, name, statuses):
        """Waits for the end of a process, which has to have one of these statuses."""
        printed, told = process.communicate(timeout=LIMIT)
        if process.returncode not in statuses:
            raise Wrong(f"{name} ended with {process.returncode}: {printed!r}, {told[-300:]!r}")
        return printed

    def take_over(self, when):
        """Goes on with a copy of the follower's file, as its operator would after the leader is lost."""
        copy = os.path.join(self.folder, "copy.journal")
        with open(os.open(copy, os.O_WRONLY | os.O_CREAT | os.O_TRUNC, 0o600), "wb") as file:
            file.write(self.data(self.follower))
        status, numbers = self.audit(copy)
        count = records_of(self.data(copy))
        if status != 0 or not numbers.startswith(f"entries {count} sessions "):
            raise Wrong(f"{when}: audit of the copy gives {status}, {numbers[:200]!r}; it has {count} records")
        sessions = int(numbers.split()[3])
        status, lines = run(self.program, self.folder, ["begin 5000"], copy)
        if status != 0 or len(lines) != 1 or not lines[0].startswith(f"session {sessions} step 0 "):
            raise Wrong(f"{when}: the next session after {sessions} gives {status}, {lines}")
        os.remove(copy)
        self.seen["taken over"] += 1

    def audit(self, journal):
        done = subprocess.run([self.program, "audit", *self.texts], env=dict(os.environ, SHADOWD_JOURNAL=journal),
                              stdin=subprocess.DEVNULL, stdout=subprocess.PIPE, stderr=subprocess.PIPE, timeout=LIMIT, check=False)
        return done.returncode, done.stdout.decode("ascii")


class Pair(Sides):
    """The leader's journal is that of an examination that has ended, and is shipped."""

    def __init__(self, program, folder, sessions, draw):
        super().__init__(program, folder, draw)
        status, _ = run(program, folder, script_of(sessions, draw), self.leader)
        if status != 0:
            raise Wrong(f"the leader's examination ended with status {status}")
        self.whole = self.data(self.leader)

    def ship(self):
        return self.start("ship", self.leader, SHADOWD_FOLLOWER=f"127.0.0.1:{self.relay.port}")

    def compare(self, when):
        """Demands that the follower's file is a beginning of the leader's, and has each record below a have."""
        if self.data(self.leader) != self.whole:
            raise Wrong(f"{when}: the leader's file has changed")
        found = self.data(self.follower)
        front = front_of(found) if found else b""
        if not self.whole.startswith(front):
            raise Wrong(f"{when}: the follower's file is no beginning of the leader's")
        if records_of(found) < self.relay.most:
            raise Wrong(f"{when}: the follower answered {self.relay.most} and has {records_of(found)} records")

    def run_whole(self):
        """A shipment that nobody kills."""
        self.follow()
        printed = self.end(self.ship(), "ship", {0})
        if printed != f"shipped {records_of(self.whole)}\n":
            raise Wrong(f"ship printed {printed!r}")
        self.compare("not killed")
        if self.data(self.follower) != self.whole:
            raise Wrong("not killed: the follower's file is not the leader's")

    def empty(self):
        """Ends the follower, and lets the next one begin without a file."""
        if self.following:
            self.following.kill()
            self.following.communicate(timeout=LIMIT)
            self.following = None
        if os.path.exists(self.follower):
            os.remove(self.follower)
        self.relay.most = 0

    def wait(self, haves, shipping):
        """Waits until the follower has written so many haves, or the shipper has ended, and for a moment more."""
        limit = time.monotonic() + LIMIT
        while self.relay.haves < haves and shipping.poll() is None:
            if time.monotonic() > limit:
                raise Wrong(f"no {haves} haves in {LIMIT} s")
            time.sleep(0.0002)
        time.sleep(self.draw.random() * 0.002)

    def trial(self, victim, when):
        """Kills one of the two after a random number of haves."""
        if records_of(self.data(self.follower)) == records_of(self.whole):
            self.empty()
        self.follow()
        left = records_of(self.whole) - records_of(self.data(self.follower))
        before, shipping = self.relay.haves, self.ship()
        self.wait(before + self.draw.randrange(left + 1), shipping)
        is_running = shipping.poll() is None
        if victim == "follower":
            self.following.kill()
            self.following.communicate(timeout=LIMIT)
        else:
            shipping.kill()
        self.end(shipping, "ship", ENDS | {-9})
        if victim == "leader" and self.following.poll() is not None:
            self.end(self.following, "follow", ENDS)
        self.seen[victim] += 1
        self.seen[f"{victim} inside"] += is_running and self.relay.haves > before
        if victim == "follower":
            self.compare(when)
            if self.draw.random() < 0.3:
                self.take_over(when)


def kill_often(pair, follower, leader):
    """So many kills of each, in any order, and a shipment that nobody kills before and after them."""
    pair.empty()
    pair.run_whole()
    victims = ["follower"] * follower + ["leader"] * leader
    pair.draw.shuffle(victims)
    for number, victim in enumerate(victims):
        pair.trial(victim, f"kill {number}, of the {victim}")
    # After a shipper was killed its follower may still run: it is ended before its file is compared.
    if pair.following and pair.following.poll() is None:
        pair.following.kill()
        pair.following.communicate(timeout=LIMIT)
    pair.compare("after the last kill")
    pair.take_over("after the last kill")
    pair.run_whole()
    for victim, kills in (("follower", follower), ("leader", leader)):
        if kills and not pair.seen[f"{victim} inside"]:
            raise Wrong(f"no kill of the {victim} came while records were shipped")


def main(words):
    parser = argparse.ArgumentParser(description="Kills a follower and a shipper at random moments, and takes over with the follower's file.")
    parser.add_argument("program")
    parser.add_argument("--follower", type=int, default=100)
    parser.add_argument("--leader", type=int, default=20)
    parser.add_argument("--seed", type=int, default=7)
    parser.add_argument("--sessions", type=int, default=30)
    asked = parser.parse_args(words)
    seen = collections.Counter()
    with tempfile.TemporaryDirectory() as folder:
        pair = None
        try:
            pair = Pair(os.path.abspath(asked.program), folder, asked.sessions, random.Random(asked.seed))
            seen = pair.seen
            kill_often(pair, asked.follower, asked.leader)
        except Wrong as wrong:
            print(f"{wrong} (seed {asked.seed})")
            print(f"{seen['follower'] + seen['leader']} passed, 1 failed")
            return 1
        finally:
            if pair:
                pair.empty()
    print(f"{records_of(pair.whole)} records; {seen['follower inside']} of {seen['follower']} kills of the follower and {seen['leader inside']} of "
          f"{seen['leader']} of the shipper while records were shipped; {seen['taken over']} taken over")
    print(f"{seen['follower'] + seen['leader']} passed, 0 failed")
    return 0


command = as_command(main)


if __name__ == "__main__":
    sys.exit(command())
