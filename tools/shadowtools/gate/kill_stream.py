"""Kills a follower, and a server under load, at random moments, with a stream between them, and takes over with the follower's file.

    kill_stream.py PROGRAM [--follower N] [--leader M] [--seed S] [--clients C]

C clients begin sessions of the example's bank and plan at `serve`, and answer them. `stream` runs beside the server, and `follow` on a second
journal; the bytes between these two go through this tool. The follower is killed N times and started again, and the server M times. About a
third of the kills come after a random number of further records at the follower, a third once it has all records that the leader had, and a third
after a random time. At about every second kill of the server its stream is killed too. After each kill, and after each start, the follower's file
has to be a beginning of the leader's, with at least as many records as the greatest have that a follower ever wrote; the leader's file has to have
all records that it had. The stream must never end by itself, and must go on at each follower. In about every sixth kill of the follower the
examination is taken over with a copy of its file: `audit` finds its records, `replay` begins the next session, and `serve` has the last answers that
these records count. At the end the clients stop, the follower gets all records, and the server is killed for good. The two files are equal then, and
`serve` over the follower's has each answer that a client had a reply to. Of the kills of the follower one at least has to come while it lacks records
of the leader: if none of the N did, it is killed on, at most 20 times more, and if none of these did, the run fails. Where another program has taken
the server's port while the server was down, the server is started again until that port is free. The last line is 'N passed, M failed', of the kills;
it stops at the first failure.
"""
import argparse
import collections
import os
import random
import socket
import subprocess
import sys
import tempfile
import threading
import time

from shadowtools.command import as_command
from shadowtools.gate.exam_client import Connection, Lost, Server, answer, begin, request_bytes
from shadowtools.gate.kill_follow import ENDS, HEADER, Sides, Wrong, end_of, front_of, records_of

LIMIT = 60  # seconds without what is waited for
HEALTH = request_bytes("GET", "/health")
PAUSE = 0.05  # seconds at most between two answers of a client
LAST = 1000  # how many answers are asked for in a copy of the follower's file
SESSIONS = 65535  # the limit of the plan
KILLED = -9  # the status of a process that was killed
FURTHER = 20  # kills of the follower at most, after the asked ones, until one comes while it lacks records

Answer = collections.namedtuple("Answer", "entries session step response")  # `entries`: so many the server had after it


def free_port():
    """A port that nobody listens at, below those that the system gives to clients. No seed decides it: another run, with the same
    seed, must not take it while this run's server is down."""
    while True:
        port = random.SystemRandom().randrange(20000, 32000)
        try:
            socket.create_server(("127.0.0.1", port)).close()
            return port
        except OSError:
            continue


class Client(threading.Thread):
    """Begins sessions and answers them, one after another. Where the server is gone it asks the same again."""

    def __init__(self, address, number, draw):
        super().__init__(daemon=True)
        self.address, self.booking, self.draw, self.connection = address, 1000000 * (number + 1), draw, None
        self.answers, self.ended, self.fault, self.is_over = [], threading.Event(), None, False

    def run(self):
        try:
            while not self.ended.is_set():
                self.session()
        except (Wrong, LookupError, ValueError) as fault:
            self.fault = f"a client: {fault!r}"

    def ask(self, message, *statuses):
        """The body of the reply, by the server or by one that is started after it."""
        limit = time.monotonic() + LIMIT
        while time.monotonic() < limit and not self.is_over:
            try:
                self.connection = self.connection or Connection(self.address, LIMIT)
                status, body = self.connection.ask(message)
            except Lost:
                self.leave()
                time.sleep(0.01)
                continue
            if status not in statuses:
                raise Wrong(f"{message!r} gives {status}, {body}")
            return body
        raise Wrong(f"no reply in {LIMIT} s to {message!r}")

    def leave(self):
        if self.connection:
            self.connection.close()
        self.connection = None

    def session(self):
        """A whole session. The count of entries after each reply tells which counts have the answer."""
        self.booking += 1
        reply = self.ask(begin(self.booking), 200, 201)
        while reply["state"] == "waiting":
            session, step, response = reply["session"], reply["step"], self.draw.randrange(2)
            reply = self.ask(answer(session, step, response, self.booking), 200)
            self.answers.append(Answer(self.ask(HEALTH, 200)["entries"], session, step, response))
            time.sleep(self.draw.random() * PAUSE)
        if reply["state"] != "complete":
            raise Wrong(f"booking {self.booking} ends with {reply}")


class Streaming(Sides):
    """A server under load, a stream beside it, and a follower."""

    def __init__(self, program, folder, draw, clients):
        super().__init__(program, folder, draw)
        with open(self.texts[1], "a", encoding="ascii") as plan:
            plan.write(f"sessions {SESSIONS}\n")
        self.address, self.front, self.server, self.streaming = ("127.0.0.1", free_port()), b"", None, None
        self.clients = [Client(self.address, number, random.Random(draw.random())) for number in range(clients)]

    def serve(self, journal, address=("127.0.0.1", 0)):
        limit = time.monotonic() + LIMIT
        while True:
            try:
                return Server([self.program], *self.texts, journal, wait=LIMIT, listen=f"{address[0]}:{address[1]}")
            except RuntimeError as fault:
                if "cannot listen on" not in str(fault) or time.monotonic() > limit:
                    raise Wrong(f"serve on {os.path.basename(journal)}: {fault}") from fault
            time.sleep(0.1)

    def stream(self):
        """Starts the stream; its lines go to a file."""
        env = dict(os.environ, SHADOWD_JOURNAL=self.leader, SHADOWD_LISTEN=f"127.0.0.1:{self.address[1]}",
                   SHADOWD_FOLLOWER=f"127.0.0.1:{self.relay.port}")
        with open(os.path.join(self.folder, "stream.log"), "ab") as log:
            self.streaming = subprocess.Popen([self.program, "stream", *self.texts], env=env, stdin=subprocess.DEVNULL, stdout=log, stderr=log)

    def begin(self):
        self.server = self.serve(self.leader, self.address)
        self.follow()
        self.stream()
        for client in self.clients:
            client.start()

    def keep(self):
        """Starts a follower again whose link has ended, as a supervisor does, and demands that all others still run."""
        if self.following.poll() is not None:
            self.end(self.following, "follow", ENDS)
            self.seen["link ended"] += 1
            self.follow()
        self.keep_stream()
        if self.server.process.poll() is not None:
            raise Wrong(f"serve ended with {self.server.process.returncode}")
        for fault in (self.relay.fault, *(client.fault for client in self.clients)):
            if fault:
                raise Wrong(fault)
        if not all(client.is_alive() or client.ended.is_set() for client in self.clients):
            raise Wrong("a client has ended before the load does")

    def keep_stream(self):
        """Demands that the stream runs: nothing that is done here may end it but a kill."""
        if self.streaming.poll() is not None:
            with open(os.path.join(self.folder, "stream.log"), encoding="utf-8") as log:
                raise Wrong(f"stream ended with {self.streaming.returncode}: {log.read()[-300:]!r}")

    def until_at(self, count, when):
        """Waits until the follower has answered so many records, for a minute after each that it answers."""
        most, limit = self.relay.most, time.monotonic() + LIMIT
        while self.relay.most < count:
            self.keep()
            if self.relay.most > most:
                most, limit = self.relay.most, time.monotonic() + LIMIT
            if time.monotonic() > limit:
                raise Wrong(f"{when}: the follower answers {most} of {count} records, and no more in {LIMIT} s")
            time.sleep(0.001)

    def compare(self, when):
        """Demands that the follower's file is a beginning of the leader's and has each record below a have, and that the leader's
        goes on from what it was. What grows last is read first, so that both may be written meanwhile. Gives the length of the
        follower's records, and whether it has a part of one more."""
        most = self.relay.most
        found = self.data(self.follower)
        leader = self.data(self.leader)
        front, whole = front_of(found), front_of(leader)
        if end_of(found) > max(len(found), HEADER):
            raise Wrong(f"{when}: the last record of the follower's file is cut")
        if not whole.startswith(front):
            raise Wrong(f"{when}: the follower's file is no beginning of the leader's")
        if records_of(found) < most:
            raise Wrong(f"{when}: the follower answered {most} and has {records_of(found)} records")
        if not whole.startswith(self.front):
            raise Wrong(f"{when}: the leader's file lacks what it had")
        self.front = whole
        return len(front), len(found) > end_of(found) + 1

    def has_answers(self, journal, answers, when):
        """Demands that an examination which goes on with this journal has these answers: another response to each is refused."""
        server = self.serve(journal)
        try:
            connection = Connection(server.address, LIMIT)
            for one in answers:
                status, body = connection.ask(answer(one.session, one.step, 1 - one.response))
                if (status, body) != (409, {"error": "other", "value": one.response}):
                    raise Wrong(f"{when}: {one} is not in the follower's file: {status}, {body}")
            connection.close()
        except Lost as lost:
            raise Wrong(f"{when}: the server over the follower's file is gone") from lost
        finally:
            server.kill()

    def counted(self, count):
        """The answers that a history of so many entries has for sure, the last ones last."""
        return sorted(one for client in self.clients for one in list(client.answers) if one.entries <= count)

    def take_over_copy(self, when):
        """The examination goes on with copies of the follower's file."""
        self.take_over(when)
        data, copy = self.data(self.follower), os.path.join(self.folder, "served.journal")
        with open(os.open(copy, os.O_WRONLY | os.O_CREAT | os.O_TRUNC, 0o600), "wb") as file:
            file.write(data)
        answers = self.counted(records_of(data))[-LAST:]
        self.has_answers(copy, answers, when)
        self.seen["answers"] += len(answers)
        os.remove(copy)

    def kill(self, process):
        process.kill()
        process.communicate(timeout=LIMIT)

    def kill_follower(self, when):
        due = end_of(self.data(self.leader))
        self.kill(self.following)
        if self.following.returncode != KILLED:
            self.end_of_link(when)
        had, is_part = self.compare(when)
        self.seen["behind"] += had < due
        self.seen["part"] += is_part
        if self.draw.random() < 1 / 6:
            self.take_over_copy(when)
        self.follow()
        self.compare(f"{when}, started again")

    def end_of_link(self, when):
        """A follower that had ended before it was killed: only by the end of its link."""
        if self.following.returncode not in ENDS:
            raise Wrong(f"{when}: follow ended with {self.following.returncode}")
        self.seen["link ended"] += 1

    def kill_leader(self, when):
        """Kills the server, and sometimes its stream; both files are compared before and after it is started again."""
        self.server.kill()
        with_stream = self.draw.random() < 0.5
        if with_stream:
            self.keep_stream()
            self.kill(self.streaming)
            self.seen["stream"] += 1
        self.compare(when)
        time.sleep(self.draw.random() * 0.3)
        self.compare(when)
        self.server = self.serve(self.leader, self.address)
        self.compare(f"{when}, started again")
        if with_stream:
            self.stream()

    def trial(self, victim, when):
        kind, more = self.draw.randrange(3), self.draw.random()
        if kind == 0:  # among the records that it lacks
            self.until_at(self.relay.most + 1 + int(30 * more), when)
        elif kind == 1:  # at the leader's last records
            self.until_at(records_of(self.data(self.leader)), when)
            time.sleep(0.1 * more)
        else:
            time.sleep(1.5 * more)
        self.keep()
        (self.kill_follower if victim == "follower" else self.kill_leader)(when)
        self.seen[victim] += 1

    def finish(self):
        """The load ends, the follower gets all records, and the examination is taken over with its file for good."""
        when = "at the end"
        for client in self.clients:
            client.ended.set()
        for client in self.clients:
            client.join(LIMIT)
            if client.is_alive():
                raise Wrong(f"{when}: a client does not end in {LIMIT} s")
        count = self.clients[0].ask(HEALTH, 200)["entries"]
        self.until_at(count, when)
        self.keep()
        self.server.kill()
        self.kill(self.streaming)
        self.kill(self.following)
        self.compare(when)
        whole = self.data(self.leader)
        if self.data(self.follower) != whole or records_of(whole) != count:
            raise Wrong(f"{when}: the files of {count} records are not equal")
        self.take_over(when)
        answers = self.counted(count)
        if len(answers) != sum(len(client.answers) for client in self.clients):
            raise Wrong(f"{when}: {count} entries do not count each answer")
        self.has_answers(self.follower, answers, when)
        status, numbers = self.audit(self.follower)
        if status != 0 or not numbers.startswith(f"entries {count} sessions ") or self.data(self.follower) != whole:
            raise Wrong(f"{when}: audit after the server gives {status}, {numbers[:200]!r}")
        self.seen.update(records=count, kept=len(answers))

    def close(self):
        for client in self.clients:
            client.ended.set()
            client.is_over = True
        if self.server:
            self.server.kill()
        for process in (self.streaming, self.following):
            if process and process.poll() is None:
                self.kill(process)
        for client in self.clients:
            if client.is_alive():
                client.join(LIMIT)
            client.leave()


def kill_often(sides, follower, leader):
    """So many kills of each, in any order, under load."""
    sides.begin()
    victims = ["follower"] * follower + ["leader"] * leader
    sides.draw.shuffle(victims)
    for number, victim in enumerate(victims):
        sides.trial(victim, f"kill {number}, of the {victim}")
    for number in range(FURTHER):
        if follower and not sides.seen["behind"]:
            sides.trial("follower", f"further kill {number}, of the follower")
    sides.finish()
    if follower and not sides.seen["behind"]:
        raise Wrong("no kill of the follower came while it lacked records")


def main(words):
    parser = argparse.ArgumentParser(description="Kills a follower and a server under load, and takes over with the follower's file.")
    parser.add_argument("program")
    parser.add_argument("--follower", type=int, default=100)
    parser.add_argument("--leader", type=int, default=20)
    parser.add_argument("--seed", type=int, default=7)
    parser.add_argument("--clients", type=int, default=4)
    asked = parser.parse_args(words)
    seen = collections.Counter()
    with tempfile.TemporaryDirectory() as folder:
        sides = None
        try:
            sides = Streaming(os.path.abspath(asked.program), folder, random.Random(asked.seed), asked.clients)
            seen = sides.seen
            kill_often(sides, asked.follower, asked.leader)
        except Wrong as wrong:
            print(f"{wrong} (seed {asked.seed})")
            print(f"{seen['follower'] + seen['leader']} passed, 1 failed")
            return 1
        finally:
            if sides:
                sides.close()
    print(f"{seen['records']} records, {seen['kept']} answers; {seen['behind']} of {seen['follower']} kills of the follower while it lacked records, "
          f"{seen['part']} left a part of one; {seen['leader']} kills of the server, {seen['stream']} with its stream; {seen['link ended']} followers "
          f"ended with their link; {seen['taken over']} taken over, {seen['answers']} answers asked of copies")
    print(f"{seen['follower'] + seen['leader']} passed, 0 failed")
    return 0


command = as_command(main)


if __name__ == "__main__":
    sys.exit(command())
