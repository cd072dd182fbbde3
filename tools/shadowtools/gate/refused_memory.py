"""Refuses each request for memory of the built program in turn, and looks at what is left.

    refused_memory.py PROGRAM [--every N] [--command NAME]

A small library is preloaded that counts the calls for memory after the program's start, and refuses one of them. Each command runs once for
each call: `replay`, `audit` and `drill` on the example, `migrate` on its journal of version 1, and `serve` with one client that takes a session. With
--every N each N-th call alone is refused. What has to hold:
- The status is 0 with the whole output, or 10; or 7, 8, 9 or 14 where a call of the system had no memory. `no memory` is printed at 10 where
  nothing was printed before.
- The lines that a replay printed are a beginning of those of a whole run. A second run, of the requests that have no line, prints the others; a session
  that was closed without a line is refused as closed.
- An audit and a drill print the whole output or none of it, and an audit leaves the file as it was.
- After a migration an audit prints what it printed before, and a second migration leaves the file that the whole one leaves.
- Each response of a server that a client got is in the journal: a second server gives each answer's place again, and the session is completed.
It needs gcc; without it, or over a program that brings its own allocator, it prints that it is skipped. The last line is 'N passed, M failed'.
"""
import argparse
import os
import shutil
import signal
import struct
import subprocess
import sys
import tempfile

from shadowtools.checkers import audit
from shadowtools.checkers import journal_move
from shadowtools.command import as_command
from shadowtools.gate.exam_client import Connection, Lost, Server, answer, begin
from shadowtools.places import DATA

SOURCE = os.path.join(os.path.dirname(os.path.abspath(__file__)), "refused_memory.c")
DONE, NO_MEMORY = 0, 10
OF_THE_SYSTEM = (7, 8, 9, 14)
ENDINGS = ("no memory", "files failed", "disk failed", "door failed")
SCRIPT = ["begin 70", "answer 0 0 1", "answer 0 1 0", "begin 71", "answer 0 2 1", "answer 1 0 2", "close 1", "look 0", "exposure"]


class Trial:
    """A folder with the example, the program, and the library that refuses memory."""

    def __init__(self, program, folder):
        self.program, self.folder = os.path.abspath(program), folder
        self.bank, self.plan = os.path.join(DATA, "bank.csv"), os.path.join(DATA, "plan.txt")
        self.library, self.count_file = os.path.join(folder, "refuse.so"), os.path.join(folder, "count")
        subprocess.run(["gcc", "-O2", "-shared", "-fPIC", "-o", self.library, SOURCE], check=True)

    def environment(self, journal, at):
        """The environment of a run of which the call with this number is refused; 0 is none."""
        if os.path.exists(self.count_file):
            os.remove(self.count_file)
        return dict(os.environ, LD_PRELOAD=self.library, REFUSE_AT=str(at), REFUSE_COUNT=self.count_file, SHADOWD_JOURNAL=journal)

    def calls(self):
        """How many calls for memory the last run made."""
        with open(self.count_file, "rb") as file:
            return struct.unpack("=Q", file.read(8))[0]

    def run(self, words, journal, at=0):
        """The status and the lines of a run."""
        ran = subprocess.run([self.program, *words], env=self.environment(journal, at), stdin=subprocess.DEVNULL, stdout=subprocess.PIPE,
                             stderr=subprocess.DEVNULL, timeout=300, check=False)
        return ran.returncode, ran.stdout.decode("ascii").splitlines()

    def script(self, requests):
        path = os.path.join(self.folder, "script.txt")
        with open(path, "w", encoding="ascii") as file:
            file.write("".join(f"{request}\n" for request in requests))
        return path

    def replay(self, requests, journal, at=0):
        return self.run(["replay", self.bank, self.plan, self.script(requests)], journal, at)


def replies_of(lines):
    """The lines without the one that ends a run early. `exposure` has more than one line, and is the last request."""
    return [line for line in lines if line not in ENDINGS]


def as_again(wanted, done):
    """The lines that may come if the first request without a line is sent again: a session that was closed is closed."""
    again = list(wanted)
    if SCRIPT[done].startswith("close"):
        again[done] = "refused is-closed closed"
    return again


def without_nodes(line):
    """A line of an audit without the nodes of the trees, which differ where a search began with another vector."""
    return line.partition(" nodes ")[0]


def replays(trial, every):
    """Each refusal in a replay; yields what is wrong, or None."""
    journal = os.path.join(trial.folder, "journal")
    status, wanted = trial.replay(SCRIPT, journal)
    total = trial.calls()
    whole = [without_nodes(it) for it in trial.run(["audit", trial.bank, trial.plan], journal)[1]]
    if status != DONE or not whole:
        yield f"replay, nothing refused: status {status}, {wanted}"
        return
    for at in range(1, total + 1, every):
        if os.path.exists(journal):
            os.remove(journal)
        status, lines = trial.replay(SCRIPT, journal, at)
        said = replies_of(lines)
        if status not in (DONE, NO_MEMORY, *OF_THE_SYSTEM) or (status == DONE and said != wanted) or wanted[:len(said)] != said:
            yield f"replay, call {at}: status {status}, {lines}"
            continue
        done = min(len(said), len(SCRIPT) - 1)
        second, rest = trial.replay(SCRIPT[done:], journal)
        found = [without_nodes(it) for it in trial.run(["audit", trial.bank, trial.plan], journal)[1]]
        is_right = second == DONE and said[:done] + rest in (wanted, as_again(wanted, done)) and found == whole
        yield None if is_right else f"replay, call {at}: then status {second}, {rest}, and the audit {found}"


def others(trial, every):
    """Each refusal in an audit and in a drill."""
    journal = os.path.join(trial.folder, "audited")
    trial.replay(SCRIPT, journal)
    with open(journal, "rb") as file:
        before = file.read()
    for words in (["audit", trial.bank, trial.plan], ["drill", "7", "1"]):
        status, wanted = trial.run(words, journal)
        if status != DONE:
            yield f"{words[0]}, nothing refused: status {status}"
            continue
        for at in range(1, trial.calls() + 1, every):
            status, lines = trial.run(words, journal, at)
            with open(journal, "rb") as file:
                is_same = file.read() == before
            is_whole = status == DONE and lines == wanted
            is_refused = status in (NO_MEMORY, *OF_THE_SYSTEM) and len(lines) <= 1 and lines != wanted
            yield None if is_same and (is_whole or is_refused) else f"{words[0]}, call {at}: status {status}, {lines}"


def migrations(trial, every):
    """Each refusal in a migration of the journal of version 1."""
    journal = os.path.join(trial.folder, "moved")
    trial.replay(SCRIPT, journal)
    with open(journal, "rb") as file:
        old = journal_move.as_version_1(audit.read_rules(trial.bank, trial.plan), file.read())
    put(journal, old)
    lines = trial.run(["audit", trial.bank, trial.plan], journal)
    status, wanted = trial.run(["migrate", trial.bank, trial.plan], journal)
    total = trial.calls()
    with open(journal, "rb") as file:
        moved = file.read()
    if status != DONE or moved == old:
        yield f"migrate, nothing refused: status {status}, {wanted}"
        return
    for at in range(1, total + 1, every):
        put(journal, old)
        status, said = trial.run(["migrate", trial.bank, trial.plan], journal, at)
        is_whole = status == DONE and said == wanted
        is_refused = status in (NO_MEMORY, *OF_THE_SYSTEM) and len(said) <= 1 and said != wanted
        is_same = trial.run(["audit", trial.bank, trial.plan], journal) == lines
        second, _ = trial.run(["migrate", trial.bank, trial.plan], journal)
        with open(journal, "rb") as file:
            is_moved = file.read() == moved
        is_right = (is_whole or is_refused) and is_same and second == DONE and is_moved
        yield None if is_right else f"migrate, call {at}: status {status}, {said}; then the same: {is_same}, moved: {is_moved}, status {second}"


def put(path, data):
    with open(path, "wb") as file:
        file.write(data)


def session_on(address, known):
    """Takes a session of the example on one connection after another; keeps what each acknowledged reply said, by step."""
    connection = Connection(address, timeout=30)
    try:
        status, place = connection.ask(begin(70))
        while status in (200, 201):
            known[place.get("step", 3)] = place.get("item")
            if place["state"] != "waiting":
                return True
            status, place = connection.ask(answer(place["session"], place["step"], 1, 70))
        return False
    finally:
        connection.close()


def servers(trial, every):
    """Each refusal in a server with one client."""
    total = None
    at = 0
    while total is None or at <= total:
        journal = os.path.join(trial.folder, f"served{at}")
        known, again = {}, {}
        os.environ.update({key: value for key, value in trial.environment(journal, at).items() if key in ("LD_PRELOAD", "REFUSE_AT", "REFUSE_COUNT")})
        server = None
        try:
            server = Server([trial.program], trial.bank, trial.plan, journal, workers=2, wait=30)
            session_on(server.address, known)
        except (Lost, RuntimeError, KeyError):
            pass  # the server or the connection ended for memory
        finally:
            for key in ("LD_PRELOAD", "REFUSE_AT", "REFUSE_COUNT"):
                os.environ.pop(key)
            if server:
                server.kill()
        if total is None:
            total, at = trial.calls(), 1
            continue
        server = Server([trial.program], trial.bank, trial.plan, journal, workers=2, wait=30)
        try:
            is_whole = session_on(server.address, again)
        except Lost:
            is_whole = False
        server.process.send_signal(signal.SIGTERM)
        server.kill()
        is_right = is_whole and all(again.get(step, item) == item for step, item in known.items())
        yield None if is_right else f"serve, call {at}: acknowledged {known}, then {again}"
        at += every


def main(words):
    parser = argparse.ArgumentParser(description=__doc__, formatter_class=argparse.RawDescriptionHelpFormatter)
    parser.add_argument("program")
    parser.add_argument("--every", type=int, default=1)
    parser.add_argument("--command", choices=("replay", "others", "migrate", "serve"))
    given = parser.parse_args(words)
    if shutil.which("gcc") is None:
        print("skipped: refused memory: no gcc\n1 passed, 0 failed")
        return 0
    passed, faults = 0, []
    with tempfile.TemporaryDirectory(prefix="memory-") as folder:
        trial = Trial(given.program, folder)
        trial.replay(SCRIPT, os.path.join(folder, "journal"))
        if trial.calls() == 0:
            print("skipped: refused memory: the program brings its own allocator\n1 passed, 0 failed")
            return 0
        os.remove(os.path.join(folder, "journal"))
        for name, trials in (("replay", replays), ("others", others), ("migrate", migrations), ("serve", servers)):
            if given.command in (None, name):
                for fault in trials(trial, given.every):
                    passed += fault is None
                    faults += [fault] if fault else []
    for fault in faults:
        print(fault)
    print(f"{passed} passed, {len(faults)} failed")
    return 1 if faults else 0


command = as_command(main)


if __name__ == "__main__":
    sys.exit(command())
