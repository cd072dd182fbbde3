"""Lets an examination run for a long time while clients of every kind use it and one thing after another fails, and compares at the end.

    soak.py PROGRAM [--minutes M] [--seed N] [--disk KIND] [--folder FOLDER]

Two machines, each with a disk of its own: a server leads on one, with its stream, and a follower is on the other. Each process has
SHADOWD_MAKE=no; the first journals are made by hand. The clients begin sessions, answer, close and look, over connections that stay open, on
one connection for each request, in pieces, twice, or both at the same moment; late ones keep the number of their session over a take-over. Beside
them connections dawdle and are silent, at the follower too. One thing after another fails, in an order that the seed decides and that is
printed first, each thing once and then again until M minutes are over:

  kill leader, kill follower, kill stream    SIGKILL; with the leader in half of the cases its stream
  terminate      SIGTERM to the leader
  ask for end    `shadowd end`, which has to end with 0, and the leader too
  full disk      the leader's disk has no room, with a reserve in half of the cases
  kill on a full disk  the leader is killed then, and started while the disk is still full
  full follower  the follower's disk has none
  blocked lines  nobody reads the leader's standard error, which is full, and its disk has no room
  lost journal   the journal is renamed: the leader has to end with 9, and no start makes another
  halted follower  SIGSTOP for some seconds
  take-over      the stream and the leader are killed, and the follower's journal is served. The machines change parts

Each take-over ends an epoch, whose journal is kept. At the end the follower gets all records. For each epoch the journal is read by
this tool and compared with all that the clients sent and were told; `audit` of the program and `audit.py` judge it (`audit.py` the
last two). Nothing acknowledged may be lost, no late client may have an entry in a session of another booking, no session may go back, and
no request may fail while nothing was at fault. The last line is 'N passed, M failed': the faults that were made and what was demanded.

  --minutes M   0 is each fault once, about half a minute
  --disk KIND   ext4 (over a loop device), tmpfs, or RLIMIT_FSIZE, a limit on the length of files in place of a disk. By default the first
                of these that this machine can have: the first two need root
  --folder F    where the folder of the run is made; it is kept if something failed
"""
import argparse
import collections
import os
import random
import shutil
import signal
import subprocess
import sys
import tempfile
import time
from dataclasses import dataclass
from typing import Callable, Dict, List, Sequence, Tuple

from shadowtools.checkers import audit
from shadowtools.command import Refused, as_command
from shadowtools.gate import soak_compare
from shadowtools.gate.kill_follow import Wrong, front_of, records_of
from shadowtools.gate.kill_stream import free_port
from shadowtools.gate.soak_clients import LIMIT, Burden, Client, Exchange, Late, Place, Slow, clients_of
from shadowtools.gate.soak_site import DISK_FAILED, DISKS, NO_JOURNAL, RESERVE, Machine, Process, Site, bytes_of, disk_kind
from shadowtools.places import DATA

LATE_ONES = 2  # clients that are late at each take-over
FULL = 8  # seconds at most until a full disk is met
REST = 1  # seconds at most between two faults
CHECKED = 2  # journals, from the last one on, that audit.py judges


@dataclass
class Epoch:
    """A journal that led, when it had ended: its records from before, and its file."""
    inherited: int
    data: bytes


class Soak:
    """The site, its clients, and what was seen."""

    def __init__(self, site: Site, place: Place, draw: random.Random) -> None:
        self.site, self.place, self.draw = site, place, draw
        self.clients: List[Client] = clients_of(place, draw)
        self.burden = Burden(place, draw.randrange(1 << 30))
        self.windows: List[Tuple[float, float]] = []
        self.epochs: List[Epoch] = []
        self.inherited = 0

    # ------------------------------------------------------------ running

    def begin(self) -> None:
        self.site.begin()
        for client in (*self.clients, self.burden):
            client.start()
        self.rest()

    def rest(self) -> None:
        self.site.wait(self.draw.random() * REST)
        for client in (*self.clients, self.burden):
            if client.fault or not client.is_alive():
                raise Wrong(client.fault or f"a client has ended: {client}")

    def make(self, name: str) -> None:
        """One fault, in a window, and the rest after it."""
        begun = time.monotonic()
        try:
            FAULTS[name](self)
            self.recover(name)
        finally:
            self.windows.append((begun, time.monotonic()))
        self.rest()

    def recover(self, name: str) -> None:
        """Waits until a client has an entry recorded again: a reply to a begin that was sent from now on."""
        before, until = time.monotonic(), time.monotonic() + LIMIT
        while not any(one.asked.kind == "begin" and one.status in (200, 201) and one.sent > before for one in self.place.log[-200:]):
            self.site.wait(0.05)
            if time.monotonic() > until:
                raise Wrong(f"{name}: no begin is done in {LIMIT} s")

    def start_again(self) -> None:
        self.site.reserve = self.draw.choice([0, RESERVE])
        self.site.ahead = self.draw.random() < 0.5
        self.site.lead()

    # ------------------------------------------------------------ faults

    def kill_leader(self) -> None:
        with_stream = self.draw.random() < 0.5
        self.site.kill(self.site.leader)
        if with_stream:
            self.site.kill(self.site.streaming)
        self.site.compare("kill leader")
        time.sleep(self.draw.random() * 0.3)
        self.start_again()
        if with_stream:
            self.site.stream()
        self.site.compare("the leader is started again")

    def kill_follower(self) -> None:
        self.site.kill(self.site.follower)
        self.site.compare("kill follower")
        self.site.follow()
        self.site.compare("the follower is started again")

    def kill_stream(self) -> None:
        self.site.kill(self.site.streaming)
        time.sleep(self.draw.random() * 0.5)
        self.site.stream()

    def terminate(self) -> None:
        self.site.leader.child.send_signal(signal.SIGTERM)
        status = self.site.leader.end()
        self.site.take_lines(self.site.leader)
        if status != -signal.SIGTERM:
            raise Wrong(f"terminate: serve ended with {status}")
        self.site.compare("terminate")
        self.start_again()

    def ask_for_end(self) -> None:
        leader = self.site.leader
        done = subprocess.run([self.site.program, "end"], env={"SHADOWD_END": self.site.end_socket}, capture_output=True, text=True, timeout=LIMIT, check=False)
        status = leader.end()
        self.site.take_lines(leader)
        count = records_of(self.site.machines[0].data())
        if (done.returncode, done.stdout, status) != (0, "ended\n", 0) or not leader.printed().startswith(f"entries {count} "):
            raise Wrong(f"ask for end: {done.returncode}, {done.stdout!r}; serve {status}, {leader.printed()[:80]!r}; {count} records")
        if os.path.exists(self.site.end_socket):
            raise Wrong("ask for end: the socket is still there")
        self.start_again()

    def full_disk(self) -> None:
        with self.site.full(self.site.machines[0], [self.site.leader]):
            self.site.seen["writes without room"] += self.finds_no_room(self.site.machines[0])
            self.site.wait(self.draw.random())

    def kill_on_full_disk(self) -> None:
        with self.site.full(self.site.machines[0], [self.site.leader]):
            self.site.seen["writes without room"] += self.finds_no_room(self.site.machines[0])
            self.site.kill(self.site.leader)
            self.site.compare("kill on a full disk")
            self.start_again()
            self.site.wait(self.draw.random())

    def finds_no_room(self, machine: Machine) -> bool:
        """Waits until a request is refused since the disk is full, or the reserve is cut, for so long as that may take."""
        begun, reserve = time.monotonic(), len(bytes_of(machine.reserve))
        while time.monotonic() < begun + FULL:
            if len(bytes_of(machine.reserve)) < reserve or any(one.status == 503 and one.sent > begun for one in self.place.log[-200:]):
                return True
            self.site.wait(0.1)
        return False

    def full_follower(self) -> None:
        self.site.may_lack_disk = True
        try:
            with self.site.full(self.site.machines[1], [self.site.follower]):
                self.site.wait(1 + self.draw.random())
            self.site.wait(0.5)
            self.site.follow()
        finally:
            self.site.may_lack_disk = False
        self.site.compare("full follower")

    def blocked_lines(self) -> None:
        leader = self.site.leader
        leader.block()
        try:
            self.full_disk()
            self.recover("blocked lines")
        finally:
            leader.unblock()

    def lost_journal(self) -> None:
        """The leader ends, and neither it nor a follower makes a journal at its path, be there none or a part of one."""
        site = self.site
        one, two = site.machines
        before, hidden = set(one.files()), one.journal + ".hidden"
        os.rename(one.journal, hidden)
        self.ends_with(site.leader, "lost journal", "the journal was removed")
        site.kill(site.streaming)
        for part in (None, b"SHADOWJ2"[:self.draw.randrange(9)]):
            if part is not None:
                with open(one.journal, "wb") as file:
                    file.write(part)
            self.is_refused(site.serve_on(one), f"serve with {part} for a journal")
            self.is_refused(site.start("follow", one.journal, SHADOWD_LISTEN="127.0.0.1:0"), f"follow with {part} for a journal")
            if bytes_of(one.journal) != (part or b"") or os.path.exists(one.journal) != (part is not None):
                raise Wrong("lost journal: a start has made a journal, or changed what was there")
        os.rename(hidden, one.journal)
        if set(one.files()) - before - {"journal.reserve"}:
            raise Wrong(f"lost journal: {before} became {one.files()}")
        self.start_again()
        site.stream()

    def ends_with(self, process: Process, when: str, why: str) -> None:
        """It has to end since it has no journal, with a line that has these words."""
        found, lines = process.end(), process.last_lines()
        self.site.take_lines(process)
        if found != NO_JOURNAL or process.printed() != DISK_FAILED or why not in lines:
            raise Wrong(f"{when}: {process.name} ended with {found}, {process.printed()[:80]!r}: {lines}")

    def is_refused(self, process: Process, when: str) -> None:
        """A start that has to end: a server may not listen meanwhile."""
        if process.name == "serve" and process.await_port():
            self.site.kill(process)
            raise Wrong(f"lost journal: {when} goes on: {process.last_lines()}")
        self.ends_with(process, when, "SHADOWD_MAKE=no makes none")

    def halted_follower(self) -> None:
        follower = self.site.follower
        follower.child.send_signal(signal.SIGSTOP)
        self.site.wait(0.5 + 2 * self.draw.random())
        follower.child.send_signal(signal.SIGCONT)
        self.site.wait(0.2)

    def take_over(self) -> None:
        site = self.site
        site.kill(site.streaming)
        self.place.cut.set()
        self.await_late()
        time.sleep(self.draw.random())
        self.place.address = None
        site.kill(site.leader)
        self.place.cut.clear()
        site.compare("take-over")
        site.kill(site.follower)
        self.keep_epoch()
        site.machines.reverse()
        self.inherited = records_of(site.machines[0].data())
        self.clear(site)
        self.place.epoch += 1
        self.start_again()
        site.stream()

    def clear(self, site: Site) -> None:
        """The machine that led follows with a new journal."""
        old = site.machines[1]
        for name in old.files():
            if name.startswith("journal"):
                os.remove(os.path.join(old.disk.folder, name))
        site.make_journal(old)
        site.front, site.relay.most, site.address = b"", 0, ("127.0.0.1", free_port())
        site.follower = None
        site.follow()

    def await_late(self) -> None:
        """Waits until the late clients have sessions that the follower does not get."""
        cut, until = time.monotonic(), time.monotonic() + LIMIT
        while time.monotonic() < until:
            late = {one.asked.booking for one in self.place.log[-2000:] if one.client == Late.KIND and one.sent > cut and one.status == 201}
            if len(late) >= LATE_ONES:
                return
            time.sleep(0.05)
        raise Wrong("take-over: no late client has begun")

    def keep_epoch(self) -> None:
        data = self.site.machines[0].data()
        self.epochs.append(Epoch(self.inherited, data))
        with open(os.path.join(self.site.folder, f"epoch.{len(self.epochs) - 1}.journal"), "wb") as file:
            file.write(data)

    # ------------------------------------------------------------ the end

    def finish(self) -> None:
        """The clients end, the late ones once they have done what they are for, and the follower gets all records."""
        while any(getattr(client, "holds_old", False) for client in self.clients):
            self.rest()
        begun = time.monotonic()
        self.place.over.set()
        for client in (*self.clients, self.burden):
            client.join(LIMIT)
            if client.is_alive() or client.fault:
                raise Wrong(client.fault or f"a client does not end in {LIMIT} s: {client}")
        self.windows.append((begun, time.monotonic()))
        self.site.await_records("at the end")
        for process in (self.site.leader, self.site.streaming, self.site.follower):
            self.site.kill(process)
        self.site.compare("at the end")
        one, two = (front_of(machine.data()) for machine in self.site.machines)
        if one != two:
            raise Wrong("at the end: the follower lacks records of the leader")
        self.keep_epoch()


FAULTS: Dict[str, Callable[[Soak], None]] = {
    "kill leader": Soak.kill_leader, "kill follower": Soak.kill_follower, "kill stream": Soak.kill_stream, "terminate": Soak.terminate,
    "ask for end": Soak.ask_for_end, "full disk": Soak.full_disk, "kill on a full disk": Soak.kill_on_full_disk, "full follower": Soak.full_follower,
    "blocked lines": Soak.blocked_lines, "lost journal": Soak.lost_journal, "halted follower": Soak.halted_follower, "take-over": Soak.take_over}


# ---------------------------------------------------------------- what is demanded at the end

class Verdict:
    """What was demanded, and what did not hold."""

    def __init__(self) -> None:
        self.passed, self.failed = 0, 0

    def add(self, what: str, faults: Sequence[str]) -> None:
        if not faults:
            self.passed += 1
            return
        self.failed += 1
        print(f"{what}: {len(faults)} do not hold")
        for fault in faults[:soak_compare.SHOWN]:
            print(f"  {fault}")


def judged(program: str, texts: Sequence[str], path: str, count: int, with_python: bool) -> List[str]:
    """The faults of a journal by `audit` of the program, and by audit.py."""
    done = subprocess.run([program, "audit", *texts], env=dict(os.environ, SHADOWD_JOURNAL=path), capture_output=True, text=True, check=False)
    if done.returncode != 0 or not done.stdout.startswith(f"entries {count} sessions "):
        return [f"audit of {path} gives {done.returncode}, {done.stdout[:200]!r}; it has {count} records"]
    if not with_python:
        return []
    try:
        with open(path, "rb") as file:
            lines = "\n".join(audit.lines(audit.audit(audit.read_rules(*texts), file))) + "\n"
    except Refused as refused:
        return [f"audit.py of {path}: {refused}"]
    return [] if lines == done.stdout else [f"audit.py of {path} prints {lines[:200]!r}, and the program {done.stdout[:200]!r}"]


def compare(soak: Soak, verdict: Verdict) -> int:
    """Compares each epoch; how many late requests named a session of another booking."""
    late = 0
    for number, epoch in enumerate(soak.epochs):
        exchanges = [one for one in soak.place.log if one.epoch == number]
        journal = soak_compare.read_journal(epoch.data)
        for what, faults in soak_compare.demands(journal, exchanges, epoch.inherited, soak.windows).items():
            verdict.add(f"epoch {number}: {what}", faults)
        path = os.path.join(soak.site.folder, f"epoch.{number}.journal")
        with_python = number >= len(soak.epochs) - CHECKED
        verdict.add(f"epoch {number}: the audit", judged(soak.site.program, soak.site.texts, path, len(journal.entries), with_python))
        if number:
            verdict.add(f"epoch {number}: what it inherited", soak_compare.parted(epoch.data, soak.epochs[number - 1].data, epoch.inherited))
        late += sum(soak_compare.is_late(journal, one) and one.error == "other-booking" for one in exchanges)
    return late


def percentile(waits: List[float], part: float) -> float:
    return 1000 * waits[min(len(waits) - 1, int(part * len(waits)))] if waits else 0.0


def quiet_waits(log: Sequence[Exchange], windows: Sequence[Tuple[float, float]]) -> List[float]:
    """How long the replies took that no fault was near, in order; slow clients send for longer, and are left out."""
    return sorted(one.ended - one.sent for one in log if one.status and one.client != Slow.KIND and not soak_compare.is_near(one, windows))


def report(soak: Soak, made: collections.Counter, late: int) -> None:
    log = soak.place.log
    print("faults: " + ", ".join(f"{name} {count}" for name, count in sorted(made.items())))
    kinds = collections.Counter(one.client for one in log)
    print(f"{len(log)} requests: " + ", ".join(f"{kind} {count}" for kind, count in sorted(kinds.items())))
    print("replies: " + ", ".join(f"{status or 'none'} {count}" for status, count in sorted(collections.Counter(one.status for one in log).items())))
    errors = collections.Counter(one.error for one in log if one.error)
    print("refusals: " + ", ".join(f"{error} {count}" for error, count in sorted(errors.items())))
    print("beside them: " + ", ".join(f"{name} {count}" for name, count in soak.burden.seen.items()))
    acknowledged = sum(one.asked.kind == "answer" and one.status == 200 for one in log)
    lags = [records_of(before.data) - after.inherited for before, after in zip(soak.epochs, soak.epochs[1:])]
    print(f"{acknowledged} answers acknowledged; {len(soak.epochs)} epochs, the last of {records_of(soak.epochs[-1].data)} records; "
          f"records lost with a leader: {lags}; {late} late requests to a session of another booking, each refused")
    waits = quiet_waits(log, soak.windows)
    print("waits away from faults, ms: median %.1f, 99th %.1f, greatest %.1f of %d" % (*(percentile(waits, part) for part in (0.5, 0.99, 1)), len(waits)))
    memory, files, threads = soak.site.used
    print(f"{soak.site.seen['writes without room']} full disks were met by a write; follow ended {soak.site.seen['ends of follow']} times by itself")
    print(f"at most {memory * 4096 >> 20} MiB, {files} open files, {threads} threads; lines: {sum(soak.site.lines.values())}")
    for line, count in soak.site.lines.most_common(12):
        print(f"  {count} x {line[:140]}")


# ---------------------------------------------------------------- command line

def schedule(draw: random.Random) -> List[str]:
    """Each fault once, in any order."""
    names = list(FAULTS)
    draw.shuffle(names)
    return names


def run(soak: Soak, minutes: float, draw: random.Random) -> collections.Counter:
    made: collections.Counter = collections.Counter()
    begun, wanted = time.monotonic(), schedule(draw)
    print(f"order: {', '.join(wanted)}", flush=True)
    soak.begin()
    while wanted or time.monotonic() - begun < 60 * minutes:
        if not wanted:
            print(f"after {(time.monotonic() - begun) / 60:.1f} minutes: {sum(made.values())} faults, {len(soak.place.log)} requests", flush=True)
            wanted = schedule(draw)
        name = wanted.pop(0)
        soak.make(name)
        made[name] += 1
    soak.finish()
    return made


def texts_of(folder: str) -> List[str]:
    """The example's bank, and its plan with room for a night."""
    bank, plan = (os.path.join(folder, name) for name in ("bank.csv", "plan.txt"))
    shutil.copy(os.path.join(DATA, "bank.csv"), bank)
    with open(os.path.join(DATA, "plan.txt"), encoding="ascii") as source, open(plan, "w", encoding="ascii") as copy:
        copy.write(source.read() + "sessions 65536\njournal 536870912\n")
    return [bank, plan]


def soak_in(folder: str, asked: argparse.Namespace) -> Verdict:
    draw, place, verdict, kind = random.Random(asked.seed), Place("a-token-of-the-soak", asked.minutes), Verdict(), disk_kind(asked.disk)
    print(f"seed {asked.seed}, {asked.minutes:g} minutes, disks: {kind}, folder {folder}", flush=True)
    site = Site(os.path.abspath(asked.program), folder, texts_of(folder), kind, place)
    soak = Soak(site, place, draw)
    try:
        made = run(soak, asked.minutes, draw)
        verdict.passed += sum(made.values())
        late = compare(soak, verdict)
        report(soak, made, late)
        verdict.add("late requests", [] if late else ["none named a session of another booking"])
        verdict.add("full disks", [] if site.seen["writes without room"] else ["no write found no room"])
    except Wrong as wrong:
        verdict.add("the run", [f"{wrong} (seed {asked.seed})"])
    finally:
        place.over.set()
        site.close()
    return verdict


def ended_by_signal(number: int, _frame: object) -> None:
    sys.exit(128 + number)


def main(words: Sequence[str]) -> int:
    parser = argparse.ArgumentParser(description=__doc__, formatter_class=argparse.RawDescriptionHelpFormatter)
    parser.add_argument("program")
    parser.add_argument("--minutes", type=float, default=1)
    parser.add_argument("--seed", type=int, default=7)
    parser.add_argument("--disk", choices=DISKS)
    parser.add_argument("--folder")
    asked = parser.parse_args(words)
    folder = tempfile.mkdtemp(prefix="soak.", dir=asked.folder)
    before = signal.signal(signal.SIGTERM, ended_by_signal)  # the processes end then, and the disks are unmounted
    try:
        verdict = soak_in(folder, asked)
    finally:
        signal.signal(signal.SIGTERM, before)
    if not verdict.failed:
        shutil.rmtree(folder, ignore_errors=True)
    print(f"{verdict.passed} passed, {verdict.failed} failed")
    return 1 if verdict.failed else 0


command = as_command(main)


if __name__ == "__main__":
    sys.exit(command())
