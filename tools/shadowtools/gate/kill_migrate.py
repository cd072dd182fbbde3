"""Kills a migration at random moments, and looks at the journal that is left.

    kill_migrate.py PROGRAM [--kills N] [--seed S] [--sizes A,B,..]

The journals are of version 1, of 1, 10 and 10,000 records, made in Python (tests/journal_maker.py), as is the file that each has to end as.
Over each, `migrate` is killed N / 3 times after a random time, N is 120 without the option. After each kill `audit` of the program and
tools/audit.py, with the bands, print what they printed before the first, and change nothing. Then the next kill is over the file that is left, or
`migrate` runs to its end: it prints the records, or 0 where the journal had moved, and leaves the file that was made in Python. So it does
after the last kill. Each size needs a kill that found the program running, and one kill of all has to leave a part of what is
written; else it fails. The last line is 'N passed, M failed', of the kills; it stops at the first failure.
"""
import argparse
import collections
import hashlib
import os
import random
import subprocess
import sys
import tempfile
import time

from shadowtools.command import as_command
from shadowtools.places import TOOLS

SIZES = "1,10,10000"
LIMIT = 600  # seconds for each run
LIMITS = "sessions 65536\njournal 536870912\n"


class Wrong(Exception):
    """What was seen is not what has to be."""


def made_journals(sizes):
    """Bank and plan, and of each size the journal of version 1 and the one that it has to end as."""
    sys.path[:0] = [TOOLS, os.path.join(TOOLS, "tests")]
    import data_of_bands
    import journal_maker as maker
    plan, session = data_of_bands.PLAN_TWO + LIMITS, 0
    made = maker.Maker(data_of_bands.BANK_TWO, plan)
    while len(made.old) < max(sizes):
        made.run(f"begin {1000 + session}\nanswer {session} 0 1\nanswer {session} 1 {session % 2}\n")
        session += 1
    files = {size: (maker.file_of(maker.ONE, made.old[:size]),
                    maker.file_of(maker.ONE, [*made.old[:size], b"\x08", *made.new[:size]])) for size in sizes}
    return data_of_bands.BANK_TWO, plan, files


class Trial:
    """A journal of so many records, in a folder with its bank and its plan."""

    def __init__(self, program, folder, records, old, moved):
        self.program, self.folder, self.records, self.old, self.moved = program, folder, records, old, moved
        self.texts = [os.path.join(folder, name) for name in ("bank.csv", "plan.txt")]
        self.journal = os.path.join(folder, "journal")
        self.read, self.seen = {}, collections.Counter()
        self.put(old)
        self.wanted = self.by_the_other()

    def put(self, data):
        with open(self.journal, "wb") as file:
            file.write(data)

    def data(self):
        with open(self.journal, "rb") as file:
            return file.read()

    def words(self, command):
        return {"args": [self.program, command, *self.texts], "env": dict(os.environ, SHADOWD_JOURNAL=self.journal),
                "stdin": subprocess.DEVNULL, "stdout": subprocess.PIPE, "stderr": subprocess.PIPE}

    def run(self, command):
        """The status and the output of a run to its end."""
        done = subprocess.run(**self.words(command), timeout=LIMIT, check=False)
        return done.returncode, done.stdout.decode("ascii")

    def by_the_other(self):
        """What tools/audit.py prints, once for each content."""
        digest = hashlib.sha256(self.data()).digest()
        if digest not in self.read:
            words = [sys.executable, os.path.join(TOOLS, "audit.py"), *self.texts, self.journal, "--bands"]
            done = subprocess.run(words, stdout=subprocess.PIPE, timeout=LIMIT, check=False)
            self.read[digest] = done.returncode, done.stdout.decode("ascii")
        return self.read[digest]

    def audit(self, when):
        """Demands that both audits print what they printed at first, and change nothing."""
        before = self.data()
        for name, found in (("audit", self.run("audit")), ("tools/audit.py", self.by_the_other())):
            if found != self.wanted or found[0] != 0:
                raise Wrong(f"{when}: {name} gives {found[0]}, {found[1][:200]!r}; at first {self.wanted[1][:200]!r}")
        if self.data() != before:
            raise Wrong(f"{when}: an audit changed the journal")

    def migrate(self, when):
        """Demands that a migration to its end prints its records and leaves the file that it has to."""
        records = 0 if self.data() == self.moved else self.records
        wanted = 0, f"migrated {records} records length {len(self.moved)}\n"
        found = self.run("migrate")
        if found != wanted or self.data() != self.moved:
            raise Wrong(f"{when}: migrate gives {found}, wanted {wanted}; the file is {'right' if self.data() == self.moved else 'another one'}")

    def whole(self):
        """The seconds of a migration that nobody kills, the least of three."""
        least = LIMIT
        for _ in range(3):
            self.put(self.old)
            begun = time.monotonic()
            self.migrate("not killed")
            least = min(least, time.monotonic() - begun)
        self.audit("not killed")
        return least

    def interrupted(self, after):
        """Kills a migration after so many seconds: whether it was still running."""
        started = subprocess.Popen(**self.words("migrate"))
        time.sleep(after)
        is_running = started.poll() is None
        started.kill()
        started.communicate()
        return is_running

    def kill(self, after):
        """Kills a migration after so many seconds, and notes what it left."""
        is_running, left = self.interrupted(after), self.data()
        self.seen["kills"] += 1
        self.seen["inside"] += is_running
        self.seen["part"] += is_running and left not in (self.old, self.moved)
        if not left.startswith(self.old[:-1]):
            raise Wrong("a byte before the closed gate has changed")


def kill_often(trial, kills, draw):
    """So many kills over a journal, each followed by audits."""
    whole = trial.whole()
    trial.put(trial.old)
    for number in range(kills):
        when = f"{trial.records} records, kill {number}"
        if trial.data() == trial.moved:
            trial.put(trial.old)
        trial.kill(draw.random() * whole)
        trial.audit(when)
        if draw.random() < 0.5:
            trial.migrate(when)
    trial.migrate("after the last kill")
    trial.audit("after the last kill")
    seen = trial.seen
    print(f"{trial.records} records, {whole:.3f} s whole: {seen['kills']} kills, {seen['inside']} inside a run, {seen['part']} left a part of the move",
          flush=True)
    if not seen["inside"]:
        raise Wrong(f"{trial.records} records: no kill found the program running")


def main(words):
    parser = argparse.ArgumentParser(description="Kills a migration at random moments, and looks at the journal that is left.")
    parser.add_argument("program")
    parser.add_argument("--kills", type=int, default=120)
    parser.add_argument("--seed", type=int, default=7)
    parser.add_argument("--sizes", default=SIZES)
    asked = parser.parse_args(words)
    sizes, draw, seen = sorted(map(int, asked.sizes.split(","))), random.Random(asked.seed), collections.Counter()
    bank, plan, files = made_journals(sizes)
    with tempfile.TemporaryDirectory() as folder:
        for name, text in (("bank.csv", bank), ("plan.txt", plan)):
            with open(os.path.join(folder, name), "w", encoding="ascii") as file:
                file.write(text)
        try:
            for size in sizes:
                trial = Trial(os.path.abspath(asked.program), folder, size, *files[size])
                kill_often(trial, -(-asked.kills // len(sizes)), draw)
                seen += trial.seen
            if not seen["part"]:
                raise Wrong("no kill left a part of the move")
        except Wrong as wrong:
            print(f"{wrong} (seed {asked.seed})")
            print(f"{seen['kills']} passed, 1 failed")
            return 1
    print(f"{seen['kills']} passed, 0 failed")
    return 0


command = as_command(main)


if __name__ == "__main__":
    sys.exit(command())
