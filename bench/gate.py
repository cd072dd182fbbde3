#!/usr/bin/env python3
"""Measures the processor time of the gate. See gate.md.

usage: gate.py FOLDER [--jobs N] [--every MINUTES]

FOLDER is a fresh clone of the repository. `.ci/run` runs there, with so many checks at once (2 without the flag) and one job each. Its output goes to
FOLDER.log. Every so many minutes (5 without the flag) a crate of one function is checked from nothing beside it: the time of that check shows how
fast the machine is just then.
"""
import argparse
import collections
import os
import statistics
import subprocess
import sys
import tempfile
import threading
import time

TICKS = os.sysconf("SC_CLK_TCK")
PAUSE = 0.5  # seconds between two looks at the processes
KINDS = ("proof", "tests", "first edit", "other edits", "programs")
ONE = "//! One function.\n#![tactic(auto)]\n\n/// One.\npub fn one() -> u32 {\n    1\n}\n"

Process = collections.namedtuple("Process", "crate kind folder start seconds")


def read(path):
    with open(path, "rb") as file:
        return file.read().decode(errors="replace")


def kind_of(words, folder):
    """What a process of the prover is for. An edit is checked in a folder of its own."""
    if os.path.basename(folder).startswith("rt-edit-"):
        return "edit"
    if "--test" in words:
        return "tests"
    return "programs" if "--crate-checked" in words else "proof"


def processes():
    """Each process that runs: its number, its parent's number, its name, its start and its processor seconds."""
    for number in filter(str.isdigit, os.listdir("/proc")):
        try:
            name, _, rest = read(f"/proc/{number}/stat").partition("(")[2].rpartition(")")
        except OSError:
            continue  # it has ended
        fields = rest.split()
        yield int(number), int(fields[1]), name, int(fields[19]), (int(fields[11]) + int(fields[12])) / TICKS


def look(seen, gate):
    """Notes each process of the prover that the gate started, with its processor seconds so far."""
    running = list(processes())
    parents = {number: parent for number, parent, *_ in running}
    for number, parent, name, start, seconds in running:
        while parent not in (gate, 0, 1):
            parent = parents.get(parent, 0)
        if name != "rattle" or parent != gate:
            continue
        try:
            words = read(f"/proc/{number}/cmdline").split("\0")
            folder = os.readlink(f"/proc/{number}/cwd")
        except OSError:
            continue
        if "--crate-name" in words:
            crate = words[words.index("--crate-name") + 1]
            seen[number, start] = Process(crate, kind_of(words, folder), folder, start, seconds)


def table(seen):
    """The minutes of each crate by kind. Of a crate's edits the first is checked from nothing."""
    minutes = collections.defaultdict(collections.Counter)
    first = {}
    for process in sorted(seen.values(), key=lambda it: it.start):
        kind = process.kind
        if kind == "edit":
            is_first = first.setdefault(process.crate, process.folder) == process.folder
            kind = "first edit" if is_first else "other edits"
        minutes[process.crate][kind] += process.seconds / 60
    return minutes


def reference():
    """The processor seconds of a check of one function from nothing, in a process of its own."""
    with tempfile.TemporaryDirectory(prefix="gate-") as room:
        os.makedirs(f"{room}/crates/one/src")
        for path, text in (("crates.txt", "one:\n"), ("crates/one/src/lib.rt", ONE)):
            with open(f"{room}/{path}", "w", encoding="utf-8") as file:
                file.write(text)
        made = subprocess.Popen(["rt", "check"], cwd=f"{room}/crates/one", stdout=subprocess.DEVNULL)
        _, status, spent = os.wait4(made.pid, 0)
    if status:
        raise RuntimeError("the check of one function ended with another status than 0")
    return spent.ru_utime + spent.ru_stime


def measure(root, jobs, every):
    """Runs the gate. Returns its last line, its seconds by the clock and of processors, the processes seen and the reference checks."""
    seen, references, ended = {}, [reference()], threading.Event()
    with open(f"{root}.log", "w", encoding="utf-8") as log:
        before = time.monotonic()
        given = {**os.environ, "RT_JOBS": str(jobs)}
        gate = subprocess.Popen([f"{root}/.ci/run"], cwd=root, stdout=log, stderr=log, env=given)

        def keep_looking():
            while not ended.wait(PAUSE):
                look(seen, gate.pid)

        def keep_checking():
            while not ended.wait(every * 60):
                references.append(reference())

        watchers = [threading.Thread(target=task) for task in (keep_looking, keep_checking)]
        for watcher in watchers:
            watcher.start()
        spent = os.wait4(gate.pid, 0)[2]
        wall = time.monotonic() - before
    ended.set()
    for watcher in watchers:
        watcher.join()
    last = read(f"{root}.log").splitlines()[-1]
    return last, wall, spent.ru_utime + spent.ru_stime, seen, references


def main():
    parser = argparse.ArgumentParser(description=__doc__, formatter_class=argparse.RawDescriptionHelpFormatter)
    parser.add_argument("folder")
    parser.add_argument("--jobs", type=int, default=2)
    parser.add_argument("--every", type=float, default=5)
    given = parser.parse_args()
    root = os.path.realpath(given.folder)
    last, wall, spent, seen, references = measure(root, given.jobs, given.every)
    minutes = table(seen)
    print(f"{last}; {spent / 60:.0f} processor minutes, {wall / 60:.0f} minutes by the clock, {given.jobs} checks at once")
    middle = statistics.median(references)
    print(f"one function: {middle:.1f} s in the middle, {min(references):.1f} to {max(references):.1f} s in {len(references)} checks")
    print(f"the gate takes as long as {spent / middle:.0f} checks of one function\n")
    print("| Crate, minutes | " + " | ".join(KINDS) + " | all |")
    print("|---" * (len(KINDS) + 2) + "|")
    rows = sorted(minutes.items(), key=lambda it: -sum(it[1].values()))
    for crate, row in rows:
        print(f"| `{crate}` | " + " | ".join(f"{row[kind]:.1f}" for kind in KINDS) + f" | {sum(row.values()):.1f} |")
    sums = [sum(row[kind] for _, row in rows) for kind in KINDS]
    print("| all | " + " | ".join(f"{it:.1f}" for it in sums) + f" | {sum(sums):.1f} |")
    return 0 if last.endswith(" 0 failed") else 1


if __name__ == "__main__":
    sys.exit(main())
