#!/usr/bin/env python3
"""What an entry costs, and what memory a run takes, as the number of sessions grows.

usage: many.py PROGRAM FOLDER [close]      a folder in memory, such as /dev/shm, so that no disk is measured

The bank has six items and three points of ability, a test three items; each session has seven entries (started, and three times served
and answered). With `close` each is closed after its first answer, and has five. Bookings are numbers in no order. For each number of
sessions one script is done over a new journal (`replay`). Then the journal is opened with an empty script, and audited (`audit`), three
times each; the least time counts. Memory is the greatest resident size of the process. The system counts that of Python before the program
is started in it, and Python's own is printed at the end. It asserts nothing about time; it stops where a run does not end with 0, or an
audit has other counts.
"""
import os
import random
import resource
import subprocess
import sys
import tempfile
import time

BANK = "crates/shadowd/data/bank.csv"
PLAN = "length 3\nprior -10 0 -10\ncount 1 1 0-1\ncount 0 1 2 5\nsessions 65536\njournal 536870912\n"
SIZES = (100, 1_000, 10_000, 65_536)


def script_of(sessions, drawn, closes):
    """The requests of whole sessions, or of closed ones, with bookings in no order, line by line: what this script keeps counts."""
    for session, booking in enumerate(drawn.sample(range(1 << 31), sessions)):
        yield f"begin {booking}\n"
        yield from (f"answer {session} {step} {drawn.randrange(2)}\n" for step in range(1 if closes else 3))
        if closes:
            yield f"close {session}\n"


def run(program, words, folder):
    """Seconds, greatest resident size in kilobytes, and the first line of the output."""
    begun = time.monotonic()
    environment = dict(os.environ, SHADOWD_JOURNAL="journal")
    with open(os.path.join(folder, "out"), "wb+") as out:
        child = subprocess.Popen([program, *words], cwd=folder, env=environment, stdout=out)
        _, status, used = os.wait4(child.pid, 0)
        took = time.monotonic() - begun
        if os.waitstatus_to_exitcode(status) != 0:
            sys.exit(f"{words[0]}: status {os.waitstatus_to_exitcode(status)}")
        out.seek(0)
        return took, used.ru_maxrss, out.readline().decode().strip()


def least(program, words, folder):
    return min((run(program, words, folder) for _ in range(3)), key=lambda found: found[0])


def measure(program, sessions, folder, bank, closes):
    drawn = random.Random(sessions)
    for name, text in (("bank.csv", bank), ("plan.txt", PLAN), ("script.txt", script_of(sessions, drawn, closes)), ("none.txt", "")):
        with open(os.path.join(folder, name), "w", encoding="utf-8") as file:
            file.writelines(text)
    entries = (5 if closes else 7) * sessions
    files = ["bank.csv", "plan.txt"]
    took, size, _ = run(program, ["replay", *files, "script.txt"], folder)
    opened = least(program, ["replay", *files, "none.txt"], folder)
    audited = least(program, ["audit", *files], folder)
    if not audited[2].startswith(f"entries {entries} sessions {sessions} finished {sessions} "):
        sys.exit(f"audit: {audited[2]}")
    bytes_of = os.path.getsize(os.path.join(folder, "journal"))
    print(f"| {sessions:,} | {entries:,} | {bytes_of:,} | {took / entries * 1e6:.2f} | {size / 1000:.1f} "
          f"| {opened[0]:.3f} | {opened[1] / 1000:.1f} | {audited[0]:.3f} | {audited[1] / 1000:.1f} |", flush=True)


def main(words):
    if len(words) not in (2, 3) or words[2:] not in ([], ["close"]):
        sys.exit(__doc__)
    program = os.path.abspath(words[0])
    with open(BANK, encoding="utf-8") as file:
        bank = file.read()
    print(f"load {os.getloadavg()[0]:.1f} before")
    print("| Sessions | Entries | Journal, bytes | An entry of `replay`, µs | MB | Opening, s | MB | Audit, s | MB |")
    print("|---|---|---|---|---|---|---|---|---|")
    for sessions in SIZES:
        with tempfile.TemporaryDirectory(dir=words[1]) as folder:
            measure(program, sessions, folder, bank, bool(words[2:]))
    own = resource.getrusage(resource.RUSAGE_SELF).ru_maxrss / 1000
    print(f"load {os.getloadavg()[0]:.1f} after; Python's own memory was at most {own:.1f} MB")


if __name__ == "__main__":
    if sys.argv[1:] == ["--help"]:
        sys.exit(print(__doc__))
    main(sys.argv[1:])
