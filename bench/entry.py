#!/usr/bin/env python3
"""Times an entry of an examination beside the two syncs that it needs. See entry.md.

usage: entry.py PROGRAM FOLDER [--sessions N] [--rounds N]

PROGRAM is the built program of crates/shadowd; the journal is written in FOLDER, and so are the records of the loop beside it.
"""
import argparse
import os
import shutil
import statistics
import subprocess
import tempfile
import time

DATA = os.path.join(os.path.dirname(os.path.abspath(__file__)), "..", "crates", "shadowd", "data")
ENTRIES = 7  # of a session of three items: one start, three servings, three answers
RECORD = 110  # bytes, about those of a served record with a tree of one node


def replay_seconds(program, texts, journal):
    """The time of a replay over a new journal."""
    env = dict(os.environ, SHADOWD_JOURNAL=journal)
    begun = time.perf_counter()
    subprocess.run([program, "replay", *texts], env=env, stdout=subprocess.DEVNULL, check=True)
    took = time.perf_counter() - begun
    os.remove(journal)
    return took


def syncs_seconds(path, entries):
    """The time of so many records: a record is written and synced, and then a byte."""
    file = os.open(path, os.O_RDWR | os.O_CREAT)
    at = 9
    begun = time.perf_counter()
    for _ in range(entries):
        os.pwrite(file, b"\0" * RECORD, at)
        os.fsync(file)
        os.pwrite(file, b"\1", at - 1)
        os.fsync(file)
        at += RECORD
    took = time.perf_counter() - begun
    os.close(file)
    os.remove(path)
    return took


def main():
    words = argparse.ArgumentParser(description="Times an entry beside its two syncs.")
    words.add_argument("program")
    words.add_argument("folder")
    words.add_argument("--sessions", type=int, default=100)
    words.add_argument("--rounds", type=int, default=5)
    asked = words.parse_args()
    entries = ENTRIES * asked.sessions
    with tempfile.TemporaryDirectory() as texts, tempfile.TemporaryDirectory(dir=asked.folder) as folder:
        for name in ("bank.csv", "plan.txt"):
            shutil.copy(os.path.join(DATA, name), texts)
        with open(f"{texts}/script.txt", "w", encoding="ascii") as file:
            for session in range(asked.sessions):
                file.write(f"begin {session}\n")
                file.writelines(f"answer {session} {step} {(session + step) % 2}\n" for step in range(3))
        names = [f"{texts}/{name}" for name in ("bank.csv", "plan.txt", "script.txt")]
        program = os.path.abspath(asked.program)
        rounds = []
        for _ in range(asked.rounds):
            rounds.append((replay_seconds(program, names, f"{folder}/journal"), syncs_seconds(f"{folder}/records", entries)))
    replay = statistics.median(took for took, _ in rounds) / entries * 1e6
    syncs = statistics.median(took for _, took in rounds) / entries * 1e6
    print(f"{entries} entries, {asked.rounds} rounds: an entry {replay:.0f} microseconds, two writes and syncs {syncs:.0f}, ratio {replay / syncs:.2f}")


if __name__ == "__main__":
    main()
