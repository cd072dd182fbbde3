#!/usr/bin/env python3
"""Times the migration of a journal of version 1 beside an audit of it. See migrate.md.

usage: migrate.py PROGRAM [--records N] [--rounds N] [--folder FOLDER]

PROGRAM is the built program of crates/shadowd; the journal is written in FOLDER (/dev/shm without it).
"""
import argparse
import os
import subprocess
import sys
import tempfile

TOP = os.path.dirname(os.path.dirname(os.path.abspath(__file__)))
sys.path.insert(0, os.path.join(TOP, "tools"))
from shadowtools.checkers import audit, journal_move  # noqa: E402

BANK = os.path.join(TOP, "crates", "shadowd", "data", "bank.csv")
PLAN = ("length 3\nprior -10 0 -10\ncount 1 1 0-1\ncount 0 1 2 5\nrate 1 2\nkey " + "5a" * 32
        + "\nbands 1 2\nsessions 65536\njournal 536870912\n")
ENTRIES = 7  # of a session of three items


def run(program, folder, command, *more):
    """The seconds of a processor that a run takes, and the first line of what it prints."""
    words = [program, command, BANK, os.path.join(folder, "plan.txt"), *more]
    with tempfile.TemporaryFile() as out:
        child = subprocess.Popen(words, env=dict(os.environ, SHADOWD_JOURNAL=os.path.join(folder, "journal")), stdout=out)
        _, status, used = os.wait4(child.pid, 0)
        out.seek(0)
        said = out.read().decode()
    if os.waitstatus_to_exitcode(status) != 0:
        sys.exit(f"{command}: status {os.waitstatus_to_exitcode(status)}: {said[-200:]!r}")
    return used.ru_utime + used.ru_stime, said.partition("\n")[0]


def old_journal(program, folder, records):
    """The bytes of a journal of version 1 with so many records: the history of a replay, in the bytes of version 1."""
    script = os.path.join(folder, "script.txt")
    with open(script, "w", encoding="ascii") as file:
        for session in range(-(-records // ENTRIES)):
            file.write(f"begin {session}\n")
            file.writelines(f"answer {session} {step} {(session + step) % 2}\n" for step in range(3))
    run(program, folder, "replay", script)
    with open(os.path.join(folder, "journal"), "rb") as file:
        data = file.read()
    rules = audit.read_rules(BANK, os.path.join(folder, "plan.txt"))
    gates = [at for at, _ in audit.frames(open(os.path.join(folder, "journal"), "rb"), len(data))]
    return journal_move.as_version_1(rules, data[:gates[records]] + b"\0" if records < len(gates) else data)


def main():
    words = argparse.ArgumentParser(description="Times a migration beside an audit.")
    words.add_argument("program")
    words.add_argument("--records", type=int, default=100_000)
    words.add_argument("--rounds", type=int, default=5)
    words.add_argument("--folder", default="/dev/shm" if os.path.isdir("/dev/shm") else None)
    asked = words.parse_args()
    program, audits, moves = os.path.abspath(asked.program), [], []
    with tempfile.TemporaryDirectory(dir=asked.folder) as folder:
        with open(os.path.join(folder, "plan.txt"), "w", encoding="ascii") as file:
            file.write(PLAN)
        old, said = old_journal(program, folder, asked.records), set()
        for _ in range(asked.rounds):
            with open(os.path.join(folder, "journal"), "wb") as file:
                file.write(old)
            took, before = run(program, folder, "audit")
            audits.append(took)
            took, moved = run(program, folder, "migrate")
            moves.append(took)
            said |= {before, run(program, folder, "audit")[1]}
            if len(said) != 1 or not moved.startswith(f"migrated {asked.records} records length "):
                sys.exit(f"audits {said}; {moved}")
    print(f"{asked.records} records, {len(old)} bytes, the least of {asked.rounds}, in seconds of a processor: audit {min(audits):.3f},"
          f" migrate {min(moves):.3f}, {min(moves) / min(audits):.2f} times as long; {moved}")


if __name__ == "__main__":
    main()
