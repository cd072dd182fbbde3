#!/usr/bin/env python3
"""A stand-in for `shadowd audit` and `shadowd migrate`.

usage: fake_migrate.py audit BANK PLAN | migrate BANK PLAN

SHADOWD_JOURNAL is the journal. FAKE makes it faulty: `gate` opens the gate before the records are behind it, `front` writes over the journal's
own bytes, `count` prints another number, `tail` keeps bytes behind the last gate. With STOP it is killed before its write of this number.
"""
import io
import os
import signal
import sys

sys.path[:0] = [os.path.dirname(os.path.dirname(os.path.abspath(__file__)))]
import audit  # noqa: E402
from shadowtools.checkers import journal_move  # noqa: E402
from shadowtools.command import Refused  # noqa: E402

FAULT, PATH = os.environ.get("FAKE", ""), os.environ["SHADOWD_JOURNAL"]
PIECE, WRITES = 64, [int(os.environ.get("STOP", "-1"))]


def write(file, at, data):
    """Writes the bytes in pieces, each of which may be the one that is not written."""
    for first in range(0, len(data), PIECE):
        if WRITES[0] == 0:
            os.kill(os.getpid(), signal.SIGKILL)
        WRITES[0] -= 1
        os.pwrite(file, data[first:first + PIECE], at + first)


def move(before, after):
    """Writes what is behind the old closed gate, and opens it."""
    gate = len(journal_move.kept(before)) - 1
    file = os.open(PATH, os.O_RDWR)
    if FAULT != "tail":
        os.ftruncate(file, gate + 1)
    if FAULT == "gate":
        write(file, gate, after[gate:])
    elif FAULT == "front":
        write(file, 8, b"\0" + after[9:gate] + b"\1")
    write(file, gate + 1, after[gate + 1:])
    write(file, 8 if FAULT == "front" else gate, b"\1")
    if FAULT == "tail":
        os.pwrite(file, b"x", len(after))


def main(command, bank, plan):
    rules = audit.read_rules(bank, plan)
    with open(PATH, "rb") as file:
        data = file.read()
    if command == "audit":
        try:
            print("\n".join(audit.lines(audit.audit(rules, io.BytesIO(data)), True)))
        except Refused as refused:
            print(refused)
            return 6
        return 0
    done = journal_move.move_of(rules, data)
    lines = [line.replace("migrated ", "migrated 1") if FAULT == "count" else line for line in done.lines]
    if done.data != data:
        move(data, done.data)
    print("\n".join(lines))
    return done.status


if __name__ == "__main__":
    sys.exit(main(*sys.argv[1:]))
