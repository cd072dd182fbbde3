#!/usr/bin/env python3
"""Times a turn of the turn lock beside std's mutex. See turn.md.

usage: turn.py PROGRAM [--rounds N]

PROGRAM is the built program of crates/turn_bench. --rounds is how often each lock is timed (7 without it).
"""
import statistics
import subprocess
import sys

SIZES = ((1, 1000000), (2, 50000), (4, 25000), (16, 5000))  # callers, and the turns of each


def times(program, callers, turns, rounds):
    """For each lock what a turn took in each round, in nanoseconds."""
    words = [program, str(callers), str(turns), str(rounds)]
    done = subprocess.run(words, stdout=subprocess.PIPE, check=True)
    took = {"turn": [], "mutex": []}
    for line in done.stdout.decode().splitlines():
        lock, _, n, _, m, _, counted, _, nanoseconds = line.split(" ")
        if (int(n), int(m), int(counted)) != (callers, turns, callers * turns):
            raise ValueError(line)
        took[lock].append(int(nanoseconds) / (callers * turns))
    if any(len(rows) != rounds for rows in took.values()):
        raise ValueError(words)
    return took


def main():
    words = sys.argv[1:]
    rounds = 7
    if len(words) == 3 and words[1] == "--rounds":
        rounds = int(words[2])
    elif len(words) != 1:
        print(__doc__)
        return 2
    print("| Callers | Turns of each | Turn lock, ns a turn: median (least) | Mutex, ns a turn: median (least) | Turn lock by mutex |")
    print("|---|---|---|---|---|")
    for callers, turns in SIZES:
        took = times(words[0], callers, turns, rounds)
        turn, mutex = (statistics.median(took[lock]) for lock in ("turn", "mutex"))
        cells = [str(callers), str(turns)]
        cells += ["%.0f (%.0f)" % (statistics.median(rows), min(rows)) for rows in (took["turn"], took["mutex"])]
        print("| " + " | ".join(cells + ["%.1f" % (turn / mutex)]) + " |", flush=True)
    return 0


if __name__ == "__main__":
    if sys.argv[1:] == ["--help"]:
        sys.exit(print(__doc__))
    sys.exit(main())
