#!/usr/bin/env python3
"""Times the separate checker of proof trees on trees of the greatest size. See checker.md.

usage: checker.py PROGRAM

PROGRAM is the built program of crates/assembly_bench.
"""
import subprocess
import sys

ROUNDS = 5
NODES = 4095
SIZES = ((120, 18, 6), (120, 128, 64), (512, 128, 64))  # items, rows, stimuli
GOOD = {"check": "Optimal", "spent": "true"}


def run(program, size):
    """The microseconds of the verdict and of the spent test."""
    words = [program, "check", *map(str, size), str(NODES)]
    done = subprocess.run(words, stdout=subprocess.PIPE, check=True)
    times = {}
    for line in done.stdout.decode().splitlines():
        what, nodes, _, answer, _, microseconds = line.split(" ")[:6]
        if int(nodes) != NODES or answer != GOOD[what]:
            raise ValueError(line)
        times[what] = int(microseconds)
    return times["check"], times["spent"]


def main():
    if len(sys.argv) != 2:
        print(__doc__)
        return 2
    print("| Items | Rows | Stimuli | `check` of %d nodes, ms | nodes a second | `spent`, ms | nodes a second |" % NODES)
    print("|---|---|---|---|---|---|---|")
    for size in SIZES:
        runs = [run(sys.argv[1], size) for _ in range(ROUNDS)]
        cells = list(map(str, size))
        for least in (min(check for check, _ in runs), min(spent for _, spent in runs)):
            cells += ["%.0f" % (least / 1000), "%d" % (NODES * 1000000 // least)]
        print("| " + " | ".join(cells) + " |", flush=True)
    return 0


if __name__ == "__main__":
    if sys.argv[1:] == ["--help"]:
        sys.exit(print(__doc__))
    sys.exit(main())
