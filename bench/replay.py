#!/usr/bin/env python3
"""Times a replay of a whole test of 8 items on a bank of 16. See replay.md.

usage: replay.py PROGRAM
"""
import os
import subprocess
import sys
import tempfile
import time

ROUNDS = 11
ITEMS, LENGTH, GRID = 16, 8, 3


def texts():
    """A bank whose numbers come of a fixed recurrence, a plan with a row of each half, and eight answers."""
    header = ["item", "stimulus", "categories"] + ["i%d" % g for g in range(GRID)]
    header += ["l%d_%d" % (r, g) for r in range(2) for g in range(GRID)]
    lines, state = [",".join(header)], 1
    for item in range(ITEMS):
        fields = [item, 0, 2]
        for low, high, count in ((0, 1000, GRID), (-1000, 0, 2 * GRID)):
            for _ in range(count):
                state = (state * 1103515245 + 12345) % 2**31
                fields.append(low + (state >> 8) % (high - low + 1))
        lines.append(",".join(map(str, fields)))
    plan = "length 8\nprior -100 0 -100\ncount 3 5 0-7\ncount 3 5 8-15\n"
    script = "begin 1\n" + "".join("answer 0 %d %d\n" % (k, k % 2) for k in range(LENGTH))
    return "\n".join(lines) + "\n", plan, script


def seconds(words):
    start = time.perf_counter()
    done = subprocess.run(words, capture_output=True)
    took = time.perf_counter() - start
    return took, done


def main():
    if len(sys.argv) != 2:
        print(__doc__)
        return 2
    with tempfile.TemporaryDirectory() as folder:
        paths = []
        for name, text in zip(("bank", "plan", "script"), texts()):
            paths.append(os.path.join(folder, name))
            with open(paths[-1], "w") as file:
                file.write(text)
        replay, check = [], []
        for _ in range(ROUNDS):
            took, done = seconds([sys.argv[1], "replay", *paths])
            lines = done.stdout.decode().splitlines()
            if done.returncode != 0 or len(lines) != LENGTH + 1 or lines[-1] != "session 0 complete":
                print("not a whole test:", done.returncode, lines)
                return 1
            replay.append(took)
            took, done = seconds([sys.argv[1], "check", *paths[:2]])
            if done.returncode != 0:
                print("the plan is refused:", done.stdout.decode())
                return 1
            check.append(took)
    print("replay %.1f ms, check (the same texts read, nothing served) %.1f ms; the least of %d runs each"
          % (1000 * min(replay), 1000 * min(check), ROUNDS))
    return 0


if __name__ == "__main__":
    if sys.argv[1:] == ["--help"]:
        sys.exit(print(__doc__))
    sys.exit(main())
