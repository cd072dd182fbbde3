#!/usr/bin/env python3
"""Times the built program on the greatest bank text beside Python's csv reader. See bank_reader.md.

usage: bank_reader.py PROGRAM
"""
import csv
import io
import os
import subprocess
import sys
import tempfile
import time

ROUNDS = 11


def bank_text(items, grid, categories, quantities):
    """A bank whose numbers come of a fixed recurrence."""
    header = ["item", "stimulus", "categories"]
    header += ["q%d" % k for k in range(quantities)]
    header += ["i%d" % g for g in range(grid)]
    header += ["l%d_%d" % (r, g) for r in range(categories) for g in range(grid)]
    lines, state = [",".join(header)], 1
    for item in range(items):
        fields = [item, item % 65, categories]
        for low, high, count in ((0, 1000, quantities), (0, 10000, grid), (-1000, 0, categories * grid)):
            for _ in range(count):
                state = (state * 1103515245 + 12345) % 2**31
                fields.append(low + (state >> 8) % (high - low + 1))
        lines.append(",".join(map(str, fields)))
    return "\n".join(lines) + "\n"


def least(work):
    best = None
    for _ in range(ROUNDS):
        start = time.perf_counter()
        result = work()
        spent = time.perf_counter() - start
        best = spent if best is None else min(best, spent)
    return best, result


def main():
    if len(sys.argv) != 2:
        print(__doc__)
        return 2
    program = os.path.abspath(sys.argv[1])
    with tempfile.TemporaryDirectory() as folder:

        def put(name, content):
            path = os.path.join(folder, name)
            with open(path, "w", newline="") as out:
                out.write(content)
            return path

        text = bank_text(512, 61, 5, 8)
        large = put("large", text)
        small = put("small", bank_text(1, 61, 5, 8))
        plan = put("plan", "length 1\nprior" + " 0" * 61 + "\n")
        script = put("script", "begin 1\n")

        def program_on(bank, command):
            words = [program, command, bank, plan] + ([script] if command == "replay" else [])
            env = dict(os.environ, SHADOWD_JOURNAL=os.path.join(folder, "journal"))
            done = subprocess.run(words, cwd=folder, env=env, stdin=subprocess.DEVNULL, stdout=subprocess.PIPE)
            return done.returncode, done.stdout.split(b"\n")[0]

        command = "replay" if program_on(small, "check")[0] == 2 else "check"
        whole, answer = least(lambda: program_on(large, command))
        start, _ = least(lambda: program_on(small, command))
        good = (15, b"not yet") if command == "replay" else (0, b"bank items 512 grid 61 quantities 8 stimuli 64")
        if answer != good:
            print("%s answered %r, wanted %r" % (command, answer, good))
            return 1

        def python():
            rows = csv.reader(io.StringIO(text))
            next(rows)
            return sum(len([int(field) for field in row]) for row in rows)

        peer, fields = least(python)
        if fields != 512 * (3 + 8 + 61 + 5 * 61):
            print("Python read %d fields" % fields)
            return 1
        own = max(whole - start, 0.0)
        print("bank text of %d bytes, %d fields, by `%s`" % (len(text), fields, command))
        print("program %.1f ms (with its start %.1f ms)" % (1000 * own, 1000 * whole))
        print("python csv and int %.1f ms" % (1000 * peer))
        print("ratio %.2f" % (own / peer))
    return 0


if __name__ == "__main__":
    if sys.argv[1:] == ["--help"]:
        sys.exit(print(__doc__))
    sys.exit(main())
