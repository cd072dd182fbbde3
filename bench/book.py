#!/usr/bin/env python3
"""What memory a session of 20 items on 11 points takes in the book, with one band and with eight. See book.md.

usage: book.py PROGRAM [--sessions FEW MANY] [--folder FOLDER]

PROGRAM is the built program of crates/shadowd; the journals are written in FOLDER (/dev/shm without it). FEW and MANY are powers of two
(1024 and 65536 without them), since the lists of the book grow by doubling.
"""
import argparse
import os
import resource
import subprocess
import sys
import tempfile

LENGTH, GRID, ITEMS = 20, 11, 24
BANDS = {1: "", 8: "bands 1 2 3 4 5 6 7\n"}


def bank_text():
    header = ["item", "stimulus", "categories"] + ["i%d" % g for g in range(GRID)]
    header += ["l%d_%d" % (r, g) for r in range(2) for g in range(GRID)]
    lines = [",".join(header)]
    for item in range(ITEMS):
        fields = [item, 0, 2] + [100 + item * 7 + g for g in range(GRID)] + [-1000] * (2 * GRID)
        lines.append(",".join(map(str, fields)))
    return "\n".join(lines) + "\n"


def plan_text(bands):
    return (f"length {LENGTH}\nprior " + " ".join(["0"] * GRID) + "\nrate 1 1\nkey " + "00" * 32 + "\n" + BANDS[bands]
            + "sessions 65536\njournal 536870912\n")


def write(folder, name, text):
    path = os.path.join(folder, name)
    with open(path, "w", encoding="ascii") as file:
        file.writelines(text)
    return path


def run(words, journal):
    """The first line of the output, and the greatest resident size in bytes."""
    with tempfile.TemporaryFile() as out:
        child = subprocess.Popen(words, env=dict(os.environ, SHADOWD_JOURNAL=journal), stdout=out)
        _, status, used = os.wait4(child.pid, 0)
        if os.waitstatus_to_exitcode(status) != 0:
            sys.exit(f"{words[1]}: status {os.waitstatus_to_exitcode(status)}")
        if used.ru_maxrss <= resource.getrusage(resource.RUSAGE_SELF).ru_maxrss:
            sys.exit("the program takes less memory than Python, which started it: more sessions are needed")
        out.seek(0)
        return out.readline().decode().strip(), used.ru_maxrss * 1024


def resident(program, folder, bands, sessions):
    """The greatest resident size of an audit of a journal of so many sessions, each at its first item."""
    bank, plan = write(folder, "bank", bank_text()), write(folder, "plan", plan_text(bands))
    script, journal = write(folder, "script", (f"begin {n}\n" for n in range(sessions))), os.path.join(folder, "journal")
    run([program, "replay", bank, plan, script], journal)
    line, size = run([program, "audit", bank, plan], journal)
    if not line.startswith(f"entries {2 * sessions} sessions {sessions} finished 0 "):
        sys.exit(f"audit: {line}")
    os.remove(journal)
    return size


def main():
    words = argparse.ArgumentParser(description="Measures the memory of a session in the book.")
    words.add_argument("program")
    words.add_argument("--sessions", type=int, nargs=2, default=(1024, 65536), metavar=("FEW", "MANY"))
    words.add_argument("--folder", default="/dev/shm" if os.path.isdir("/dev/shm") else None)
    asked = words.parse_args()
    few, many = asked.sessions
    program = os.path.abspath(asked.program)
    for bands in BANDS:
        with tempfile.TemporaryDirectory(dir=asked.folder) as folder:
            sizes = [resident(program, folder, bands, sessions) for sessions in (few, many)]
        print(f"bands {bands}: {sizes[0]:,} bytes at {few:,} sessions, {sizes[1]:,} at {many:,}:"
              f" {(sizes[1] - sizes[0]) / (many - few):.0f} bytes a session")


if __name__ == "__main__":
    main()
