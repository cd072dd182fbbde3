#!/usr/bin/env python3
"""Times the draw of the items that are eligible for a session: alone, and in a start with one band beside eight. See draw.md.

usage: draw.py PROGRAM DRAWS [--begins N] [--rounds N] [--folder FOLDER]

PROGRAM is the built program of crates/shadowd, DRAWS that of crates/draw_bench; the journal is written in FOLDER, which is best one in memory
(/dev/shm without it).
"""
import argparse
import os
import subprocess
import sys
import tempfile

ITEMS, GRID = 512, 11
BANDS = {1: "", 8: "bands 1 2 3 4 5 6 7\n"}


def bank_text():
    """A bank of 512 items whose informations are all different, so that the best form of one item is found at once."""
    header = ["item", "stimulus", "categories"] + ["i%d" % g for g in range(GRID)]
    header += ["l%d_%d" % (r, g) for r in range(2) for g in range(GRID)]
    lines = [",".join(header)]
    for item in range(ITEMS):
        fields = [item, 0, 2] + [1 + (item * 37 + g * 101) % 1009 for g in range(GRID)] + [-1000] * (2 * GRID)
        lines.append(",".join(map(str, fields)))
    return "\n".join(lines) + "\n"


def plan_text(bands):
    return ("length 1\nprior " + " ".join(["0"] * GRID) + "\nrate 1 4\nkey " + "5a" * 32 + "\n" + BANDS[bands]
            + "sessions 65536\njournal 536870912\n")


def seconds(program, folder, bands, begins):
    """The processor seconds of so many starts over a new journal; it ends where one of them was not served."""
    journal = os.path.join(folder, "journal")
    words = [program, "replay", *(os.path.join(folder, name) for name in ("bank", f"plan{bands}", "script"))]
    with tempfile.TemporaryFile() as out:
        child = subprocess.Popen(words, env=dict(os.environ, SHADOWD_JOURNAL=journal), stdout=out)
        _, status, used = os.wait4(child.pid, 0)
        out.seek(0)
        lines = out.read().decode().splitlines()
    served = [line for line in lines if " step 0 item " in line]
    if os.waitstatus_to_exitcode(status) != 0 or len(served) != begins or len(lines) != begins:
        sys.exit(f"status {os.waitstatus_to_exitcode(status)}, {len(served)} of {begins} sessions served: {lines[-1:]}")
    os.remove(journal)
    return used.ru_utime + used.ru_stime


def draw_alone(draws, sessions, rounds):
    """The least time of the draw for a session of 512 items in eight bands, in microseconds, by the program's own clock."""
    said = subprocess.run([draws, str(sessions), str(rounds)], stdout=subprocess.PIPE, check=True).stdout.decode()
    return min(int(line.rsplit(" ", 1)[1]) for line in said.splitlines()) / sessions / 1e3


def least(program, folder, begins, rounds):
    """The least time of a start with one band and with eight, in turn, in microseconds."""
    took = {bands: [] for bands in BANDS}
    for _ in range(rounds):
        for bands in BANDS:
            took[bands].append(seconds(program, folder, bands, begins))
    return {bands: min(times) / begins * 1e6 for bands, times in took.items()}


def main():
    words = argparse.ArgumentParser(description="Times the draw of one band beside eight.")
    words.add_argument("program")
    words.add_argument("draws")
    words.add_argument("--begins", type=int, default=4000)
    words.add_argument("--rounds", type=int, default=9)
    words.add_argument("--folder", default="/dev/shm" if os.path.isdir("/dev/shm") else None)
    asked = words.parse_args()
    alone = draw_alone(os.path.abspath(asked.draws), 100, 200)
    print(f"the draw of {ITEMS} items in eight bands, the least of 200 rounds of 100 sessions: {alone:.1f} microseconds a session")
    with tempfile.TemporaryDirectory(dir=asked.folder) as folder:
        texts = {"bank": bank_text(), "script": "".join(f"begin {n}\n" for n in range(asked.begins))}
        texts.update({f"plan{bands}": plan_text(bands) for bands in BANDS})
        for name, text in texts.items():
            with open(os.path.join(folder, name), "w", encoding="ascii") as file:
                file.write(text)
        found = least(os.path.abspath(asked.program), folder, asked.begins, asked.rounds)
    print(f"{asked.begins} starts on {ITEMS} items, the least of {asked.rounds} runs each, in microseconds a start:"
          f" one band {found[1]:.2f}, eight bands {found[8]:.2f}, so seven more bands {found[8] - found[1]:.2f}")


if __name__ == "__main__":
    main()
