"""Compares the command `audit` with tools/audit.py on journals of drills, whole ones and ones with a bit changed.

usage: audit_drills.py PROGRAM [DRILLS]      the built shadowd, and the number of drills; default 60

For each number from 1 on, the texts of a drill of one to three sessions are made and replayed. Every second plan also gets one to seven
drawn points at which bands of abilities begin, and its sessions follow one another, so that the draws of one rest on those before. The
journal of each, and three copies of it with one drawn bit changed, are read by both. They must print the same, and no journal may be
changed. The last line is 'N passed, M failed'.
"""
import os
import random
import subprocess
import sys
import tempfile

from shadowtools.checkers import drill_texts
from shadowtools.command import as_command
from shadowtools.gate import torture_draws
from shadowtools.places import TOOLS

COPIES = 3


def read_both(program, folder, data):
    """What is wrong with the journal's two readings, if anything is."""
    path = os.path.join(folder, "journal")
    with open(path, "wb") as file:
        file.write(data)
    environment = dict(os.environ, SHADOWD_JOURNAL="journal")
    ours = subprocess.run([program, "audit", "bank.csv", "plan.txt"], cwd=folder, env=environment, capture_output=True)
    other = subprocess.run([sys.executable, os.path.join(TOOLS, "audit.py"), "bank.csv", "plan.txt", "journal", "--bands"],
                           cwd=folder, capture_output=True)
    with open(path, "rb") as file:
        if file.read() != data:
            return "the journal was changed"
    if ours.returncode not in (0, 6):
        return f"status {ours.returncode}"
    if ours.stdout != other.stdout:
        return f"{ours.stdout[:80]} and {other.stdout[:80]}"
    return None


def add_bands(drawn, folder):
    """Gives the plan of a drill bands, and takes its sessions one after another."""
    with open(os.path.join(folder, "plan.txt"), "a", encoding="ascii") as file:
        file.write(f"bands {torture_draws.band_points(drawn, len(drill_texts.POINTS))}\n")
    path = os.path.join(folder, "script.txt")
    with open(path, encoding="ascii") as file:
        lines = file.readlines()
    with open(path, "w", encoding="ascii") as file:
        file.writelines(sorted(lines, key=session_of))


def session_of(line):
    """The session of a line of a drill's script: session s is begun for booking s + 1."""
    word, number, *_ = line.split()
    return int(number) - (word == "begin")


def journals_of(program, number, folder):
    """The journal of a drill, and its changed copies."""
    drawn = random.Random(number)
    drill_texts.main([str(number), str(1 + number % 3), folder])
    if number % 2 == 0:
        add_bands(drawn, folder)
    environment = dict(os.environ, SHADOWD_JOURNAL="journal")
    subprocess.run([program, "replay", "bank.csv", "plan.txt", "script.txt"], cwd=folder, env=environment,
                   stdout=subprocess.DEVNULL, check=True)
    with open(os.path.join(folder, "journal"), "rb") as file:
        data = file.read()
    yield data
    for _ in range(COPIES):
        changed = bytearray(data)
        changed[drawn.randrange(len(changed))] ^= 1 << drawn.randrange(8)
        yield bytes(changed)


def main(words):
    if not 1 <= len(words) <= 2:
        sys.exit(__doc__)
    program = os.path.abspath(words[0])
    passed = failed = 0
    for number in range(1, 1 + int(words[1] if len(words) > 1 else 60)):
        with tempfile.TemporaryDirectory() as folder:
            for data in journals_of(program, number, folder):
                wrong = read_both(program, folder, data)
                if wrong:
                    failed += 1
                    print(f"drill {number}: {wrong}")
                else:
                    passed += 1
    print(f"{passed} passed, {failed} failed")
    return 1 if failed else 0


command = as_command(main)


if __name__ == "__main__":
    sys.exit(command())
