"""Tries the wrong bodies that the full check leaves out; the prover must refuse each. The last line is 'N passed, M failed'.

usage: wrong_bodies.py [--all] [CRATE ..]

The full check tries the edits in `crates/CRATE/must-fail`. The others are in `crates/CRATE/wrong-bodies`, in the same format. This tool
copies the repository to a temporary folder, puts these edits in the place of those of the full check, checks each crate and runs `rt
must-fail` there. With --all it tries the edits of the full check too. Without a name it takes every crate that has such edits: over kept
proofs that is about half an hour on four processors, else as long as a full check. It is run whole before a release.
An edit that is still proved, or that the prover can't read, counts as failed.
"""
import argparse
import glob
import os
import re
import shutil
import subprocess
import sys
import tempfile

from shadowtools.command import as_command
from shadowtools.places import TOP

GATE, OTHERS = "must-fail", "wrong-bodies"


def edits_in(root, crate, folder):
    """The paths of the edits of a crate in one of its two folders."""
    return sorted(glob.glob(os.path.join(root, "crates", crate, folder, "*.edit")))


def crates_with_edits(folders):
    """Each crate that has an edit in one of the folders, in the order of crates.txt."""
    with open(os.path.join(TOP, "crates.txt"), encoding="utf-8") as file:
        names = [line.split(":")[0].split()[0] for line in file if line.strip() and not line.startswith("#")]
    return [name for name in names if any(edits_in(TOP, name, folder) for folder in folders)]


def copy(room, crates, folders):
    """Copies crates, crates.txt and HANDLES; the edits of the named crates are then those of the given folders alone."""
    shutil.copytree(os.path.join(TOP, "crates"), os.path.join(room, "crates"),
                    ignore=shutil.ignore_patterns("out", GATE, OTHERS))
    for name in ("crates.txt", "HANDLES"):
        shutil.copy(os.path.join(TOP, name), room)
    for crate in crates:
        target = os.path.join(room, "crates", crate, GATE)
        os.mkdir(target)
        for folder in folders:
            for path in edits_in(TOP, crate, folder):
                shutil.copy(path, target)


def run(words, folder):
    """Runs a command, and returns its status and what it wrote."""
    ran = subprocess.run(words, cwd=folder, stdout=subprocess.PIPE, stderr=subprocess.STDOUT, errors="replace", check=False)
    return ran.returncode, ran.stdout


def judge(room, crate):
    """Tries the edits of one crate. Returns the numbers of those refused and of those that are not."""
    edits = [os.path.basename(path) for path in edits_in(room, crate, GATE)]
    status, said = run(["rt", "check"], os.path.join(room, "crates", crate))
    if status:
        print(f"{crate}: not proved as it is, so none of its {len(edits)} wrong bodies was tried\n{said[-600:]}")
        return 0, len(edits)
    _, said = run(["rt", "must-fail", crate], room)
    refused = 0
    for edit in edits:
        line = next((it for it in said.splitlines() if re.search(rf"\b{re.escape(crate)}/{re.escape(edit)}: ", it)), "")
        is_refused = ": refused, as it must be" in line
        print(line or f"{crate}/{edit}: no line of rt must-fail names it")
        refused += is_refused
    return refused, len(edits) - refused


def main(words):
    parser = argparse.ArgumentParser(description=__doc__, formatter_class=argparse.RawDescriptionHelpFormatter)
    parser.add_argument("--all", action="store_true", help="the edits of the full check too")
    parser.add_argument("crates", nargs="*", metavar="CRATE")
    given = parser.parse_args(words)
    folders = [OTHERS, GATE] if given.all else [OTHERS]
    known = crates_with_edits(folders)
    unknown = [name for name in given.crates if name not in known]
    if unknown:
        parser.error(f"{unknown[0]} has no edits in {' or '.join(folders)}")
    crates = given.crates or known
    refused = others = 0
    with tempfile.TemporaryDirectory(prefix="wrong-bodies-") as room:
        copy(room, crates, folders)
        for crate in crates:
            good, bad = judge(room, crate)
            refused, others = refused + good, others + bad
    print(f"{refused} passed, {others} failed")
    return 1 if others or not refused else 0


command = as_command(main)


if __name__ == "__main__":
    sys.exit(command())
