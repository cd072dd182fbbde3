"""Checks a crate and each crate above it, the lowest first, and stops at the first that is not proved.

usage: dev.py [--list] CRATE ..

Each check is `rt check` in the crate's folder, over what earlier checks kept. Before each one the tool prints how many are left,
and their processor minutes from nothing by the table of bench/gate.md (a crate that is not in the table counts as its shortest row).
--list prints that order alone. The verdict is that of the full check: `rt ci NAME` for a crate, `.ci/run` for all.
"""
import argparse
import os
import re
import subprocess
import sys

from shadowtools.command import as_command
from shadowtools.places import TOP


def dependencies():
    """Each crate with the crates of the repository that it names, in the order of crates.txt."""
    with open(os.path.join(TOP, "crates.txt"), encoding="utf-8") as file:
        lines = [line.split("#")[0].partition(":") for line in file]
    named = {head.split()[0]: tail.split() for head, _, tail in lines if head.strip()}
    return {crate: [it for it in below if it in named] for crate, below in named.items()}


def above(crates, below):
    """The named crates and those that need one of them, each after those that it needs."""
    reached = set(crates)
    grown = True
    while grown:
        more = {crate for crate, needs in below.items() if reached.intersection(needs)} - reached
        reached |= more
        grown = bool(more)
    order, left = [], [crate for crate in below if crate in reached]
    while left:
        ready = [crate for crate in left if not set(below[crate]) & set(left)]
        order += ready
        left = [crate for crate in left if crate not in ready]
    return order


def minutes():
    """The minutes of a proof, by crate, from the table of bench/gate.md."""
    with open(os.path.join(TOP, "bench", "gate.md"), encoding="utf-8") as file:
        rows = re.findall(r"^\| `(\w+)` \| ([\d.]+) \| ([\d.]+) \|", file.read(), re.MULTILINE)
    return {crate: float(proof) + float(tests) for crate, proof, tests in rows}


def main(words):
    parser = argparse.ArgumentParser(description=__doc__, formatter_class=argparse.RawDescriptionHelpFormatter)
    parser.add_argument("--list", action="store_true", help="print the order alone")
    parser.add_argument("crates", nargs="+", metavar="CRATE")
    given = parser.parse_args(words)
    below = dependencies()
    unknown = [name for name in given.crates if name not in below]
    if unknown:
        parser.error(f"crates.txt has no crate {unknown[0]}")
    order, cost = above(given.crates, below), minutes()
    unlisted = min(cost.values())  # the table has the crates that take longest
    for done, crate in enumerate(order):
        left = sum(cost.get(it, unlisted) for it in order[done:])
        print(f"{crate}: {done + 1} of {len(order)}, some {left:.0f} processor minutes left", flush=True)
        if given.list:
            continue
        if subprocess.run(["rt", "check"], cwd=os.path.join(TOP, "crates", crate), check=False).returncode:
            print(f"{crate} is not proved")
            return 1
    if not given.list:
        print(f"{len(order)} crates are proved over kept work; rt ci is the verdict")
    return 0


command = as_command(main)


if __name__ == "__main__":
    sys.exit(command())
