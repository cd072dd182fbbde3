#!/usr/bin/env python3
"""Draws the example of 400 items with 40 passages: items.csv, attributes.csv and constraints.csv in this folder.

340 items follow the three-parameter model and 60 the generalized partial credit model; 240 belong to passages of
six, 160 stand alone. ln a ~ N(ln 1.3, 0.3^2), b ~ N(0, 1.1^2), c ~ Beta(5, 17), steps b + N(0, 0.6^2). These are
usual ranges; no real pool is meant. The seed is fixed.
"""
import csv
import os
import sys

if __name__ == "__main__" and sys.argv[1:] == ["--help"]:    # before libraries that may not be there
    sys.exit(print(__doc__))

import numpy as np  # noqa: E402

HERE = os.path.dirname(os.path.abspath(__file__))
ITEMS, IN_PASSAGES, LENGTH = 400, 240, 30
DOMAINS = ["reading", "writing", "listening", "research"]
GENRES = ["literary", "informational"]


def one_item(rng, number):
    """Model and parameters, and the attributes that are drawn with them."""
    slope, difficulty = 1.3 * np.exp(rng.normal(0, 0.3)), rng.normal(0, 1.1)
    if number % 20 in (7, 13, 19):
        steps = difficulty + rng.normal(0, 0.6, rng.integers(2, 4))
        found = ["GPC", slope * 0.7] + list(steps)
    else:
        found = ["3PL", slope, difficulty, rng.beta(5, 17)]
    passage = number // 6
    inside = number < IN_PASSAGES
    domain = DOMAINS[passage % 2 * 2] if inside else DOMAINS[[1, 3, 0, 2][number % 4]]
    depth, words = rng.choice([1, 2, 3], p=[0.3, 0.5, 0.2]), rng.integers(15, 90)
    key = "CR" if found[0] == "GPC" else rng.choice(list("ABCD"))
    return found, [f"P{passage + 1:02d}" if inside else "", domain, depth, words, key, GENRES[passage % 2] if inside else ""]


def constraints():
    rows = [["length", "Number", "Item", "", LENGTH, LENGTH], ["passages", "Number", "Stimulus", "", 3, 4],
            ["per passage", "Number", "Item", "Per Stimulus", 3, 5]]
    for name, low, high in (("reading", 10, 14), ("writing", 5, 8), ("listening", 8, 11), ("research", 3, 5)):
        rows.append([name, "Number", "Item", f'DOMAIN == "{name}"', low, high])
    for depth, low, high in ((1, 6, 10), (2, 13, 18), (3, 5, 8)):
        rows.append([f"depth {depth}", "Number", "Item", f"DEPTH == {depth}", low, high])
    rows.append(["depth 3 in reading", "Number", "Item", 'DOMAIN == "reading" & DEPTH == 3', 1, 4])
    rows += [[f"key {key}", "Number", "Item", f'KEY == "{key}"', 4, 9] for key in "ABCD"]
    rows.append(["constructed response", "Number", "Item", 'KEY == "CR"', 3, 6])
    rows.append(["words", "Sum", "Item", "WORDS", 1400, 1700])
    rows += [[genre, "Number", "Item", f'GENRE == "{genre}"', 5, 10] for genre in GENRES]
    return rows + [[f"clue {e}", "Enemy", "Item", f'CLUE == "e{e}"', "", ""] for e in range(20)]


def write(name, head, rows):
    with open(os.path.join(HERE, name), "w", newline="") as file:
        writer = csv.writer(file, lineterminator="\n")
        writer.writerow(head)
        writer.writerows(rows)


def main():
    rng = np.random.default_rng(400)
    drawn = [one_item(rng, number) for number in range(ITEMS)]
    enemies = rng.permutation(np.arange(IN_PASSAGES, ITEMS))[:40].tolist()
    write("items.csv", ["ID", "MODEL", "PAR1", "PAR2", "PAR3", "PAR4"],
          [[f"I{k:03d}", p[0]] + [f"{v:.4f}" for v in p[1:]] + [""] * (5 - len(p)) for k, (p, _) in enumerate(drawn)])
    write("attributes.csv", ["ID", "STID", "DOMAIN", "DEPTH", "WORDS", "KEY", "GENRE", "CLUE"],
          [[f"I{k:03d}"] + a + [f"e{enemies.index(k) // 2}" if k in enemies else ""] for k, (_, a) in enumerate(drawn)])
    write("constraints.csv", ["CONSTRAINT", "TYPE", "WHAT", "CONDITION", "LB", "UB"], constraints())


if __name__ == "__main__":
    main()
