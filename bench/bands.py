#!/usr/bin/env python3
"""Exposure by bands of ability beside one band: conditional rates, and what becomes of whole tests.

usage: bands.py [EXAMINEES] [PROGRAM]      default 1000, and the built shadowd

The 45 items of `examples/knowledge` are given in tests of 12 without rules of content, to the same examinees with the same answers: in
turn at the middle of each of five bands, one session after another. There is one band at the rate 2 / 5, and there are five bands at
2 / 5 and at 1 / 6. Printed is the table of docs/GUIDE.md in Markdown, with the rates of the five bands in each column. It asserts
nothing, but simulate.py counts each draw anew and holds the totals against the program's. Needs python3-numpy and python3-scipy.
"""
import json
import os
import re
import subprocess
import sys
import tempfile
from typing import Dict, List, Sequence

if __name__ == "__main__" and sys.argv[1:] == ["--help"]:    # before libraries that may not be there
    sys.exit(print(__doc__))

import numpy as np  # noqa: E402

TOP = os.path.dirname(os.path.dirname(os.path.abspath(__file__)))
sys.path.insert(0, os.path.join(TOP, "tools"))
from shadowtools.agency import simulation  # noqa: E402
from shadowtools.formats.examination import band_of, read_journal  # noqa: E402
from shadowtools.formats.exposure import Exposure, exposure_of  # noqa: E402
from shadowtools.page.measures import mean_overlap  # noqa: E402
from shadowtools.places import BUILT  # noqa: E402

KEY = "00112233445566778899aabbccddeeff" * 2
FIVE = ["--bands", "5"]
PLANS = {"One band, 2 of 5": ["--rate", "2", "5"], "Five bands, 2 of 5": ["--rate", "2", "5", *FIVE],
         "Five bands, 1 of 6": ["--rate", "1", "6", *FIVE]}


def run(*words: str) -> str:
    done = subprocess.run([sys.executable, os.path.join(TOP, "tools", words[0]), *words[1:]], capture_output=True, text=True)
    if done.returncode:
        sys.exit(f"{words[0]}: status {done.returncode}: {done.stderr[-600:]}")
    return done.stdout


def points_of(folder: str, program: str) -> List[str]:
    """The points of the five bands, as the tool advises them."""
    made(folder, PLANS["Five bands, 2 of 5"], program)
    with open(f"{folder}/exam.plan.txt", encoding="utf-8") as file:
        return re.search(r"(?m)^bands (.*)$", file.read()).group(1).split()


def made(folder: str, words: Sequence[str], program: str) -> None:
    run("irt_bank.py", "--items", os.path.join(TOP, "examples", "knowledge", "items.csv"), "--length", "12", "--key", KEY, *words,
        "--out", f"{folder}/exam", "--program", program)


def column(folder: str, words: Sequence[str], points: Sequence[str], examinees: int, program: str) -> Dict[str, str]:
    """What is told of one plan, by the names of the rows."""
    made(folder, words, program)
    run("simulate.py", f"{folder}/exam", "--out", f"{folder}/run", "--examinees", str(examinees), "--true", "bands", "--watch", *points,
        "--through", "serve", "--clients", "1", "--program", program)
    examination = simulation.load(f"{folder}/exam")
    counts = exposure_of(read_journal(f"{folder}/run.journal"), examination.bank, examination.plan, list(map(int, points)))
    with open(f"{folder}/run.run.json", encoding="utf-8") as file:
        true = np.array(json.load(file)["true"])[[session.booking for session in counts.sessions]]
    return {**of_bands(examination, counts), **of_tests(examination, counts, true)}


def of_bands(examination: simulation.Examination, counts: Exposure) -> Dict[str, str]:
    names = simulation.band_names(examination.theta, counts.points)
    return {f"{band}, {name}": f"{one.visited:,}, {max(one.rates()):.3f}" for band, (one, name) in enumerate(zip(counts.watched, names))}


def of_tests(examination: simulation.Examination, counts: Exposure, true: np.ndarray) -> Dict[str, str]:
    """The exposure in whole tests, at each ability and in all, and the error of the estimate."""
    shown = np.zeros((len(counts.sessions), len(examination.items)), bool)
    for row, session in zip(shown, counts.sessions):
        row[session.items] = True
    rates, error = shown.mean(0), simulation.estimates(examination, counts.sessions).eap - true
    visited = [len({band_of(counts.points, point) for point in [examination.plan.start, *seat.estimates]}) for seat in counts.seats]
    return {**{f"Greatest exposure at ability {point:g}": f"{shown[true == point].mean(0).max():.3f}" for point in np.unique(true)},
            "Greatest exposure in all, never shown": f"{rates.max():.3f}, {(rates == 0).sum()} of {len(rates)}",
            "Mean overlap of two tests": f"{mean_overlap(shown, examination.plan.length):.3f}",
            "RMSE of the mean (EAP)": f"{np.sqrt((error ** 2).mean()):.3f}",
            "Bands that a test visits, mean": f"{np.mean(visited):.2f}",
            "Eligibility set aside": f"{sum(one.aside for one in counts.bands)}"}


def main(words: Sequence[str]) -> int:
    examinees, program = int(words[0]) if words else 1000, os.path.abspath(words[1] if len(words) > 1 else BUILT)
    with tempfile.TemporaryDirectory() as folder:
        points = points_of(folder, program)
        found = {name: column(folder, plan, points, examinees, program) for name, plan in PLANS.items()}
    print("| Band of the estimate: visits, greatest rate of them | " + " | ".join(found) + " |")
    print("|---|" + "---|" * len(found))
    for row in next(iter(found.values())):
        print(f"| {row} | " + " | ".join(told[row] for told in found.values()) + " |")
    return 0


if __name__ == "__main__":
    sys.exit(main(sys.argv[1:]))
