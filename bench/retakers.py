#!/usr/bin/env python3
"""Examinees that sit twice, with and without a list of the items of the first sitting: overlap, error, and forms that are left.

usage: retakers.py [EXAMINEES] [PROGRAM]      default 400, and the built shadowd

Half of the examinees of `examples/knowledge` sit twice. In each two columns the plan is the same, and so are the examinees and their answers; in
the second the second sitting is begun without the items of the first. The columns are made at the same time. Printed is the table of docs/GUIDE.md in Markdown. It asserts nothing, but
simulate.py counts each rule anew, and compares the lists with the journal. Needs python3-numpy.
"""
import os
import subprocess
import sys
import tempfile
from concurrent.futures import ThreadPoolExecutor
from typing import Dict, Sequence

if __name__ == "__main__" and sys.argv[1:] == ["--help"]:    # before libraries that may not be there
    sys.exit(print(__doc__))

import numpy as np  # noqa: E402

TOP = os.path.dirname(os.path.dirname(os.path.abspath(__file__)))
sys.path.insert(0, os.path.join(TOP, "tools"))
from shadowtools.agency import simulation  # noqa: E402
from shadowtools.agency.retakers import retakes_of  # noqa: E402
from shadowtools.formats.examination import read_journal  # noqa: E402
from shadowtools.formats.exposure import exposure_of  # noqa: E402
from shadowtools.places import BUILT  # noqa: E402

KEY = "00112233445566778899aabbccddeeff" * 2
PLANS = {"no rate": [], "2 of 3": ["--rate", "2", "3", "--key", KEY]}
WAYS = {"no list": ["--no-lists"], "without the first's items": []}


def run(*words: str) -> None:
    done = subprocess.run([sys.executable, os.path.join(TOP, "tools", words[0]), *words[1:]], capture_output=True, text=True)
    if done.returncode:
        sys.exit(f"{words[0]}: status {done.returncode}: {done.stderr[-600:]}")


def column(folder: str, plan: Sequence[str], way: Sequence[str], examinees: int, program: str) -> Dict[str, str]:
    """What is told of one plan and one way to begin the second sittings, by the names of the rows."""
    tables = [word for name in ("items", "attributes", "constraints")
              for word in ("--" + name, os.path.join(TOP, "examples", "knowledge", name + ".csv"))]
    run("irt_bank.py", *tables, "--quantity", "WORDS", *plan, "--out", f"{folder}/exam", "--program", program)
    run("simulate.py", f"{folder}/exam", "--out", f"{folder}/run", "--examinees", str(examinees), "--tails", "none", "--retakers", "0.5", *way,
        "--through", "serve", "--clients", "1", "--program", program)
    examination, told = simulation.load(f"{folder}/exam"), simulation.read_run(f"{folder}/run.run.json")
    counts = exposure_of(read_journal(f"{folder}/run.second.journal"), examination.bank, examination.plan)
    sample, second = simulation.parted(counts.sessions, examinees)
    found = retakes_of(told, sample, second)
    one, two = (found.sitting(examination, place) for place in (0, 1))
    common, at = found.common(), zip(found.pairs, found.true)
    information = [sum(examination.items[item].information(true, examination.scaling)[0] for item in after.items) for (_, after), true in at]
    return {"Second sittings begun, no form left, none found":
            f"{len(found.pairs)}, {found.refused.get('no-form', 0)}, {found.refused.get('none-found', 0)}",
            "Overlap of the two tests of a person, mean and greatest": f"{common.mean():.3f}, {common.max():.3f}",
            "RMSE of the mean (EAP), first and second sitting": f"{one.rmse:.3f}, {two.rmse:.3f}",
            "Mean posterior SD, first and second sitting": f"{one.posterior_sd:.3f}, {two.posterior_sd:.3f}",
            "Information at the truth in the second sitting, mean": f"{np.mean(information):.2f}",
            "Forms of the second sitting proved best": f"{two.proved:,} of {two.forms:,}",
            "Second tests in which eligibility was set aside": f"{two.aside}"}


def main(words: Sequence[str]) -> int:
    examinees, program = int(words[0]) if words else 400, os.path.abspath(words[1] if len(words) > 1 else BUILT)
    columns = [(plan, way) for plan in PLANS for way in WAYS]

    def made(column_of):
        with tempfile.TemporaryDirectory() as folder:
            return column(folder, PLANS[column_of[0]], WAYS[column_of[1]], examinees, program)

    with ThreadPoolExecutor() as pool:
        found = {", ".join(one): told for one, told in zip(columns, pool.map(made, columns))}
    print("| | " + " | ".join(found) + " |")
    print("|---|" + "---|" * len(found))
    for row in next(iter(found.values())):
        print(f"| {row} | " + " | ".join(told[row] for told in found.values()) + " |")
    return 0


if __name__ == "__main__":
    sys.exit(main(sys.argv[1:]))
