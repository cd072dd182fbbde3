#!/usr/bin/env python3
"""Holds a simulation beside shadow tests that HiGHS assembles with exact information, on the same examinees and answers.

usage: shadow_tests.py PREFIX --run OUT [--examinees N]

PREFIX.* are irt_bank.py's files and OUT.* simulate.py's. Each HiGHS test estimates ability on 1,201 points from -6 to 6
from exact parameters, once by the mean (EAP) and once by the mode, assembles a whole form at the estimate with a
relative gap of 1e-9, and serves its most informative item. Plans with passages are not taken. Needs python3-scipy.
"""
import os
import sys
import time

sys.path.insert(0, os.path.join(os.path.dirname(os.path.dirname(os.path.abspath(__file__))), "tools"))
if sys.argv[1:] in (["--help"], ["-h"]):
    print(__doc__.strip())
    sys.exit(0)
try:
    import numpy as np
    from scipy.optimize import Bounds, LinearConstraint, milp
except ImportError:
    sys.exit("shadow_tests.py needs numpy and scipy: apt-get install python3-scipy, and run it by /usr/bin/python3")

from examination import read_journal, sessions_of  # noqa: E402
from shadowtools.options import Options, whole  # noqa: E402
from simulation import FINE, drawn_responses, estimates, load, prior_on, read_run  # noqa: E402


def model(examination):
    """The rules as rows over the items."""
    count = len(examination.items)
    rows, low, high = [np.ones(count)], [examination.plan.length], [examination.plan.length]
    for rule in examination.plan.rules:
        if rule.kind in ("stimuli", "stimulus"):
            sys.exit("plans with passages are not taken")
        row = np.zeros(count)
        for i in rule.members:
            row[i] = examination.bank[i].quantities[rule.number] if rule.kind == "quantity" else 1
        rows.append(row)
        low.append(rule.low)
        high.append(rule.high)
    return LinearConstraint(np.array(rows), low, high)


class Exact:
    """Tests by HiGHS from exact parameters."""

    def __init__(self, examination):
        self.examination, self.rules = examination, model(examination)
        items, scaling = examination.items, examination.scaling
        self.logs = [np.log(np.maximum(item.probabilities(FINE, scaling), 1e-300)) for item in items]
        self.information = np.stack([item.information(FINE, scaling) for item in items])
        self.seconds, self.forms = 0.0, 0

    def point(self, sums, rule):
        """The point of FINE at the estimate."""
        if rule == "mode":
            return int(sums.argmax())
        weights = np.exp(sums - sums.max())
        return int(np.rint(((weights @ FINE) / weights.sum() - FINE[0]) / (FINE[1] - FINE[0])))

    def form(self, given, point):
        """A best form at a point that has the items given."""
        lower = np.zeros(len(self.logs))
        lower[given] = 1
        begun = time.perf_counter()
        found = milp(-self.information[:, point], constraints=self.rules, bounds=Bounds(lower, 1),
                     integrality=np.ones(len(lower)), options={"mip_rel_gap": 1e-9})
        self.seconds += time.perf_counter() - begun
        self.forms += 1
        return [i for i in range(len(lower)) if found.x[i] > 0.5]

    def test(self, responses, rule):
        """The items of one whole test."""
        sums, given = prior_on(self.examination.map["prior"], FINE), []
        for _ in range(self.examination.plan.length):
            point = self.point(sums, rule)
            free = [i for i in self.form(given, point) if i not in given]
            item = max(free, key=lambda i: (self.information[i, point], -i))
            given.append(item)
            sums = sums + self.logs[item][responses[item]]
        return given


def row(name, found, theta, examination, sessions):
    at_truth = [sum(examination.items[i].information(t, examination.scaling)[0] for i in s.items)
                for s, t in zip(sessions, theta)]
    cells = []
    for estimate in ("mode", "map", "eap"):
        errors = getattr(found, estimate) - theta
        cells.append(f"{errors.mean():+.4f} {np.sqrt((errors ** 2).mean()):.4f}")
    print(f"| {name} | {' | '.join(cells)} | {np.mean(at_truth):.3f} |", flush=True)


def main():
    parser = Options(__doc__)
    parser.add_argument("prefix", nargs="?")
    parser.add_argument("--run")
    parser.add_argument("--examinees", type=whole(1, 65_536), default=200)
    given = parser.read(sys.argv[1:], lambda found: bool(found.prefix and found.run))
    examination, run = load(given.prefix), read_run(given.run + ".run.json")
    theta = np.array(run["true"])
    responses = drawn_responses(examination.items, theta, examination.scaling, run["seed"])
    sessions = sessions_of(read_journal(given.run + ".journal"))
    served = sorted(sessions, key=lambda session: session.booking)[:given.examinees]
    theta = theta[:len(served)]
    print("| Items by | Bias and RMSE of the grid mode | of the continuous mode | of the mean (EAP) | Information at the truth |")
    print("|---|---|---|---|---|")
    row("shadowd", estimates(examination, served), theta, examination, served)
    for rule in ("eap", "mode"):
        exact = Exact(examination)
        tests = []
        for session in served:
            items = exact.test(responses[session.booking], rule)
            tests.append(type(session)(booking=session.booking, items=items,
                                       responses=[int(responses[session.booking][i]) for i in items]))
        row(f"HiGHS, estimate by {rule}", estimates(examination, tests), theta, examination, tests)
        print(f"  ({1000 * exact.seconds / exact.forms:.1f} ms a form by HiGHS)", flush=True)


if __name__ == "__main__":
    main()
