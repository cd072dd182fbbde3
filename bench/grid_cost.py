#!/usr/bin/env python3
"""What whole numbers on a grid cost: tests by greatest information, with no rule but the length, in plain Python.

usage: grid_cost.py PREFIX [EXAMINEES]      PREFIX.* are irt_bank.py's files; default 4,000 examinees, N(0, 1)

Each row takes the same examinees with the same answers through tests of the plan's length. `mode, N points` is
shadowd's arithmetic: rounded tables, and the lowest point in a tie. `fine` has 1,201 points from -6 to 6 and no rounding.
Printed are the root mean square error of the estimate, the information of the items at the true ability, and the
error where the same answers are scored again by the mean (EAP) on 1,201 points. Needs python3-numpy.
"""
import os
import sys

if sys.argv[1:] in (["-h"], ["--help"]):
    print(__doc__.strip())
    sys.exit()
sys.path.insert(0, os.path.join(os.path.dirname(os.path.dirname(os.path.abspath(__file__))), "tools"))
try:
    import numpy as np
except ImportError:
    sys.exit("grid_cost.py needs numpy: apt-get install python3-numpy, and run it by /usr/bin/python3")

from simulation import FINE, abilities, drawn_responses, load, prior_on  # noqa: E402


class Tables:
    """Information, log-likelihoods and prior of a bank on some points, rounded in these units or exact."""

    def __init__(self, examination, theta, information_unit=None, log_unit=None):
        items, scaling = examination.items, examination.scaling
        self.theta, self.unit = theta, log_unit or 1.0
        self.information = np.stack([item.information(theta, scaling) for item in items])
        self.logs = np.full((len(items), max(item.categories for item in items), len(theta)), -1e9)
        for k, item in enumerate(items):
            self.logs[k, :item.categories] = np.log(np.maximum(item.probabilities(theta, scaling), 1e-300))
        self.prior = prior_on(examination.map["prior"], theta)
        self.prior = self.prior - self.prior.max()
        if information_unit:
            self.information = np.rint(self.information * information_unit)
        if log_unit:
            self.logs, self.prior = np.rint(self.logs * log_unit), np.rint(self.prior * log_unit)

    def mean(self, sums):
        weights = np.exp((sums - sums.max(1, keepdims=True)) / self.unit)
        return (weights @ self.theta) / weights.sum(1)

    def tests(self, responses, length, by_mean):
        """The items in order, and the final estimates, of all examinees."""
        who = np.arange(len(responses))
        sums, used, order = np.tile(self.prior, (len(who), 1)), np.zeros(responses.shape, bool), []
        for _ in range(length):
            point = self.nearest(self.mean(sums)) if by_mean else sums.argmax(1)
            item = np.where(used, -1.0, self.information.T[point]).argmax(1)
            used[who, item] = True
            order.append(item)
            sums += self.logs[item, responses[who, item]]
        return np.stack(order, 1), self.mean(sums) if by_mean else self.theta[sums.argmax(1)]

    def nearest(self, means):
        step = self.theta[1] - self.theta[0]
        return np.clip(np.rint((means - self.theta[0]) / step).astype(int), 0, len(self.theta) - 1)


def variants(examination):
    """The rows: a name, the tables, and whether the estimate is the mean."""
    yield "fine, mean (EAP)", Tables(examination, FINE), True
    yield "fine, mode", Tables(examination, FINE), False
    for low, high, points in ((-4, 4, 61), (-3, 3, 61), (-4, 4, 41), (-4, 4, 21), (-4, 4, 17), (-4, 4, 9)):
        theta = np.linspace(low, high, points)
        yield f"mode, {points} points on {low} to {high}", Tables(examination, theta, 1000, 1000), False
    theta = np.linspace(-4, 4, 41)
    for information, log in ((10, 1000), (100, 1000), (100000, 1000), (1000, 10), (1000, 100)):
        name = f"mode, 41 points, {information} a unit of information, {log} a logarithm"
        yield name, Tables(examination, theta, information, log), False


def main():
    if len(sys.argv) not in (2, 3):
        print(__doc__)
        return 2
    examination, number = load(sys.argv[1]), int(sys.argv[2]) if len(sys.argv) == 3 else 4000
    true = abilities(["normal", "0", "1"], number, 20)
    responses = drawn_responses(examination.items, true, examination.scaling, 20)
    at_truth = np.stack([item.information(true, examination.scaling) for item in examination.items], 1)
    exact, who = Tables(examination, FINE), np.arange(number)
    print("| Tests by | RMSE | Bias | Information | RMSE, scored again by EAP |")
    print("|---|---|---|---|---|")
    for name, tables, by_mean in variants(examination):
        order, found = tables.tests(responses, examination.plan.length, by_mean)
        again = []
        for k in range(0, number, 500):
            part = slice(k, k + 500)
            sums = exact.prior + sum(exact.logs[order[part, j], responses[who[part], order[part, j]]] for j in range(order.shape[1]))
            again.append(exact.mean(sums))
        errors, scored = found - true, np.concatenate(again) - true
        informed = np.take_along_axis(at_truth, order, 1).sum(1).mean()
        print(f"| {name} | {np.sqrt((errors ** 2).mean()):.4f} | {errors.mean():+.4f} | {informed:.3f} | "
              f"{np.sqrt((scored ** 2).mean()):.4f} |", flush=True)
    return 0


if __name__ == "__main__":
    if sys.argv[1:] == ["--help"]:
        sys.exit(print(__doc__))
    sys.exit(main())
