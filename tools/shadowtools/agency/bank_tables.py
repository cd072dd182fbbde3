"""A bank as whole numbers: the ability points, the prior, the tables of information and log-likelihood, and what rounding costs."""
import math
from typing import List, Optional, Sequence, Tuple

import numpy as np

from shadowtools.agency.expected import Expected
from shadowtools.agency.irt import FIELD, Item
from shadowtools.command import Refused
from shadowtools.formats.tables import is_number
from shadowtools.formats.written import table_text

MOST_POINTS, MOST_INFORMATION, LEAST_LOG, FARTHEST = 61, 1_000_000, -10_000_000, 100
# Shares of the prior: on the grid, where below the first it is refused and below the second there is a warning; and at ends of the grid
# that inform little, where from the third on there is a warning.
LEAST_SHARE, COMMON_SHARE, ENDS_SHARE = 0.5, 0.99, 0.05


# ---------------------------------------------------------------- grid and prior

def ability_grid(given: Optional[Sequence[str]], items: Sequence[Item], scaling: float, length: int) -> np.ndarray:
    """The ability points: those asked for, or as many on -4 to 4 as the rule for the grid asks."""
    if given:
        if not (is_number(given[0]) and is_number(given[1]) and given[2].isascii() and given[2].isdigit()):
            raise Refused(f"--grid {' '.join(given)}: LOW and HIGH are numbers, N a whole number")
        low, high, points = float(given[0]), float(given[1]), int(given[2][:9])
        if not (-FARTHEST <= low < high <= FARTHEST and 2 <= points <= MOST_POINTS):
            raise Refused(f"--grid: LOW below HIGH, both within {FARTHEST} of 0, and 2 to {MOST_POINTS} points")
        return np.linspace(low, high, points)
    error = least_error(items, np.linspace(-4, 4, 81), scaling, length)
    points = min(MOST_POINTS, max(41, math.ceil(8 / (error / 2)) + 1))
    return np.linspace(-4, 4, points + (points % 2 == 0))


def least_error(items: Sequence[Item], theta: np.ndarray, scaling: float, length: int) -> float:
    """The least standard error that any `length` items have at a point: 1 / sqrt(their information)."""
    information = np.sort(np.stack([item.information(theta, scaling) for item in items]), 0)[::-1]
    return 1 / math.sqrt(max(float(information[:length].sum(0).max()), 1e-9))


def require_prior(words: Sequence[str], theta: np.ndarray) -> List[str]:
    """Refuses a prior that is none, of which less than half lies on the grid, or whose standard deviation is below half a step: an
    estimate could not leave the point of its mean. What is to be said of one of which less than 0.99 lies there, or whose standard
    deviation is below a step."""
    if list(words) == ["flat"]:
        return []
    if len(words) != 2 or not all(map(is_number, words)):
        raise Refused(f"--prior {' '.join(words)}: MEAN SD, or flat")
    mean, deviation = map(float, words)
    if not (abs(mean) <= FARTHEST and 1e-3 <= deviation <= 1e3):
        raise Refused(f"--prior {' '.join(words)}: the mean is within {FARTHEST} of 0, the standard deviation from 0.001 to 1000")
    share, step, said = Expected(mean, deviation).share_on(theta), theta[1] - theta[0], []
    if share < LEAST_SHARE:
        raise Refused(f"--prior {' '.join(words)}: {share:.1%} of it lies on the grid from {theta[0]:g} to {theta[-1]:g}; give --grid")
    if deviation < step / 2:
        raise Refused(f"--prior {' '.join(words)}: the standard deviation is below half a step of the grid, {step:.4g}; give --grid")
    if share < COMMON_SHARE:
        said.append(f"{share:.1%} of the prior lies on the grid from {theta[0]:g} to {theta[-1]:g}: the estimates of the other examinees "
                    "are at most its ends")
    if deviation < step:
        said.append(f"the prior's standard deviation {deviation:g} is below a step of the grid, {step:.4g}")
    return said


def log_prior(words: Sequence[str], theta: np.ndarray, unit: float) -> np.ndarray:
    """The prior at each point in whole units, its greatest value 0."""
    if list(words) == ["flat"]:
        return np.zeros(len(theta), int)
    mean, deviation = map(float, words)
    exponent = -((theta - mean) / deviation) ** 2 / 2
    return np.maximum(np.rint((exponent - exponent.max()) * unit), LEAST_LOG).astype(int)


# ---------------------------------------------------------------- tables

class Tables:
    """The bank as whole numbers, and what rounding them cost."""

    def __init__(self, items: Sequence[Item], quantities: Sequence[Sequence[int]], theta: np.ndarray, scaling: float,
                 information_unit: float, log_unit: float) -> None:
        self.items, self.quantities, self.theta = items, quantities, theta
        self.scaling, self.information_unit, self.log_unit = scaling, information_unit, log_unit
        self.clipped, self.worst = 0, 0.0
        self.faint: List[str] = []

    def information(self, item: Item) -> np.ndarray:
        exact = item.information(self.theta, self.scaling) * self.information_unit
        if not exact.max() < MOST_INFORMATION + 0.5:
            most = self.information_unit * MOST_INFORMATION / exact.max()
            raise Refused(f"item {item.name}: information {exact.max():.0f} is above {MOST_INFORMATION} in this unit; "
                          f"lower --information-unit (at most {most:.6g})")
        whole_numbers = np.rint(exact).astype(int)
        if whole_numbers.max() < 10 and item.model != FIELD:
            self.faint.append(item.name)
        self.worst = max(self.worst, float(np.abs(exact - whole_numbers).max()) / self.information_unit)
        return whole_numbers

    def logs(self, item: Item) -> np.ndarray:
        exact = np.log(np.maximum(item.probabilities(self.theta, self.scaling), 1e-300)) * self.log_unit
        self.clipped += int((exact < LEAST_LOG).sum())
        return np.minimum(np.maximum(np.rint(exact), LEAST_LOG), 0).astype(int)

    def text(self) -> str:
        """The bank as shadowd reads it."""
        points, width = len(self.theta), max(item.categories for item in self.items)
        rows = [["item", "stimulus", "categories"] + [f"q{k}" for k in range(len(self.quantities))]
                + [f"i{g}" for g in range(points)] + [f"l{r}_{g}" for r in range(width) for g in range(points)]]
        for k, item in enumerate(self.items):
            empty = [""] * (points * (width - item.categories))
            rows.append([k, item.passage, item.categories] + [values[k] for values in self.quantities]
                        + self.information(item).tolist() + self.logs(item).ravel().tolist() + empty)
        return table_text(rows)


# ---------------------------------------------------------------- warnings

def item_warnings(items: Sequence[Item], theta: np.ndarray) -> List[str]:
    """What is unusual in single items; each kind in one line with its first items."""
    kinds = {"slopes below 0.2 or above 3": [], "lower asymptotes above 0.5": [], "difficulties outside the grid": []}
    for item in items:
        if item.model == FIELD:
            continue
        slope, place, lower = key_numbers(item)
        if not 0.2 <= slope <= 3:
            kinds["slopes below 0.2 or above 3"].append(item.name)
        if lower > 0.5:
            kinds["lower asymptotes above 0.5"].append(item.name)
        if not theta[0] <= place <= theta[-1]:
            kinds["difficulties outside the grid"].append(item.name)
    return [f"{kind}: {named(names)}" for kind, names in kinds.items() if names]


def key_numbers(item: Item) -> Tuple[float, float, float]:
    """Slope, difficulty (mean of the thresholds) and lower asymptote."""
    if item.categories == 2 and item.model.endswith("PL"):
        return item.asymptotes()[:3]
    slope, steps = item.thresholds()
    return slope, float(np.mean(steps)), 0.0


def named(names: Sequence[str]) -> str:
    return f"{len(names)} items ({', '.join(names[:3])}{', ..' if len(names) > 3 else ''})"


def grid_warnings(prior: Sequence[str], tables: Tables, length: int) -> List[str]:
    """What the grid, the units and the prior cost."""
    found, theta = [], tables.theta
    if len(theta) % 2 == 0:
        found.append("an even number of points has no middle: the first estimate is the lower of the two middle points")
    if list(prior) == ["flat"]:
        found.append("with a flat prior the first estimate is the lowest point of the grid: the first items are easy ones")
    error, step = least_error(tables.items, theta, tables.scaling, length), theta[1] - theta[0]
    if step > error / 2:
        points = math.ceil((theta[-1] - theta[0]) / (error / 2)) + 1
        points += points % 2 == 0
        cure = f"take {points} points" if points <= MOST_POINTS else f"take {MOST_POINTS} points on a narrower grid"
        found.append(f"the step {step:.3f} is above half the least standard error of a test, {error:.3f}: "
                     f"the error of the estimate grows by {rounding_cost(step, error):.1%}; {cure}")
    found += end_warnings(prior, tables)
    if tables.clipped:
        found.append(f"{tables.clipped} log-likelihoods below {LEAST_LOG} were raised to it")
    if tables.faint:
        found.append(f"never above 10 units of information: {named(tables.faint)}")
    return found


def end_warnings(prior: Sequence[str], tables: Tables) -> List[str]:
    """What is to be said of ends of the grid at which the bank informs less than a tenth of its most, where the prior has examinees."""
    total = sum(item.information(tables.theta, tables.scaling) for item in tables.items)
    faint = total < 0.1 * total.max()
    weights = np.exp(log_prior(prior, tables.theta, tables.log_unit) / tables.log_unit)
    ends = np.logical_and.accumulate(faint) | np.logical_and.accumulate(faint[::-1])[::-1]
    share = float(weights[ends].sum() / weights.sum())
    if share < ENDS_SHARE:
        return []
    return [f"the bank informs little at the ends of the grid, where the prior has {share:.1%} of the examinees: {total[0]:.2f} and "
            f"{total[-1]:.2f}, {total.max():.2f} at its best point"]


def rounding_cost(step: float, error: float) -> float:
    """How much greater the root mean square error is by rounding to a grid, whose variance is step^2 / 12."""
    return math.sqrt(1 + step * step / 12 / (error * error)) - 1


def rate_warnings(rate: Optional[Sequence[int]], length: int, items: int, bands: int = 1) -> List[str]:
    """What is to be said of a rate below the mean exposure. With bands it is of visits, and a test visits one band to all."""
    if not rate or rate[0] * items >= length * rate[1]:
        return []
    mean = f"on average an item is shown in {length}/{items} of the sessions"
    if rate[0] * items * bands < length * rate[1]:
        whose = f"visits of a band cannot be met with {bands} bands" if bands > 1 else "sessions cannot be met"
        return [f"the rate {rate[0]}/{rate[1]} of the {whose}: {mean}"]
    return [f"the rate {rate[0]}/{rate[1]} is of the visits of a band, and a session visits several of {bands}: {mean}, which is above it"]
