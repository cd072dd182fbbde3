"""Whether a bank and a prior are those of a map: each of their whole numbers is the exact value by the map's parameters, rounded.

The formulas are those of irt.py, which has their sources. They are written here once more in plain Python: so the tools that score need
no library, and what irt_bank.py wrote is computed a second time, by other code.
"""
import math
from typing import Any, Callable, Dict, List, Optional, Sequence, Tuple

from shadowtools.formats.examination import BankItem

LEAST_LOG, LEAST_CHANCE = -10_000_000, 1e-300
# Half a unit of rounding, and what the arithmetic of another machine may add.
HALF = 0.5 + 1e-6
DICHOTOMOUS, POLYTOMOUS, FIELD = {"1PL": 1, "2PL": 2, "3PL": 3, "4PL": 4}, ("GR", "GPC", "PC"), "FIELD"

# At an ability the probability of each response, and the information.
Values = Tuple[List[float], float]


def tails(z: float) -> Tuple[float, float]:
    """The logistic function and its complement."""
    small = math.exp(-abs(z))
    near, far = 1 / (1 + small), small / (1 + small)
    return (near, far) if z >= 0 else (far, near)


def share(part: float, whole: float) -> float:
    """part / whole, and 1 where both are too small for a number."""
    return part / whole if whole > 0 else 1.0


def of_dichotomous(a: float, b: float, c: float, d: float, scaling: float, theta: float) -> Values:
    right, wrong = tails(scaling * a * (theta - b))
    chances = [(1 - d) + (d - c) * wrong, c + (d - c) * right]
    shares = share((d - c) * right, chances[1]) * share((d - c) * wrong, chances[0])
    return chances, (scaling * a) ** 2 * right * wrong * shares


def of_graded(a: float, thresholds: Sequence[float], scaling: float, theta: float) -> Values:
    bounds = [(1.0, 0.0), *(tails(scaling * a * (theta - b)) for b in thresholds), (0.0, 1.0)]
    slopes = [scaling * a * right * wrong for right, wrong in bounds]
    chances = [low[0] - high[0] if low[0] < 0.5 else high[1] - low[1] for low, high in zip(bounds, bounds[1:])]
    information = sum((one - other) ** 2 / max(chance, LEAST_CHANCE) for one, other, chance in zip(slopes, slopes[1:], chances))
    return chances, information


def of_partial_credit(a: float, steps: Sequence[float], scaling: float, theta: float) -> Values:
    sums = [0.0]
    for step in steps:
        sums.append(sums[-1] + scaling * a * (theta - step))
    powers = [math.exp(one - max(sums)) for one in sums]
    chances = [power / sum(powers) for power in powers]
    mean = sum(score * chance for score, chance in enumerate(chances))
    return chances, (scaling * a) ** 2 * sum((score - mean) ** 2 * chance for score, chance in enumerate(chances))


def values_of(model: str, p: Sequence[float], scaling: float) -> Optional[Callable[[float], Values]]:
    """The item's probabilities and information by ability; none for a model, or a number of parameters, that irt.py doesn't have."""
    if model == FIELD and len(p) == 1:
        return lambda theta: ([1 / p[0]] * int(p[0]), 0.0)
    if model in DICHOTOMOUS and len(p) == DICHOTOMOUS[model]:
        a, b, c, d = (1.0, *p, 0.0, 1.0) if model == "1PL" else (*p, *(0.0, 1.0)[len(p) - 2:])
        return lambda theta: of_dichotomous(a, b, c, d, scaling, theta)
    if model == "GR" and len(p) > 1:
        return lambda theta: of_graded(p[0], p[1:], scaling, theta)
    if model == "GPC" and len(p) > 1 or model == "PC" and p:
        a, steps = (1.0, p) if model == "PC" else (p[0], p[1:])
        return lambda theta: of_partial_credit(a, steps, scaling, theta)
    return None


def has_models(scale_map: Dict[str, Any]) -> bool:
    """Whether the map has the model of each of its items."""
    return all(values_of(one["model"], one["parameters"], 1.0) for one in scale_map["items"])


def is_rounded(cell: int, exact: float) -> bool:
    return abs(cell - exact) <= HALF


def log_of(chance: float, unit: float) -> float:
    return min(0.0, max(LEAST_LOG, math.log(max(chance, LEAST_CHANCE)) * unit))


def fault_of_item(scale_map: Dict[str, Any], one: Dict[str, Any], item: BankItem) -> Optional[str]:
    """The first number of an item of the bank that is not that of the map."""
    quantities = [one["attributes"].get(name) for name in scale_map["quantities"]]
    if item.passage != one["passage"] or item.quantities != [int(float(text)) for text in quantities]:
        return "its passage, or a quantity"
    values, points = values_of(one["model"], one["parameters"], scale_map["D"]), zip(*item.logs)
    for theta, cell, logs in zip(scale_map["theta"], item.information, points):
        chances, information = values(theta)
        if not is_rounded(cell, information * scale_map["information_unit"]):
            return f"its information at {theta:g} is {cell}, by the map {information * scale_map['information_unit']:.1f}"
        wanted = [log_of(chance, scale_map["log_unit"]) for chance in chances]
        if len(wanted) != len(logs) or not all(map(is_rounded, logs, wanted)):
            return f"its log-likelihoods at {theta:g} are {', '.join(map(str, logs))}, by the map {', '.join(f'{one:.1f}' for one in wanted)}"
    return None


def fault_of_bank(scale_map: Dict[str, Any], bank: Sequence[BankItem]) -> Optional[str]:
    """The first item of a bank that is not that of the map, with what differs; none where all are."""
    for one, item in zip(scale_map["items"], bank):
        try:
            found = fault_of_item(scale_map, one, item)
        except (ArithmeticError, ValueError, TypeError, KeyError):
            found = "the map has no numbers of its model"
        if found:
            return f"item {one['id']}: {found}"
    return None


def fault_of_prior(scale_map: Dict[str, Any], prior: Sequence[int]) -> Optional[str]:
    """The first value of a plan's prior that is not that of the map's words; none where all are."""
    words, theta, unit = scale_map["prior"], scale_map["theta"], scale_map["log_unit"]
    exponents = [0.0] * len(theta)
    if words != ["flat"]:
        try:
            mean, deviation = map(float, words)
            exponents = [-((one - mean) / deviation) ** 2 / 2 for one in theta]
        except (ArithmeticError, ValueError):
            return f"the map's prior {' '.join(words)} is none"
    top = max(exponents)
    for one, value, exponent in zip(theta, prior, exponents):
        wanted = max(LEAST_LOG, (exponent - top) * unit)
        if not is_rounded(value, wanted):
            return f"the prior at {one:g} is {value}, by the map ({' '.join(words)}) {wanted:.1f}"
    return None
