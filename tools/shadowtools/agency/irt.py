"""Item response models: the probability of each response, and Fisher information.

All parameters are in the metric P = c + (d - c) / (1 + exp(-D a (theta - b))), with D the scaling constant of
the calibration. The models, their parameters in the order that `Item.parameters` has them, and their sources:

    1PL b; 2PL a b; 3PL a b c     Birnbaum, in Lord and Novick, Statistical Theories of Mental Test Scores, 1968
    4PL a b c d                   Barton and Lord, An Upper Asymptote for the Three-Parameter Logistic Model, 1981
    GR  a b1 b2 ..                Samejima, Psychometrika Monograph 17, 1969; thresholds ascend
    PC  b1 b2 ..                  Masters, Psychometrika 47, 1982
    GPC a b1 b2 ..                Muraki, Applied Psychological Measurement 16, 1992; steps in any order
    FIELD m                       an item in field test with m categories: each answer equally likely at each ability, so it
                                  informs nothing and changes no estimate
"""
from dataclasses import dataclass, field
from typing import Dict, List, Optional, Tuple

import numpy as np

DICHOTOMOUS = {"1PL": 1, "2PL": 2, "3PL": 3, "4PL": 4}
POLYTOMOUS = ("GR", "GPC", "PC")
FIELD = "FIELD"
SYNONYMS = {
    "RASCH": "1PL", "1PLM": "1PL", "2PLM": "2PL", "3PLM": "3PL", "4PLM": "4PL",
    "GRM": "GR", "GRADED": "GR", "GPCM": "GPC", "PCM": "PC",
}


@dataclass
class Item:
    """An item of a calibrated bank. `passage` is the number of its passage, 0 for none; `line` its line in the table of attributes."""
    name: str
    model: str
    parameters: List[float]
    attributes: Dict[str, str] = field(default_factory=dict)
    passage: int = 0
    line: int = 0

    @property
    def categories(self) -> int:
        if self.model in DICHOTOMOUS:
            return 2
        if self.model == FIELD:
            return int(self.parameters[0])
        return len(self.parameters) + (self.model == "PC")

    def asymptotes(self) -> Tuple[float, float, float, float]:
        """Slope, difficulty, lower and upper asymptote of a dichotomous item."""
        p = self.parameters
        if self.model == "1PL":
            return 1.0, p[0], 0.0, 1.0
        return p[0], p[1], p[2] if len(p) > 2 else 0.0, p[3] if len(p) > 3 else 1.0

    def thresholds(self) -> Tuple[float, np.ndarray]:
        """Slope and thresholds (GR) or steps (GPC, PC) of a polytomous item."""
        if self.model == "PC":
            return 1.0, np.array(self.parameters)
        return self.parameters[0], np.array(self.parameters[1:])

    def probabilities(self, theta, scaling: float = 1.0) -> np.ndarray:
        """The probability of each response, as an array [response, ability]."""
        theta = np.atleast_1d(np.asarray(theta, float))
        if self.model == FIELD:
            return np.full((self.categories, len(theta)), 1 / self.categories)
        if self.model in DICHOTOMOUS:
            a, b, c, d = self.asymptotes()
            right, wrong = both_tails(scaling * a * (theta - b))
            return np.stack([(1 - d) + (d - c) * wrong, c + (d - c) * right])
        a, steps = self.thresholds()
        z = scaling * a * (theta[None] - steps[:, None])
        if self.model == "GR":
            return boundary_differences(z)
        sums = np.concatenate([np.zeros((1, len(theta))), np.cumsum(z, 0)])
        powers = np.exp(sums - sums.max(0))
        return powers / powers.sum(0)

    def information(self, theta, scaling: float = 1.0) -> np.ndarray:
        """Fisher information at each ability."""
        theta = np.atleast_1d(np.asarray(theta, float))
        if self.model == FIELD:
            return np.zeros(len(theta))
        chances = self.probabilities(theta, scaling)
        if self.model in DICHOTOMOUS:
            a, b, c, d = self.asymptotes()
            right, wrong = both_tails(scaling * a * (theta - b))
            return (scaling * a) ** 2 * right * wrong * share((d - c) * right, chances[1]) * share((d - c) * wrong, chances[0])
        a, steps = self.thresholds()
        if self.model == "GR":
            right, wrong = both_tails(scaling * a * (theta[None] - steps[:, None]))
            none = np.zeros((1, len(theta)))
            slopes = np.concatenate([none, scaling * a * right * wrong, none])
            return ((slopes[:-1] - slopes[1:]) ** 2 / np.maximum(chances, 1e-300)).sum(0)
        score = np.arange(len(chances))[:, None]
        mean = (score * chances).sum(0)
        return (scaling * a) ** 2 * ((score - mean) ** 2 * chances).sum(0)


    def derivatives(self, theta, scaling: float = 1.0) -> Tuple[np.ndarray, np.ndarray, np.ndarray]:
        """The probability of each response, and its first and second derivative by ability."""
        theta = np.atleast_1d(np.asarray(theta, float))
        chances = self.probabilities(theta, scaling)
        if self.model == FIELD:
            return chances, np.zeros_like(chances), np.zeros_like(chances)
        if self.model in DICHOTOMOUS:
            a, b, c, d = self.asymptotes()
            right, wrong = both_tails(scaling * a * (theta - b))
            first, second = logistic_derivatives(right, wrong, scaling * a)
            return chances, (d - c) * np.stack([-first, first]), (d - c) * np.stack([-second, second])
        a, steps = self.thresholds()
        if self.model == "GR":
            right, wrong = both_tails(scaling * a * (theta[None] - steps[:, None]))
            none = np.zeros((1, len(theta)))
            bounds = [np.concatenate([none, one, none]) for one in logistic_derivatives(right, wrong, scaling * a)]
            return chances, bounds[0][:-1] - bounds[0][1:], bounds[1][:-1] - bounds[1][1:]
        away = np.arange(len(chances))[:, None] - (np.arange(len(chances))[:, None] * chances).sum(0)
        variance = (away ** 2 * chances).sum(0)
        return chances, scaling * a * chances * away, (scaling * a) ** 2 * chances * (away ** 2 - variance)


def logistic_derivatives(right: np.ndarray, wrong: np.ndarray, slope: float) -> Tuple[np.ndarray, np.ndarray]:
    """First and second derivative of the logistic function with this slope, from it and its complement."""
    return slope * right * wrong, slope ** 2 * right * wrong * (wrong - right)


def both_tails(z: np.ndarray) -> Tuple[np.ndarray, np.ndarray]:
    """The logistic function and its complement, each without cancellation far out."""
    small = np.exp(-np.abs(z))
    near, far = 1 / (1 + small), small / (1 + small)
    return np.where(z >= 0, near, far), np.where(z >= 0, far, near)


def share(part: np.ndarray, whole: np.ndarray) -> np.ndarray:
    """part / whole, and 1 where both are too small for a number."""
    return np.divide(part, whole, out=np.ones_like(part), where=whole > 0)


def boundary_differences(z: np.ndarray) -> np.ndarray:
    """The probabilities of the graded response model from its boundary logits, without cancellation far out."""
    right, wrong = both_tails(z)
    one, none = np.ones((1, z.shape[1])), np.zeros((1, z.shape[1]))
    above = np.concatenate([one, right, none])
    below = np.concatenate([none, wrong, one])
    return np.where(above[:-1] < 0.5, above[:-1] - above[1:], below[1:] - below[:-1])


def fault(item: Item) -> Optional[str]:
    """The first reason why the numbers are no item of the model, or None."""
    p, model = item.parameters, item.model
    if not all(np.isfinite(v) for v in p):
        return "a parameter is not finite"
    if model == FIELD:
        return None if len(p) == 1 and p[0] in range(2, 1000) else "FIELD takes its number of categories, 2 or more"
    if model in DICHOTOMOUS and len(p) != DICHOTOMOUS[model]:
        return f"{model} takes {DICHOTOMOUS[model]} parameters, has {len(p)}"
    if model in ("GR", "GPC") and len(p) < 2:
        return f"{model} takes a slope and at least one threshold"
    if model == "PC" and not p:
        return "PC takes at least one step"
    slope, places = (1.0, p) if model in ("1PL", "PC") else (p[0], p[1:2] if model in DICHOTOMOUS else p[1:])
    if slope > 100 or any(abs(place) > 100 for place in places):
        return f"a slope of {slope:g}, or a difficulty of {max(places, key=abs):g}: neither is above 100"
    if model not in ("1PL", "PC") and p[0] <= 0:
        return f"slope {p[0]:g} is not above 0 (is the scoring of the item reversed?)"
    if model in ("3PL", "4PL") and not 0 <= p[2] < 1:
        return f"lower asymptote {p[2]:g} is not from 0 to below 1"
    if model == "4PL" and not p[2] < p[3] <= 1:
        return f"upper asymptote {p[3]:g} is not above the lower one and at most 1"
    if model == "GR" and any(x >= y for x, y in zip(p[1:], p[2:])):
        return "thresholds of GR do not ascend"
    return None
