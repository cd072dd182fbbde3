"""Maximum likelihood and weighted likelihood estimates of ability, from the exact item parameters.

    MLE   the ability at which the likelihood of the answers is greatest (Birnbaum, in Lord and Novick 1968)
    WLE   the root of l'(theta) + J(theta) / (2 I(theta)), with J the sum over items and responses of P' P'' / P
          (Warm, Weighted Likelihood Estimation of Ability in Item Response Theory, Psychometrika 54, 1989; for several
          categories Samejima, Psychometrika 58, 1993)

Both have the standard error 1 / sqrt(I), with I the Fisher information of the items at the estimate. Both are kept within a range:
with all answers right, or all wrong, the likelihood has no greatest value.
"""
from typing import NamedTuple, Sequence

import numpy as np

from shadowtools.agency.irt import Item

STEPS, HALVINGS = 800, 60


class Estimate(NamedTuple):
    """An ability, its standard error, and at which end of the range it was stopped: `lowest`, `highest` or an empty text."""
    theta: float
    error: float
    end: str


class Answers:
    """The items of a session with their answers, and the range of its estimate."""

    def __init__(self, items: Sequence[Item], responses: Sequence[int], scaling: float, low: float, high: float) -> None:
        self.items, self.responses, self.scaling = items, responses, scaling
        self.theta = np.linspace(low, high, STEPS + 1)

    def scores(self, theta: np.ndarray, is_weighted: bool) -> np.ndarray:
        """The derivative of the log-likelihood; weighted, with Warm's term."""
        slope, information, warm = (np.zeros(len(theta)) for _ in range(3))
        for item, response in zip(self.items, self.responses):
            chances, first, second = item.derivatives(theta, self.scaling)
            chances = np.maximum(chances, 1e-300)
            slope += first[response] / chances[response]
            information += (first ** 2 / chances).sum(0)
            warm += (first * second / chances).sum(0)
        return slope + warm / (2 * np.maximum(information, 1e-12)) if is_weighted else slope

    def error(self, theta: float) -> float:
        information = sum(float(item.information(theta, self.scaling)[0]) for item in self.items)
        return 1 / float(np.sqrt(max(information, 1e-12)))

    def estimate(self, is_weighted: bool) -> Estimate:
        """The point of the range where the (weighted) likelihood is greatest."""
        scores = self.scores(self.theta, is_weighted)
        step = self.theta[1] - self.theta[0]
        heights = np.concatenate([[0.0], np.cumsum((scores[1:] + scores[:-1]) / 2 * step)])
        best = int(heights.argmax())
        low, high = self.theta[max(0, best - 1)], self.theta[min(STEPS, best + 1)]
        if best == 0 and scores[0] <= 0 or best == STEPS and scores[-1] >= 0:
            theta, end = float(self.theta[best]), "highest" if best else "lowest"
        else:
            theta, end = self.root(low, high, is_weighted), ""
        return Estimate(theta, self.error(theta), end)

    def root(self, low: float, high: float, is_weighted: bool) -> float:
        """Where the derivative falls through 0 between two abilities, by halving."""
        for _ in range(HALVINGS):
            middle = (low + high) / 2
            if self.scores(np.array([middle]), is_weighted)[0] > 0:
                low = middle
            else:
                high = middle
        return float((low + high) / 2)
