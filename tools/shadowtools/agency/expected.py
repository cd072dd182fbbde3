"""The examinees that a plan expects, by its prior: where abilities are tried, drawn, and shown, in whatever metric bank and grid are."""
import math
from typing import NamedTuple, Sequence, Tuple

WIDEST = 6.0            # standard deviations
WIDEST_IN_LOGITS = 20.0
FLAT_DEVIATIONS = 8     # a flat prior's grid is so many standard deviations wide, as -4 to 4 is for N(0, 1)


class Expected(NamedTuple):
    """Mean and standard deviation of ability. Of a flat prior they are the middle of the grid and an eighth of its width."""
    mean: float
    deviation: float

    def at(self, deviations: float) -> float:
        """The ability so many standard deviations from the mean."""
        return round(self.mean + deviations * self.deviation, 9)

    def widest(self, theta: Sequence[float]) -> Tuple[float, float]:
        """The abilities between which simulations are: six standard deviations to each side, and the grid."""
        return min(theta[0], self.at(-WIDEST)), max(theta[-1], self.at(WIDEST))

    def share_on(self, theta: Sequence[float]) -> float:
        """The share of a normal distribution that lies between the ends of a grid."""
        return normal(self.mean, self.deviation, theta[-1]) - normal(self.mean, self.deviation, theta[0])


def normal(mean: float, deviation: float, ability: float) -> float:
    return math.erfc((mean - ability) / (deviation * math.sqrt(2))) / 2


def expected_by(prior: Sequence[str], theta: Sequence[float]) -> Expected:
    """The examinees of a prior: `["flat"]`, or mean and standard deviation as texts."""
    if list(prior) == ["flat"]:
        return Expected((theta[0] + theta[-1]) / 2, (theta[-1] - theta[0]) / FLAT_DEVIATIONS)
    return Expected(*map(float, prior))


def unit_of(theta: Sequence[float]) -> str:
    """The unit of abilities in words. No grid in logits is as wide as one of T-scores."""
    return "logits" if theta[-1] - theta[0] <= WIDEST_IN_LOGITS else "ability units"
