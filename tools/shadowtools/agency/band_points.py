"""Advice on the points at which bands of abilities begin, for the line `bands` of a plan.

Bands have equal shares of the expected examinees, by the prior on the grid. None between two points is narrower than the standard
error of the estimate half way through the test: there an estimate can't tell such a band from the next one, and sessions visit both by
chance. Where one would be narrower there are fewer bands.
"""
import math
from typing import List, NamedTuple, Sequence

import numpy as np

from shadowtools.agency.irt import Item

FEWEST_BANDS, MOST_BANDS, SHOWS = 2, 8, 10


class Advice(NamedTuple):
    """The points that begin new bands, the share of the expected examinees in each band, and what is to be said of them."""
    points: List[int]
    shares: List[float]
    warnings: List[str]


def equal_shares(weights: np.ndarray, number: int) -> List[int]:
    """The points at which `number` bands of equal weight begin, as near as the grid has them, in a tie the lower one; fewer where
    two of them meet."""
    below = np.cumsum(weights)[:-1] / weights.sum()
    found = [1 + int(np.abs(below - k / number).round(9).argmin()) for k in range(1, number)]
    return sorted(set(found))


def half_way_error(items: Sequence[Item], scaling: float, length: int, prior: Sequence[str], ability: float) -> float:
    """The least standard error that the estimate can have after half of the test: 1 / sqrt(the information of the best items at
    the ability, with that of the prior)."""
    each = sorted((float(item.information(ability, scaling)[0]) for item in items), reverse=True)
    of_prior = 0.0 if list(prior) == ["flat"] else float(prior[1]) ** -2
    return 1 / math.sqrt(max(sum(each[:max(1, length // 2)]) + of_prior, 1e-9))


def narrow(items: Sequence[Item], theta: np.ndarray, scaling: float, length: int, prior: Sequence[str], points: Sequence[int]) -> str:
    """Which band between two points is narrower than the standard error half way, in words; an empty text where none is."""
    for low, high in zip(points, points[1:]):
        middle = (theta[low] + theta[high - 1]) / 2
        error = half_way_error(items, scaling, length, prior, middle)
        if theta[high] - theta[low] < error - 1e-9:
            return (f"the band from {theta[low]:g} would be {theta[high] - theta[low]:.2f} wide, and the standard error half way through "
                    f"the test is {error:.2f} there")
    return ""


def advice(asked: int, items: Sequence[Item], theta: np.ndarray, scaling: float, length: int, prior: Sequence[str],
           weights: np.ndarray) -> Advice:
    """The points of as many bands as are asked for, or of fewer."""
    first = ""
    for number in range(asked, FEWEST_BANDS - 1, -1):
        points = equal_shares(weights, number)
        why = narrow(items, theta, scaling, length, prior, points) or ("" if len(points) == number - 1 else "the grid has too few points")
        if not why:
            break
        first = first or why
    warnings = [f"{asked} bands are too many: {first}; the plan has {len(points) + 1}"] if first else []
    parts = np.split(weights / weights.sum(), points)
    return Advice(points, [float(part.sum()) for part in parts], warnings)


def sessions_needed(rate: Sequence[int], share: float) -> int:
    """After how many sessions an item at the rate was shown ten times in a band that has a share of the examinees. By then the rate
    that is counted has a standard error of at most a third of itself."""
    return math.ceil(SHOWS * rate[1] / rate[0] / share)


def sentences(found: Advice, theta: np.ndarray, rate: Sequence[int]) -> List[str]:
    """What is printed of the bands: their range, their share, and when their counts begin to mean something."""
    ends, said = [0, *found.points, len(theta)], []
    for band, share in enumerate(found.shares):
        said.append(f"band {band}: {theta[ends[band]]:g} to {theta[ends[band + 1] - 1]:g}, {share:.1%} of the expected examinees; "
                    f"an item at the rate of its visits is shown {SHOWS} times in about {sessions_needed(rate, share):,} sessions")
    return said
