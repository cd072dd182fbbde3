"""The formulas of the report, each on plain arrays, with its public source.

`shown` is an array [session, item] of truth values; `length` is the number of items of a test; abilities, cut scores
and standard errors are in logits.
"""
from typing import Sequence, Tuple

import numpy as np
from scipy.special import ndtr

MOST_PAIRED = 2000


# ---------------------------------------------------------------- precision

def standard_error(information: np.ndarray) -> np.ndarray:
    """1 / sqrt(information), without limit where there is no information (Lord 1980, Applications of Item Response Theory)."""
    with np.errstate(divide="ignore"):
        return 1 / np.sqrt(np.asarray(information, float))


def local_weights(at: np.ndarray, places: np.ndarray) -> np.ndarray:
    """The weights [place of `at`, place] of a local mean, which add up to 1: a kernel regression (Nadaraya 1964, Watson 1964)
    with a normal kernel and the bandwidth of Silverman 1986, 0.9 min(SD, IQR / 1.34) n^(-1/5). Places that are all equal have
    equal weights."""
    spread = min(np.std(places), np.subtract(*np.percentile(places, [75, 25])) / 1.34)
    width = 0.9 * spread * len(places) ** -0.2
    if width <= 0:
        return np.full((len(at), len(places)), 1 / len(places))
    exponents = -(((at[:, None] - places[None]) / width) ** 2) / 2
    weights = np.exp(exponents - exponents.max(1, keepdims=True))
    return weights / weights.sum(1, keepdims=True)


def marginal_reliability(ability: np.ndarray, error_variance: np.ndarray, is_shrunken: bool = True) -> float:
    """With V the variance of ability and E the mean error variance over the examinees (Green, Bock, Humphreys, Linn and Reckase
    1984, Journal of Educational Measurement 21, 347-360): (V - E) / V of an estimate that is drawn to the prior's mean, whose E is the
    posterior variance, and V / (V + E) of another, whose variance is V + E. NaN where V is 0."""
    variance, error = np.var(ability), np.mean(error_variance)
    if variance <= 0:
        return float("nan")
    return float(1 - error / variance if is_shrunken else variance / (variance + error))


# ---------------------------------------------------------------- classification

def levels(values: np.ndarray, cuts: Sequence[float]) -> np.ndarray:
    """The level of each value: the number of cut scores at or below it."""
    return np.searchsorted(np.asarray(cuts, float), values, side="right")


def level_chances(ability: np.ndarray, error: np.ndarray, cuts: Sequence[float]) -> np.ndarray:
    """By examinee and level the probability that an estimate falls into the level, where estimates are normal about the
    ability with the standard error (Rudner 2001, Practical Assessment, Research and Evaluation 7(14), and 2005, 10(13))."""
    edges = np.concatenate([[-np.inf], np.asarray(cuts, float), [np.inf]])
    return np.diff(ndtr((edges[None] - ability[:, None]) / error[:, None]), axis=1)


def accuracy(chances: np.ndarray, level: np.ndarray) -> float:
    """The mean probability that an examinee's estimate is in the level of the true ability (Rudner 2005)."""
    return float(chances[np.arange(len(chances)), level].mean())


def consistency(chances: np.ndarray) -> Tuple[float, float]:
    """The mean probability that two tests of an examinee give the same level, and Cohen's kappa, which takes off the
    agreement by chance (Lee 2010, Journal of Educational Measurement 47, 1-17)."""
    agreement = float((chances ** 2).sum(1).mean())
    by_chance = float((chances.mean(0) ** 2).sum())
    return agreement, (agreement - by_chance) / (1 - by_chance) if by_chance < 1 else float("nan")


# ---------------------------------------------------------------- exposure and overlap

def mean_overlap(shown: np.ndarray, length: int) -> float:
    """The mean share of common items over all pairs of tests: with n sessions, m(i) of which were shown item i, the sum
    of m(i) (m(i) - 1) over n (n - 1) L (Chen, Ankenmann and Spray 2003, Journal of Educational Measurement 40, 129-145).
    NaN with fewer than two sessions."""
    count, times = len(shown), shown.sum(0).astype(float)
    return float((times * (times - 1)).sum() / (count * (count - 1) * length)) if count > 1 else float("nan")


def common_items(shown: np.ndarray) -> np.ndarray:
    """The number of common items of each pair of tests; of more than 2,000 tests, 2,000 at equal distances are taken."""
    if len(shown) > MOST_PAIRED:
        shown = shown[np.linspace(0, len(shown) - 1, MOST_PAIRED).astype(int)]
    table = shown.astype(np.float32) @ shown.T.astype(np.float32)
    return np.rint(table[np.triu_indices(len(shown), 1)]).astype(int)
