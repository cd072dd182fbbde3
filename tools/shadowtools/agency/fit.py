"""The population of a window of real examinees, and how its items and its examinees agree with the item parameters.

No number here needs a true ability. Abilities of the examinees are taken as normal; mean and standard deviation are those of the
greatest marginal likelihood (Bock and Aitkin 1981, Psychometrika 46). What was shown depends on answers that are known, so the
likelihood of an adaptive test is that of its answers (Rubin 1976, Biometrika 63).

    fit of an item        the mean of its answers beside the mean that is expected of the same examinees, each by the posterior of the
                          other answers; z is the difference in standard errors. z along ability is the same of the differences
                          weighted by the estimate from the other answers, less its mean: below 0 where able examinees do worse than
                          expected and others better. An item that drifted, has a wrong key or was leaked is far from 0 in one of them
    fit of an examinee    lz: the log-likelihood of the answers at the estimate, less its expectation there, over its standard
                          deviation (Drasgow, Levine and Williams 1985). It is not normal in adaptive tests, so its limits are of
                          answers to the same items that are simulated (van Krimpen-Stoop and Meijer 1999)
"""
from typing import List, NamedTuple, Sequence, Tuple

import numpy as np

from shadowtools.agency.irt import FIELD, Item
from shadowtools.formats.examination import Session

POINTS, ROUNDS, CLOSE = 161, 1000, 1e-6
SIMULATED = 50_000      # tests, at least, of which the limits of lz are


class Population(NamedTuple):
    """Mean and standard deviation of a normal distribution of ability, in logits."""
    mean: float
    deviation: float

    def weights(self, theta: np.ndarray) -> np.ndarray:
        """The probability of each of these abilities."""
        exponents = -((theta - self.mean) / self.deviation) ** 2 / 2
        weights = np.exp(exponents - exponents.max())
        return weights / weights.sum()


class ItemFit(NamedTuple):
    """An item by its number: its answers, their mean, the mean that is expected, z, and z along ability (NaN where each answer is
    sure, or where all examinees are alike)."""
    item: int
    answers: int
    mean: float
    expected: float
    z: float
    along: float

    @property
    def farthest(self) -> float:
        """The z that is farther from 0."""
        return max(self.z, self.along, key=abs)


class Answers:
    """The answers of a window. `given` has by session pairs of the item's number and the response; items in field test are left out.
    `theta` are abilities from the grid's ends and a quarter of its range beyond; `logs` has by item, response and ability the
    log-probability, and `likelihood` by session and ability that of all its answers, its greatest 1."""

    def __init__(self, items: Sequence[Item], scaling: float, grid: Sequence[float], sessions: Sequence[Session]) -> None:
        quarter = (grid[-1] - grid[0]) / 4
        self.theta = np.linspace(grid[0] - quarter, grid[-1] + quarter, POINTS)
        self.logs = [np.log(np.maximum(item.probabilities(self.theta, scaling), 1e-300)) for item in items]
        self.given = [[(item, response) for item, response in zip(one.items, one.responses) if items[item].model != FIELD]
                      for one in sessions]
        table = np.array([(row, item, response) for row, given in enumerate(self.given) for item, response in given], int).reshape(-1, 3)
        self.by_item = [table[table[:, 1] == item][:, [0, 2]].T for item in range(len(items))]
        total = np.zeros((len(sessions), POINTS))
        for log, (rows, responses) in zip(self.logs, self.by_item):
            total[rows] += log[responses]   # a session answers an item at most once
        self.likelihood = np.exp(total - total.max(1, keepdims=True))

    def posterior(self, population: Population) -> np.ndarray:
        """By session the probability of each ability."""
        joint = self.likelihood * population.weights(self.theta)
        return joint / joint.sum(1, keepdims=True)


def population_of(answers: Answers, start: Population = Population(0.0, 1.0)) -> Population:
    """The population of the greatest marginal likelihood, by the EM algorithm. The deviation is at least a step of the abilities."""
    found, least = start, answers.theta[1] - answers.theta[0]
    for _ in range(ROUNDS):
        posterior = answers.posterior(found)
        mean = float((posterior @ answers.theta).mean())
        variance = float((posterior @ (answers.theta - mean) ** 2).mean())
        before, found = found, Population(mean, max(least, variance ** 0.5))
        if max(abs(found.mean - before.mean), abs(found.deviation - before.deviation)) < CLOSE:
            break
    return found


# ---------------------------------------------------------------- items

def fit_of_items(answers: Answers, population: Population) -> List[ItemFit]:
    """The fit of each item that was answered, by number."""
    posterior = answers.posterior(population)
    given = [(item, *pair) for item, pair in enumerate(answers.by_item)]
    return [fit_of_item(answers, posterior, item, rows, responses) for item, rows, responses in given if len(rows)]


def fit_of_item(answers: Answers, posterior: np.ndarray, item: int, rows: np.ndarray, responses: np.ndarray) -> ItemFit:
    """The fit of one item to these sessions. The posterior without it is that with it, divided by the likelihood of its answer."""
    chances = np.exp(answers.logs[item])
    without = posterior[rows] / chances[responses]
    without /= without.sum(1, keepdims=True)
    categories = np.arange(len(chances))
    expected = without @ (categories @ chances)
    variance = without @ (categories ** 2 @ chances) - expected ** 2
    away = without @ answers.theta
    return ItemFit(item, len(rows), float(responses.mean()), float(expected.mean()), standardised(responses - expected, variance),
                   standardised((responses - expected) * (away - away.mean()), variance * (away - away.mean()) ** 2))


def standardised(residuals: np.ndarray, variances: np.ndarray) -> float:
    """The sum of residuals in standard deviations, or NaN where there are none."""
    variance = float(variances.sum())
    return float(residuals.sum()) / variance ** 0.5 if variance > 1e-12 else float("nan")


# ---------------------------------------------------------------- examinees

class PersonFit(NamedTuple):
    """lz by session, the limit below which one in a hundred of the simulated tests is, and how many were simulated."""
    lz: np.ndarray
    limit: float
    simulated: int


class Surprise:
    """lz of tests of the same items, from the log-probabilities of each item by response and ability."""

    def __init__(self, answers: Answers, items: Sequence[int]) -> None:
        self.logs = [answers.logs[item] for item in items]
        self.mean = sum(mean_log(log) for log in self.logs)
        self.variance = sum((np.exp(log) * log ** 2).sum(0) - mean_log(log) ** 2 for log in self.logs)

    def lz(self, responses: np.ndarray, places: np.ndarray) -> np.ndarray:
        """lz of each row of responses, at the ability at its place; NaN where each answer is sure."""
        observed = sum(log[responses[:, place], places] for place, log in enumerate(self.logs))
        variance = self.variance[places]
        away = observed - self.mean[places]
        return np.divide(away, np.sqrt(variance), out=np.full(len(away), np.nan), where=variance > 1e-12)


def mean_log(log: np.ndarray) -> np.ndarray:
    return (np.exp(log) * log).sum(0)


def fit_of_examinees(answers: Answers, population: Population, seed: int) -> PersonFit:
    """lz of each session at the mean of its posterior, and its limit. Each session has an answer."""
    posterior, rng = answers.posterior(population), np.random.default_rng([seed, 5])
    places = nearest(answers.theta, posterior @ answers.theta)
    rounds, observed, drawn = -(-SIMULATED // len(answers.given)), [], []
    for given, place, chances in zip(answers.given, places, posterior):
        items, responses = [item for item, _ in given], np.array([[response for _, response in given]])
        surprise = Surprise(answers, items)
        observed.append(surprise.lz(responses, np.array([place]))[0])
        drawn.append(surprise.lz(*second_answers(answers, population, items, chances, rounds, rng)))
    simulated = np.concatenate(drawn)
    return PersonFit(np.array(observed), float(np.nanquantile(simulated, 0.01)), len(simulated))


def nearest(theta: np.ndarray, values: np.ndarray) -> np.ndarray:
    """The places of the abilities that are nearest to some values."""
    return np.rint((values - theta[0]) / (theta[1] - theta[0])).astype(int)


def second_answers(answers: Answers, population: Population, items: Sequence[int], chances: np.ndarray, rounds: int,
                   rng: np.random.Generator) -> Tuple[np.ndarray, np.ndarray]:
    """Answers to the same items at abilities that are drawn from a posterior, so many times; and the places of their own estimates."""
    at = rng.choice(len(chances), rounds, p=chances)
    total, responses = np.zeros((rounds, len(chances))), np.zeros((rounds, len(items)), int)
    for place, item in enumerate(items):
        below = np.cumsum(np.exp(answers.logs[item]), 0)[:-1, at]
        responses[:, place] = (rng.random(rounds) > below).sum(0)
        total += answers.logs[item][responses[:, place]]
    weights = np.exp(total - total.max(1, keepdims=True)) * population.weights(answers.theta)
    return responses, nearest(answers.theta, weights @ answers.theta / weights.sum(1))
