"""How a session is scored and reported: the one place of mean, error, scale, rounding and cut scores, for results and reports alike.

The posterior is that of the bank's whole numbers over the grid. A score is A + B * theta, kept within the obtainable scores, and then
rounded to the decimals that are printed, halves away from 0. The level is that of the printed score: what an examinee reads decides.
"""
import argparse
import math
from dataclasses import dataclass, field
from decimal import ROUND_HALF_UP, Decimal
from typing import Any, Dict, List, NamedTuple, Optional, Sequence, Tuple

from shadowtools.command import Refused
from shadowtools.formats.examination import BankItem, Session, is_finite, json_of
from shadowtools.needs import require
from shadowtools.options import between, finite, whole

ESTIMATES = ("eap", "mode", "wle", "mle")
NAMES = {"eap": "mean (EAP)", "mode": "mode on the grid", "wle": "weighted likelihood (WLE)", "mle": "maximum likelihood (MLE)"}
SHORT_NAMES = {"eap": "EAP", "mode": "mode", "wle": "WLE", "mle": "MLE"}
BY_LIKELIHOOD = ("wle", "mle")
DECIMALS, NOISE = 4, 9
FARTHEST = 1e9


# ---------------------------------------------------------------- the posterior

def posterior_sums(bank: Sequence[BankItem], prior: Sequence[int], items: Sequence[int], responses: Sequence[int]) -> List[int]:
    """By point the prior and the log-likelihoods of the answers, summed: whole numbers, as shadowd has them."""
    sums = list(prior)
    for item, response in zip(items, responses):
        logs = bank[item].logs[response]
        if len(logs) != len(sums):
            raise Refused(f"item {item}: {len(logs)} log-likelihoods, the prior has {len(sums)} points")
        sums = [total + log for total, log in zip(sums, logs)]
    return sums


def mode(sums: Sequence[int]) -> int:
    """The point of the greatest sum, in a tie the lowest."""
    return sums.index(max(sums))


def weights_of(sums: Sequence[int], unit: float) -> List[float]:
    """The posterior probability of each point."""
    top = max(sums)
    weights = [math.exp((total - top) / unit) for total in sums]
    whole_weight = math.fsum(weights)
    return [weight / whole_weight for weight in weights]


def moments(sums: Sequence[int], theta: Sequence[float], unit: float) -> Tuple[float, float]:
    """Mean and standard deviation of the posterior over the grid."""
    weights = weights_of(sums, unit)
    mean = math.fsum(w * t for w, t in zip(weights, theta))
    return mean, math.sqrt(math.fsum(w * (t - mean) ** 2 for w, t in zip(weights, theta)))


def share_below(weights: Sequence[float], theta: Sequence[float], cut: float) -> float:
    """The posterior probability below an ability: that of a point is spread evenly over the step about it."""
    half = (theta[1] - theta[0]) / 2
    return math.fsum(w * min(1.0, max(0.0, (cut - t + half) / (2 * half))) for w, t in zip(weights, theta))


def normal_below(mean: float, deviation: float, cut: float) -> float:
    return math.erfc((mean - cut) / (deviation * math.sqrt(2))) / 2


# ---------------------------------------------------------------- what is asked of a score

@dataclass(frozen=True)
class Reporting:
    """How scores are reported: the estimate, the scale A + B * theta, the obtainable scores (none: those of the ends of the grid),
    the cut scores on that scale, ascending, the names of the levels (none: 0, 1, ..), and the decimals of a printed score."""
    estimate: str = "eap"
    scale: Sequence[float] = (0.0, 1.0)
    obtainable: Optional[Sequence[float]] = None
    cuts: Sequence[float] = field(default_factory=list)
    levels: Optional[Sequence[str]] = None
    decimals: Optional[int] = None


OPTIONS = tuple(Reporting.__dataclass_fields__)


def add_reporting(parser: argparse.ArgumentParser) -> None:
    """The options of `Reporting`. One that is not given is None, or an empty list."""
    parser.add_argument("--estimate", choices=ESTIMATES)
    parser.add_argument("--scale", nargs=2, type=finite)
    parser.add_argument("--obtainable", nargs=2, type=finite)
    parser.add_argument("--cuts", nargs="+", type=between(-FARTHEST, FARTHEST), default=[])
    parser.add_argument("--levels", nargs="+")
    parser.add_argument("--decimals", type=whole(0, NOISE))


def reporting_of(given: argparse.Namespace) -> Reporting:
    """What the options ask. Refused are a scale that is none, cuts that don't ascend, and names that are not one more than the cuts."""
    found = Reporting(given.estimate or "eap", given.scale or [0.0, 1.0], given.obtainable, given.cuts, given.levels, given.decimals)
    if not 1e-9 <= found.scale[1] <= FARTHEST or abs(found.scale[0]) > FARTHEST:
        raise Refused(f"--scale {found.scale[0]:g} {found.scale[1]:g}: B is above 0, and neither is above 1e9")
    if sorted(set(found.cuts)) != list(found.cuts):
        raise Refused(f"--cuts {' '.join(f'{cut:g}' for cut in found.cuts)}: cut scores that ascend")
    if found.levels and len(found.levels) != len(found.cuts) + 1:
        raise Refused(f"--levels {' '.join(found.levels)}: one name more than there are cuts, {len(found.cuts)}")
    return found


def reporting_of_record(path: str) -> Reporting:
    """What the scores were asked for whose record (score.py --record) is at a path."""
    record = json_of(path)
    asked: Dict[str, Any] = record.get("options") if isinstance(record, dict) else None
    kinds = {"estimate": lambda value: value in ESTIMATES, "scale": is_pair, "cuts": is_list_of(is_finite),
             "obtainable": lambda value: value is None or is_pair(value),
             "levels": lambda value: value is None or is_list_of(is_text)(value),
             "decimals": lambda value: value is None or type(value) is int and 0 <= value <= NOISE}
    for name, holds in kinds.items():
        if not isinstance(asked, dict) or not holds(asked.get(name)):
            raise Refused(f"{path}: no record of score.py: {name} of its options is missing or none")
    return reporting_of(argparse.Namespace(**{name: asked.get(name) for name in OPTIONS}))


def is_text(value: Any) -> bool:
    return isinstance(value, str)


def is_list_of(holds):
    return lambda value: isinstance(value, list) and all(map(holds, value))


def is_pair(value: Any) -> bool:
    return is_list_of(is_finite)(value) and len(value) == 2


# ---------------------------------------------------------------- scores

class Score(NamedTuple):
    """What is reported of a session: the estimate, its standard error, at which end it was stopped, and, by a cut, the
    probability that the true ability is below it."""
    theta: float
    error: float
    end: str
    below: List[float]


def rounded(score: float, decimals: int) -> Decimal:
    """A score to so many decimals, a half away from 0. What a computer's arithmetic adds in the tenth decimal decides no half."""
    return Decimal(f"{score:.{NOISE}f}").quantize(Decimal(1).scaleb(-decimals), ROUND_HALF_UP)


@dataclass
class Scale:
    """The reported scale A + B * theta, the obtainable scores and the cut scores on it, the names of the levels, and the decimals
    of a printed score."""
    start: float
    unit: float
    low: float
    high: float
    cuts: Sequence[float]
    levels: Sequence[str]
    decimals: int

    def theta(self, score: float) -> float:
        return (score - self.start) / self.unit

    def score(self, theta: float) -> Decimal:
        """The score as it is printed."""
        return rounded(min(self.high, max(self.low, self.start + self.unit * theta)), self.decimals)

    def end(self, found: Score) -> str:
        """At which end of the obtainable scores a score is: `lowest`, `highest` or an empty text."""
        score = self.score(found.theta)
        ends = {rounded(self.high, self.decimals): "highest", rounded(self.low, self.decimals): "lowest"}
        return ends.get(score, found.end)

    def level(self, score: Decimal) -> int:
        """The number of the level of a printed score: of the cuts at or below it."""
        return sum(Decimal(repr(float(cut))) <= score for cut in self.cuts)

    def cells(self, found: Score) -> List[str]:
        """The cells theta to level_error."""
        score = self.score(found.theta)
        cells = [f"{found.theta:.4f}", f"{found.error:.4f}", f"{score:f}", f"{self.unit * found.error:.4f}", self.end(found)]
        if not self.cuts:
            return cells + ["", ""]
        level = self.level(score)
        bounds = [0.0] + found.below + [1.0]
        return cells + [self.levels[level], f"{1 - (bounds[level + 1] - bounds[level]):.4f}"]


def scale_of(asked: Reporting, theta: Sequence[float]) -> Scale:
    """The scale over a grid. Refused are obtainable scores that are none, or have more decimals than a score, and a cut score that no
    score is below, or none reaches."""
    start, unit = asked.scale
    low, high = asked.obtainable or (start + unit * theta[0], start + unit * theta[-1])
    decimals = DECIMALS if asked.decimals is None else asked.decimals
    if not low < high:
        raise Refused(f"--obtainable {low:g} {high:g}: the lowest score is not below the highest")
    for end in asked.obtainable or ():
        if asked.decimals is not None and rounded(end, decimals) != Decimal(repr(float(end))):
            raise Refused(f"--obtainable {end:g}: a score has {decimals} decimals")
    for cut in asked.cuts:
        if not low < cut <= high:
            raise Refused(f"--cuts {cut:g}: the obtainable scores are {low:g} to {high:g}, on the scale {words_of(asked.scale)}")
    return Scale(start, unit, low, high, list(asked.cuts), asked.levels or [str(k) for k in range(len(asked.cuts) + 1)], decimals)


def words_of(scale: Sequence[float]) -> str:
    """A scale in words."""
    return "of ability" if list(scale) == [0.0, 1.0] else f"{scale[0]:g} + {scale[1]:g} × ability"


class Scorer:
    """Scores of sessions by one of the estimates, from the bank, the plan's prior and the map of their examination."""

    def __init__(self, bank: Sequence[BankItem], prior: Sequence[int], scale_map: Dict[str, Any], asked: Reporting) -> None:
        self.bank, self.prior, self.map, self.asked = bank, prior, scale_map, asked
        self.theta, self.unit = scale_map["theta"], scale_map["log_unit"]
        self.scale = scale_of(asked, self.theta)
        self.cuts = [self.scale.theta(cut) for cut in self.scale.cuts]
        self.exact = exact_items(scale_map) if asked.estimate in BY_LIKELIHOOD else []

    def sums(self, session: Session) -> List[int]:
        return posterior_sums(self.bank, self.prior, session.items, session.responses)

    def score(self, session: Session) -> Score:
        if self.exact:
            return self.by_likelihood(session)
        sums = self.sums(session)
        weights, (mean, deviation) = weights_of(sums, self.unit), moments(sums, self.theta, self.unit)
        value = mean if self.asked.estimate == "eap" else self.theta[mode(sums)]
        return Score(value, deviation, "", [share_below(weights, self.theta, cut) for cut in self.cuts])

    def by_likelihood(self, session: Session) -> Score:
        from shadowtools.agency.estimation import Answers
        items = [self.exact[k] for k in session.items[:len(session.responses)]]
        answers = Answers(items, session.responses, self.map["D"], self.scale.theta(self.scale.low), self.scale.theta(self.scale.high))
        found = answers.estimate(self.asked.estimate == "wle")
        return Score(*found, [normal_below(found.theta, found.error, cut) for cut in self.cuts])

    def counting(self, session: Session) -> int:
        """How many of the answers are to items that are not in field test."""
        return sum(self.map["items"][k]["model"] != "FIELD" for k in session.items[:len(session.responses)])


def exact_items(scale_map: dict) -> list:
    """The items of a map with their exact parameters."""
    require("the estimate wle or mle", "numpy")
    from shadowtools.agency.irt import DICHOTOMOUS, FIELD, POLYTOMOUS, Item, fault
    found = [Item(one["id"], one["model"], one["parameters"]) for one in scale_map["items"]]
    for item in found:
        why = fault(item) if item.model in (*DICHOTOMOUS, *POLYTOMOUS, FIELD) else "unknown model"
        if why:
            raise Refused(f"the map's item {item.name}: {why}")
    return found
